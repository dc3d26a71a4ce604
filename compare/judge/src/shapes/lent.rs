//! Tanks, reports and arguments that no make and no reader made, and lists of layers of any length.

use super::calls::any_layers;
use super::days::{day_heater, day_step, day_tank};
use super::numbers::{near, special};
use crate::job::{MOST_EVENTS, MOST_HEATERS, MOST_LAYERS};
use crate::lent::{LentReport, LentStep, LentTank};
use crate::lowered::JUST_BELOW_ONE;
use crate::rng::Rng;

/// What stands in places that are not in use.
#[derive(Clone, Copy)]
enum Filling {
    Zeros,
    Special,
    Bits,
    Plausible,
}

fn filler(rng: &mut Rng, filling: Filling) -> f64 {
    match filling {
        Filling::Zeros => 0.0,
        Filling::Special => special(rng),
        Filling::Bits => f64::from_bits(rng.next()),
        Filling::Plausible => rng.between(0.0, 90.0),
    }
}

/// A number that does not belong: special, any bits, or too large or too small to be worked with.
fn odd(rng: &mut Rng) -> f64 {
    match rng.below(4) {
        0 => f64::from_bits(rng.next()),
        1 => rng.sized(150.0, 308.2) * if rng.one_in(3) { -1.0 } else { 1.0 },
        2 => rng.sized(-323.0, -150.0),
        _ => special(rng),
    }
}

/// A count that is out of range, or one too many or too few.
fn odd_count(rng: &mut Rng, right: u64, most: u64) -> u64 {
    let near = [0, right.wrapping_sub(1), right + 1, most, most + 1, most + 2];
    let far = [255, 65_536, 1 << 32, (1 << 32) + right, 1 << 63, u64::MAX];
    if rng.one_in(2) {
        *rng.pick(&near)
    } else {
        *rng.pick(&far)
    }
}

/// A byte for a flag. One that is set is 1, or any other but 0.
fn flag(rng: &mut Rng, set: bool) -> u8 {
    match (set, rng.below(4)) {
        (false, _) => 0,
        (true, 0 | 1) => 1,
        (true, 2) => *rng.pick(&[2, 3, 127, 128, 254, 255]),
        (true, _) => rng.from_to(1, 255) as u8,
    }
}

fn flags<const N: usize>(rng: &mut Rng) -> [u8; N] {
    std::array::from_fn(|_| {
        let set = rng.one_in(2);
        flag(rng, set)
    })
}

fn rows<const N: usize>(rng: &mut Rng, filling: Filling) -> [[f64; MOST_HEATERS]; N] {
    std::array::from_fn(|_| std::array::from_fn(|_| filler(rng, filling)))
}

/// A tank: ordinary or strange numbers where it is used, anything elsewhere.
fn tank(rng: &mut Rng, filling: Filling) -> LentTank {
    let layers = if rng.one_in(2) {
        rng.from_to(1, 8)
    } else {
        rng.from_to(1, MOST_LAYERS as u64)
    } as usize;
    let count = rng.from_to(0, 8).min(rng.from_to(0, 8)) as usize;
    let making = day_tank(rng, layers);
    let mut tank = LentTank {
        counts: [layers as u64, count as u64],
        numbers: [
            making.volume,
            making.standby,
            making.density,
            making.specific_heat,
            making.ambient,
            making.step,
        ],
        temps: std::array::from_fn(|_| filler(rng, filling)),
        heaters: rows(rng, filling),
        thermostats: flags(rng),
        flags: flags(rng),
    };
    let temps = any_layers(rng, layers);
    tank.temps[..layers].copy_from_slice(&temps);
    // Not-a-number and infinite layers are common above; more often, layers that can be worked.
    if rng.one_in(2) {
        let spread = *rng.pick(&[0.0, 1e-9, 5.0, 80.0]);
        let base = rng.between(-10.0, 70.0);
        tank.temps[..layers].fill_with(|| base + rng.between(0.0, spread));
    }
    for h in 0..count {
        let heater = day_heater(rng);
        tank.heaters[0][h] = heater.rated;
        tank.heaters[1][h] = heater.position;
        tank.thermostats[h] = flag(rng, heater.thermostat.is_some());
        if let Some(place) = heater.thermostat {
            tank.heaters[2][h] = place;
        }
        // The top layer (02, R-2), and the double just below it.
        for places in &mut tank.heaters[1..] {
            if rng.one_in(6) {
                places[h] = *rng.pick(&[1.0, JUST_BELOW_ONE]);
            }
        }
    }
    tank
}

fn report(rng: &mut Rng, filling: Filling) -> LentReport {
    LentReport {
        totals: std::array::from_fn(|_| filler(rng, filling)),
        figures: rows(rng, filling),
        flags: flags(rng),
        rounds: std::array::from_fn(|_| if rng.one_in(2) { rng.next() } else { rng.below(65) }),
    }
}

fn step(rng: &mut Rng, tank: &LentTank, filling: Filling) -> LentStep {
    let used = (tank.counts[0] as usize).clamp(1, MOST_LAYERS);
    let count = (tank.counts[1] as usize).min(MOST_HEATERS);
    let feed = match rng.below(4) {
        0 => rng.between(20.0, 90.0),
        1 => near(rng, tank.temps[0]),
        _ => 10.0,
    };
    let given = day_step(rng, tank.numbers[0], count, feed);
    let mut step = LentStep {
        feed,
        asked: [given.volumes.len() as u64, tank.counts[1]],
        volumes: std::array::from_fn(|_| filler(rng, filling)),
        present: [flags(rng), flags(rng)],
        points: rows(rng, filling),
    };
    step.volumes[..given.volumes.len()].copy_from_slice(&given.volumes);
    for (h, (lower, upper)) in given.set_points.iter().enumerate() {
        step.present[0][h] = flag(rng, lower.is_some());
        step.present[1][h] = flag(rng, upper.is_some());
        if let Some(lower) = lower {
            step.points[0][h] = *lower;
        }
        if let Some(upper) = upper {
            step.points[1][h] = *upper;
        }
        // A set point that a layer is at, or nearly.
        if rng.one_in(3) {
            let at = rng.below(used as u64) as usize;
            let point = near(rng, tank.temps[at]);
            if lower.is_some_and(|lower| lower <= point) {
                step.points[1][h] = point;
            } else if upper.is_some_and(|upper| point <= upper) {
                step.points[0][h] = point;
            }
        }
    }
    step
}

/// One thing in a tank that should not be.
fn spoil_tank(rng: &mut Rng, tank: &mut LentTank) {
    let used = (tank.counts[0] as usize).clamp(1, MOST_LAYERS) as u64;
    let fitted = (tank.counts[1] as usize).clamp(1, MOST_HEATERS) as u64;
    match rng.below(8) {
        0 => tank.counts[0] = odd_count(rng, tank.counts[0], MOST_LAYERS as u64),
        1 => tank.counts[1] = odd_count(rng, tank.counts[1], MOST_HEATERS as u64),
        2 | 3 => tank.numbers[rng.below(6) as usize] = odd(rng),
        4 | 5 => tank.temps[rng.below(used) as usize] = odd(rng),
        6 => tank.heaters[rng.below(3) as usize][rng.below(fitted) as usize] = odd(rng),
        _ => {
            tank.heaters[rng.from_to(1, 2) as usize][rng.below(fitted) as usize] =
                *rng.pick(&[1.0 + f64::EPSILON, -5e-324, 1.5])
        }
    }
}

/// One thing in a step that should not be.
fn spoil_step(rng: &mut Rng, tank: &LentTank, step: &mut LentStep) {
    let events = step.asked[0].clamp(1, MOST_EVENTS as u64);
    let fitted = tank.counts[1].clamp(1, MOST_HEATERS as u64);
    let h = rng.below(fitted) as usize;
    match rng.below(8) {
        0 => step.asked[0] = odd_count(rng, step.asked[0], MOST_EVENTS as u64),
        1 => step.asked[1] = odd_count(rng, step.asked[1], MOST_HEATERS as u64),
        2 => step.feed = odd(rng),
        3 => step.volumes[rng.below(events) as usize] = odd(rng),
        4 => step.volumes[rng.below(events) as usize] = -rng.between(0.0, 1.0),
        5 => step.points[rng.below(2) as usize][h] = odd(rng),
        6 => (step.present[0][h], step.present[1][h]) = (flag(rng, true), 0),
        _ => {
            step.points[0][h] = step.points[1][h] + 1.0;
            (step.present[0][h], step.present[1][h]) = (flag(rng, true), flag(rng, true));
        }
    }
}

/// A tank and a report that nobody made, and steps on them, one after another.
pub fn lent(seed: u64) -> (LentTank, LentReport, Vec<LentStep>) {
    let mut rng = Rng::new(super::LENT, seed);
    let rng = &mut rng;
    let filling = *rng.pick(&[
        Filling::Zeros,
        Filling::Special,
        Filling::Bits,
        Filling::Plausible,
    ]);
    let mut tank = tank(rng, filling);
    if rng.one_in(4) {
        for _ in 0..rng.from_to(1, 2) {
            spoil_tank(rng, &mut tank);
        }
    }
    let report = report(rng, filling);
    let steps = (0..rng.from_to(1, 3))
        .map(|_| {
            let mut step = step(rng, &tank, filling);
            if rng.one_in(4) {
                for _ in 0..rng.from_to(1, 2) {
                    spoil_step(rng, &tank, &mut step);
                }
            }
            step
        })
        .collect();
    (tank, report, steps)
}

/// An initial temperature and whatever else make is lent.
pub fn make(seed: u64) -> (f64, LentTank) {
    let mut rng = Rng::new(super::MAKE, seed);
    let rng = &mut rng;
    let filling = *rng.pick(&[
        Filling::Zeros,
        Filling::Special,
        Filling::Bits,
        Filling::Plausible,
    ]);
    let mut tank = tank(rng, filling);
    for _ in 0..rng.below(3) {
        spoil_tank(rng, &mut tank);
    }
    let initial = match rng.below(6) {
        0 => odd(rng),
        1 => -0.0,
        _ => rng.between(5.0, 75.0),
    };
    (initial, tank)
}

/// A mixing of any list: of any length, in any order, some of its layers odd, of any layer volume.
pub fn list(seed: u64) -> (f64, Vec<f64>) {
    let mut rng = Rng::new(super::LISTS, seed);
    let rng = &mut rng;
    let count = match rng.below(12) {
        0 => rng.below(3),
        1 => rng.from_to(33, 40),
        2 => *rng.pick(&[31, 32, 33, 64, 65, 255, 1000]),
        _ => rng.from_to(2, 32),
    } as usize;
    let volume = match rng.below(8) {
        0 => odd(rng),
        1 => rng.sized(-300.0, 300.0),
        _ => rng.between(0.5, 60.0),
    };
    let mut layers = any_layers(rng, count);
    // Odd layers at the ends and between, among ones in or out of order.
    if count > 0 && rng.one_in(3) {
        for _ in 0..rng.from_to(1, 3) {
            let at = match rng.below(4) {
                0 => 0,
                1 => count - 1,
                _ => rng.below(count as u64) as usize,
            };
            layers[at] = odd(rng);
        }
    }
    (volume, layers)
}
