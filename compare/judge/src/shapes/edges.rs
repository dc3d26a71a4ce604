//! Counts, places and numbers at their edges: ties, tolerances, zeros.

use super::days::{day_heater, day_step, day_tank};
use super::numbers::{absent, near, rising};
use crate::job::{Step, Writer};
use crate::lowered::JUST_BELOW_ONE;
use crate::rng::Rng;
use original::probe::{Heater, Making};

pub fn edges(rng: &mut Rng, writer: &mut Writer) {
    let layers = *rng.pick(&[0, 1, 1, 2, 31, 32, 32, 33, 65535, 4]);
    let heaters = *rng.pick(&[0, 1, 2, 7, 8, 8, 9, 10]);
    let mut tank = day_tank(rng, layers);
    if rng.one_in(4) {
        tank.volume = (layers * 16) as f64;
    }
    writer.tank(&tank);
    let places = [0.0, -0.0, JUST_BELOW_ONE, 0.5, 0.5, 0.25, 5e-324];
    // The first is the top layer (02, R-2), and the others are refused.
    let rare_places = [1.0, -5e-324, 1.5, f64::NAN];
    for _ in 0..heaters {
        let mut heater = day_heater(rng);
        heater.position = *rng.pick(&places);
        heater.thermostat = match rng.below(3) {
            0 => None,
            _ => Some(*rng.pick(&places)),
        };
        if rng.one_in(40) {
            heater.position = *rng.pick(&rare_places);
        }
        if rng.one_in(40) {
            heater.thermostat = Some(*rng.pick(&rare_places));
        }
        if rng.one_in(6) {
            heater.rated = -0.0;
        }
        writer.heater(&heater, absent(rng));
    }
    for _ in 0..rng.from_to(1, 4) {
        let mut step = day_step(rng, tank.volume, heaters, 10.0);
        let events = *rng.pick(&[0, 1, 2, 63, 64, 65, 66, 3, 200]);
        step.volumes = (0..events)
            .map(|_| match rng.below(6) {
                0 => 0.0,
                1 => -0.0,
                2 => tank.volume / layers.max(1) as f64,
                3 => tank.volume,
                _ => rng.between(0.0, 0.2 * tank.volume),
            })
            .collect();
        writer.step(&step, absent(rng));
    }
}

/// A position at 1 or around it, or another.
fn high_place(rng: &mut Rng, other: f64) -> f64 {
    match rng.below(120) {
        0 => *rng.pick(&[1.0 + f64::EPSILON, 1.5, f64::INFINITY, f64::NAN, -1.0]),
        1..=50 => 1.0,
        51..=70 => JUST_BELOW_ONE,
        71..=80 => 1.0 - f64::EPSILON,
        81..=85 => *rng.pick(&[0.0, -0.0, 0.5]),
        _ => other,
    }
}

/// Ordinary days of tanks with heaters and thermostats at 1 (02, R-2), just below it, and now and then above.
pub fn lid(rng: &mut Rng, writer: &mut Writer) {
    let layers = *rng.pick(&[1, 1, 2, 2, 3, 4, 5, 7, 16, 31, 32]);
    let heaters = rng.from_to(1, 8).min(rng.from_to(1, 8)) as usize;
    let tank = day_tank(rng, layers);
    writer.tank(&tank);
    let absent = absent(rng);
    for _ in 0..heaters {
        let mut heater = day_heater(rng);
        heater.position = high_place(rng, heater.position);
        heater.thermostat = heater.thermostat.map(|x| high_place(rng, x));
        writer.heater(&heater, absent);
    }
    for _ in 0..rng.from_to(1, 8) {
        let feed = if rng.one_in(6) {
            rng.between(20.0, 80.0)
        } else {
            rng.between(4.0, 18.0)
        };
        writer.step(&day_step(rng, tank.volume, heaters, feed), absent);
    }
}

/// Whole numbers and halves, where ties and equalities are common.
pub fn exact(rng: &mut Rng, writer: &mut Writer) {
    let layers = *rng.pick(&[1usize, 2, 3, 4, 5, 8]);
    let heaters = rng.from_to(0, 3) as usize;
    let each = *rng.pick(&[16.0, 8.0, 1.0, 10.0]);
    let tank = Making {
        layers,
        volume: each * layers as f64,
        standby: *rng.pick(&[0.0, 0.0, 27.0, 1.08]),
        initial: rng.from_to(0, 8) as f64 * 10.0,
        density: 1.0,
        specific_heat: *rng.pick(&[1.0, 1.0, 0.5]),
        ambient: *rng.pick(&[20.0, 0.0, 40.0]),
        step: *rng.pick(&[1.0, 0.125, 0.5]),
    };
    writer.tank(&tank);
    for _ in 0..heaters {
        let heater = Heater {
            rated: *rng.pick(&[0.0, 16.0, 160.0, 320.0, 80.0]),
            position: rng.below(4) as f64 / 4.0,
            thermostat: if rng.one_in(2) {
                None
            } else {
                Some(rng.below(8) as f64 / 8.0)
            },
        };
        writer.heater(&heater, 0.0);
    }
    for _ in 0..rng.from_to(1, 8) {
        let step = Step {
            feed: *rng.pick(&[12.0, 10.0, 20.0, 60.0, 70.0, 0.0, -10.0]),
            volumes: (0..rng.below(4))
                .map(|_| rng.below(5) as f64 * 0.5 * each)
                .collect(),
            set_points: (0..heaters)
                .map(|_| {
                    let lower = rng.from_to(0, 8) as f64 * 10.0;
                    match rng.below(6) {
                        0 => (None, None),
                        1 => (None, Some(lower)),
                        _ => (Some(lower), Some(lower + rng.below(4) as f64 * 5.0)),
                    }
                })
                .collect(),
        };
        writer.step(&step, 0.0);
    }
}

/// Layers, set points, draws and volumes on both sides of the tolerances.
pub fn near_ones(rng: &mut Rng, writer: &mut Writer) {
    let layers = rng.from_to(1, 12) as usize;
    let heaters = rng.from_to(0, 4) as usize;
    let mut tank = day_tank(rng, layers);
    if rng.one_in(8) {
        // Layers whose volume is about the wide tolerance.
        let each = near(rng, 1e-10);
        tank.volume = each * layers as f64;
    }
    if rng.one_in(6) {
        // So large that a rounding error is about the wide tolerance.
        tank.volume = rng.sized(4.0, 6.5);
    }
    let coarse = rng.one_in(8);
    if coarse {
        // Here a draw a little above the wide tolerance leaves a lack a little below it.
        tank.volume = rng.between(131_072.0, 262_143.0) * layers as f64;
    }
    if rng.one_in(4) {
        tank.standby = 0.0;
    }
    if rng.one_in(4) {
        tank.initial = *rng.pick(&[0.0, 1e-10, 1e-9, -40.0, 1e-300]);
    }
    writer.tank(&tank);
    for _ in 0..heaters {
        let mut heater = day_heater(rng);
        if rng.one_in(3) {
            heater.rated = *rng.pick(&[1e-10, 1e-9, 1e-12, 1e-7]);
        }
        writer.heater(&heater, 0.0);
    }
    let each = tank.volume / layers as f64;
    for _ in 0..rng.from_to(1, 6) {
        let feed = if coarse { 10.0 } else { near(rng, tank.initial) };
        let volumes = (0..rng.below(5))
            .map(|_| {
                let whole = each * rng.from_to(1, layers as u64 + 1) as f64;
                let volume = match rng.below(5) {
                    _ if coarse => whole + 1e-10 * rng.between(0.99, 1.03),
                    0 => near(rng, 1e-10),
                    1 => near(rng, whole),
                    2 => whole + near(rng, 1e-10),
                    3 if rng.one_in(2) => whole + 1e-10 * rng.between(0.5, 4.0),
                    3 => whole,
                    _ => rng.between(0.0, tank.volume),
                };
                volume.abs()
            })
            .collect();
        let set_points = (0..heaters)
            .map(|_| {
                let lower = near(rng, tank.initial);
                let upper = match rng.below(3) {
                    0 => near(rng, lower),
                    1 => lower,
                    _ => lower + rng.between(0.0, 10.0),
                };
                rising(lower, upper)
            })
            .collect();
        let step = Step {
            feed,
            volumes,
            set_points,
        };
        writer.step(&step, 0.0);
    }
}

/// Zeros of either sign, and the smallest numbers, wherever a number may stand.
pub fn zeros(rng: &mut Rng, writer: &mut Writer) {
    let any = [0.0, -0.0, 0.0, -0.0, 5e-324, -5e-324, 1.0, -1.0];
    let not_below = [0.0, -0.0, 0.0, -0.0, 5e-324, 1.0, 16.0];
    let layers = *rng.pick(&[1, 1, 1, 2, 2, 3, 4]);
    let heaters = rng.from_to(0, 3) as usize;
    let tank = Making {
        layers,
        volume: *rng.pick(&[16.0, 48.0, 1.0, 5e-324]),
        standby: *rng.pick(&not_below),
        initial: *rng.pick(&any),
        density: *rng.pick(&[1.0, 1.0, 1.0, 1.0, 5e-324]),
        specific_heat: *rng.pick(&[1.0, 1.0, 1.0, 0.5, 5e-324]),
        ambient: *rng.pick(&any),
        step: *rng.pick(&[1.0, 1.0, 1.0, 5e-324]),
    };
    writer.tank(&tank);
    let each = tank.volume / layers as f64;
    for _ in 0..heaters {
        let heater = Heater {
            rated: *rng.pick(&not_below),
            position: *rng.pick(&[0.0, -0.0, 0.5, 0.75]),
            thermostat: *rng.pick(&[None, Some(0.0), Some(-0.0), Some(0.5)]),
        };
        writer.heater(&heater, 0.0);
    }
    for _ in 0..rng.from_to(1, 5) {
        let feed = *rng.pick(&any);
        let volumes = (0..rng.below(4))
            .map(|_| *rng.pick(&[0.0, -0.0, 5e-324, each, 0.5 * each, 2.5 * each, tank.volume]))
            .collect();
        let set_points = (0..heaters)
            .map(|_| {
                let a = *rng.pick(&any);
                let b = *rng.pick(&any);
                match rng.below(6) {
                    0 => (None, None),
                    1 => (None, Some(b)),
                    _ => rising(a, b),
                }
            })
            .collect();
        let step = Step {
            feed,
            volumes,
            set_points,
        };
        writer.step(&step, 0.0);
    }
}
