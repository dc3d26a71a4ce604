//! Numbers of every size: special ones, any bits, too large, too small.

use super::days::{day_heater, day_step, day_tank};
use super::numbers::{absent, rising, special};
use crate::job::{Step, Writer};
use crate::rng::Rng;
use original::probe::Making;

/// An ordinary job with some numbers replaced by special ones, or by random bits.
pub fn strange(rng: &mut Rng, writer: &mut Writer, bits: bool) {
    let odds = *rng.pick(&[4, 10, 30, 60]);
    let swap = |rng: &mut Rng, x: f64| {
        if !rng.one_in(odds) {
            x
        } else if bits {
            let y = f64::from_bits(rng.next());
            if rng.one_in(2) {
                y.abs()
            } else {
                y
            }
        } else {
            special(rng)
        }
    };
    let layers = rng.from_to(1, 8) as usize;
    let heaters = rng.from_to(0, 3) as usize;
    let mut tank = day_tank(rng, layers);
    // A tank that is refused ends the job: mostly spare it.
    if rng.one_in(2) {
        tank.volume = swap(rng, tank.volume);
        tank.standby = swap(rng, tank.standby);
        tank.initial = swap(rng, tank.initial);
        tank.density = swap(rng, tank.density);
        tank.specific_heat = swap(rng, tank.specific_heat);
        tank.ambient = swap(rng, tank.ambient);
        tank.step = swap(rng, tank.step);
    }
    writer.tank(&tank);
    let absent = absent(rng);
    for _ in 0..heaters {
        let mut heater = day_heater(rng);
        if rng.one_in(2) {
            heater.rated = swap(rng, heater.rated);
            heater.position = swap(rng, heater.position);
            heater.thermostat = heater.thermostat.map(|x| swap(rng, x));
        }
        writer.heater(&heater, absent);
    }
    for _ in 0..rng.from_to(1, 5) {
        let mut step = day_step(rng, 100.0, heaters, 10.0);
        step.feed = swap(rng, step.feed);
        for volume in &mut step.volumes {
            *volume = swap(rng, *volume);
        }
        for (lower, upper) in &mut step.set_points {
            *lower = lower.map(|x| swap(rng, x));
            *upper = upper.map(|x| swap(rng, x));
            if rng.one_in(40) {
                *upper = None;
            }
        }
        writer.step(&step, absent);
    }
}

/// Finite going in, too large in the middle.
pub fn overflow(rng: &mut Rng, writer: &mut Writer) {
    let layers = rng.from_to(1, 6) as usize;
    let heaters = rng.from_to(0, 3) as usize;
    let mut tank = day_tank(rng, layers);
    let large = |rng: &mut Rng| rng.sized(150.0, 308.2) * if rng.one_in(3) { -1.0 } else { 1.0 };
    match rng.below(8) {
        0 => tank.initial = large(rng),
        1 => tank.volume = large(rng).abs(),
        2 => tank.density = large(rng).abs(),
        3 => tank.standby = large(rng).abs(),
        4 => tank.ambient = large(rng),
        5 => tank.step = large(rng).abs(),
        6 => tank.specific_heat = 1.0 / large(rng).abs(),
        _ => {}
    }
    if rng.one_in(3) {
        tank.volume = 1.0 / large(rng).abs();
    }
    writer.tank(&tank);
    for _ in 0..heaters {
        let mut heater = day_heater(rng);
        if rng.one_in(3) {
            heater.rated = large(rng).abs();
        }
        writer.heater(&heater, 0.0);
    }
    for _ in 0..rng.from_to(1, 4) {
        let mut step = day_step(rng, 100.0, heaters, 10.0);
        if rng.one_in(3) {
            step.feed = large(rng);
        }
        for volume in &mut step.volumes {
            if rng.one_in(4) {
                *volume = large(rng).abs();
            }
        }
        for (lower, upper) in &mut step.set_points {
            if rng.one_in(4) {
                *upper = Some(large(rng).abs());
            }
            if rng.one_in(8) {
                *lower = lower.map(|_| -large(rng).abs());
            }
        }
        writer.step(&step, 0.0);
    }
}

/// A volume that divides to little or to nothing.
pub fn tiny(rng: &mut Rng, writer: &mut Writer) {
    let layers = *rng.pick(&[1, 2, 3, 4, 31, 32]);
    let heaters = rng.from_to(0, 2) as usize;
    let mut tank = day_tank(rng, layers);
    tank.volume = *rng.pick(&[5e-324, 1e-323, 8e-323, 1.6e-322, 1e-310, 1e-300, 1e-12, 3e-10]);
    if rng.one_in(3) {
        tank.standby = 0.0;
    }
    if rng.one_in(4) {
        tank.ambient = tank.initial;
    }
    writer.tank(&tank);
    for _ in 0..heaters {
        let mut heater = day_heater(rng);
        if rng.one_in(2) {
            heater.rated = 0.0;
        }
        writer.heater(&heater, 0.0);
    }
    for _ in 0..rng.from_to(1, 3) {
        let step = day_step(rng, tank.volume, heaters, 10.0);
        writer.step(&step, 0.0);
    }
}

/// Sizes from one end of the doubles to the other, where the grouping of a product shows.
pub fn range(rng: &mut Rng, writer: &mut Writer) {
    let wide = *rng.pick(&[20.0, 100.0, 200.0, 300.0]);
    let size = |rng: &mut Rng| {
        if rng.one_in(3) {
            rng.between(0.5, 80.0)
        } else {
            rng.sized(-wide, wide)
        }
    };
    let signed = |rng: &mut Rng| {
        let x = size(rng);
        if rng.one_in(4) {
            -x
        } else {
            x
        }
    };
    let layers = rng.from_to(1, 4) as usize;
    let heaters = rng.from_to(0, 3) as usize;
    let tank = Making {
        layers,
        volume: size(rng),
        standby: if rng.one_in(3) { 0.0 } else { size(rng) },
        initial: signed(rng),
        density: size(rng),
        specific_heat: size(rng),
        ambient: signed(rng),
        step: size(rng),
    };
    writer.tank(&tank);
    for _ in 0..heaters {
        let mut heater = day_heater(rng);
        heater.rated = size(rng);
        writer.heater(&heater, 0.0);
    }
    for _ in 0..rng.from_to(1, 3) {
        let feed = signed(rng);
        let volumes = (0..rng.below(3))
            .map(|_| {
                if rng.one_in(2) {
                    size(rng)
                } else {
                    tank.volume * rng.between(0.0, 1.5)
                }
            })
            .map(|volume| volume.min(f64::MAX))
            .collect();
        let set_points = (0..heaters)
            .map(|_| {
                let a = if rng.one_in(2) { tank.initial } else { signed(rng) };
                let b = signed(rng);
                rising(a, b)
            })
            .collect();
        let step = Step {
            feed,
            volumes,
            set_points,
        };
        writer.step(&step, 0.0);
    }
}
