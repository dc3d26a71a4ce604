//! Arguments of the calls themselves: tanks whose layers and flags are put in, and layers to mix.

use super::days::{day_heater, day_step, day_tank};
use super::numbers::{near, special};
use super::MIX;
use crate::job::Writer;
use crate::rng::Rng;

/// Layers in any order, near to one another, or full of special numbers.
pub fn any_layers(rng: &mut Rng, count: usize) -> Vec<f64> {
    let kind = rng.below(8);
    let base = rng.between(-20.0, 90.0);
    let mut layers: Vec<f64> = (0..count)
        .map(|_| match kind {
            0 => rng.between(5.0, 90.0),
            1 => rng.from_to(1, 6) as f64 * 10.0,
            2 => near(rng, base),
            3 => base,
            4 => rng.sized(-320.0, 308.0) * if rng.one_in(2) { -1.0 } else { 1.0 },
            5 => {
                if rng.one_in(4) {
                    special(rng)
                } else {
                    rng.between(5.0, 90.0)
                }
            }
            6 => f64::from_bits(rng.next()),
            _ => {
                let middle = *rng.pick(&[10.0, 40.0, 60.0]);
                near(rng, middle)
            }
        })
        .collect();
    match rng.below(4) {
        0 => layers.sort_by(f64::total_cmp),
        1 => {
            layers.sort_by(f64::total_cmp);
            layers.reverse();
        }
        _ => {}
    }
    layers
}

pub fn put(rng: &mut Rng, writer: &mut Writer) {
    let layers = if rng.one_in(2) {
        rng.from_to(1, 8)
    } else {
        rng.from_to(1, 32)
    } as usize;
    let heaters = rng.from_to(0, 8).min(rng.from_to(0, 8)) as usize;
    let tank = day_tank(rng, layers);
    writer.tank(&tank);
    for _ in 0..heaters {
        writer.heater(&day_heater(rng), 0.0);
    }
    for _ in 0..rng.from_to(1, 3) {
        let temperatures = any_layers(rng, layers);
        let flags: Vec<bool> = (0..heaters).map(|_| rng.one_in(2)).collect();
        writer.put(&temperatures, &flags);
        for _ in 0..rng.from_to(1, 3) {
            let feed = if rng.one_in(3) {
                rng.between(20.0, 90.0)
            } else {
                10.0
            };
            let mut step = day_step(rng, tank.volume, heaters, feed);
            for (lower, upper) in &mut step.set_points {
                if rng.one_in(4) {
                    let target = *rng.pick(&temperatures);
                    let upper_near = near(rng, target);
                    if upper_near.is_finite() {
                        *upper = Some(upper_near);
                        *lower = lower.map(|x| x.min(upper_near));
                    }
                }
            }
            writer.step(&step, 0.0);
        }
    }
}

/// A mixing: the volume of a layer, and the layers.
pub fn mix(seed: u64) -> (f64, Vec<f64>) {
    let mut rng = Rng::new(MIX, seed);
    let rng = &mut rng;
    let count = match rng.below(40) {
        0 => 0,
        1 => 33,
        2..=6 => 32,
        7..=9 => 1,
        10..=25 => rng.from_to(2, 6),
        _ => rng.from_to(2, 32),
    } as usize;
    let volume = match rng.below(20) {
        0 => special(rng),
        1 => f64::from_bits(rng.next()),
        2 => 5e-324,
        3 => 1e308,
        4..=9 => 16.0,
        _ => rng.between(0.5, 60.0),
    };
    if count >= 2 && rng.one_in(6) {
        // Two layers on the edge of narrow-close, and more far above.
        let low = rng.between(-90.0, 90.0);
        let mut layers = vec![low, near(rng, low)];
        layers.extend((2..count).map(|i| 1000.0 * i as f64));
        return (volume, layers);
    }
    (volume, any_layers(rng, count))
}
