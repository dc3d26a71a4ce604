//! Ordinary tanks on ordinary days.

use super::numbers::{absent, near};
use crate::job::{Step, Writer, MOST_BYTES};
use crate::rng::Rng;
use original::probe::{Heater, Making, SetPoints};

pub const WATER: f64 = 4184.0 / 3_600_000.0;

pub fn day_tank(rng: &mut Rng, layers: usize) -> Making {
    Making {
        layers,
        volume: if rng.one_in(3) {
            *rng.pick(&[80.0, 120.0, 150.0, 180.0, 210.0, 300.0])
        } else {
            rng.between(20.0, 500.0)
        },
        standby: if rng.one_in(8) { 0.0 } else { rng.between(0.2, 5.0) },
        initial: if rng.one_in(3) {
            rng.from_to(10, 70) as f64
        } else {
            rng.between(5.0, 75.0)
        },
        density: if rng.one_in(3) {
            rng.between(0.95, 1.02)
        } else {
            1.0
        },
        specific_heat: if rng.one_in(3) {
            rng.between(0.0009, 0.0013)
        } else {
            WATER
        },
        ambient: if rng.one_in(2) {
            16.0
        } else {
            rng.between(-5.0, 30.0)
        },
        step: *rng.pick(&[1.0, 0.5, 0.25, 1.0 / 6.0, 0.1]),
    }
}

pub fn day_heater(rng: &mut Rng) -> Heater {
    let position = if rng.one_in(3) {
        *rng.pick(&[0.0, 0.1, 0.25, 0.33, 0.5, 0.6, 0.75, 0.9])
    } else {
        rng.unit()
    };
    Heater {
        rated: if rng.one_in(10) {
            0.0
        } else {
            rng.between(0.5, 9.0)
        },
        position,
        thermostat: match rng.below(3) {
            0 => None,
            1 => Some(rng.unit()),
            _ => Some(*rng.pick(&[0.0, 0.1, 0.33, 0.5, 0.66, 0.99])),
        },
    }
}

pub fn day_set_points(rng: &mut Rng) -> SetPoints {
    match rng.below(10) {
        0 => (None, None),
        1 => (None, Some(rng.between(40.0, 70.0))),
        2 => {
            let upper = rng.from_to(45, 65) as f64;
            (Some(upper), Some(upper))
        }
        3..=5 => (Some(52.0), Some(60.0)),
        _ => {
            let lower = rng.between(15.0, 60.0);
            (Some(lower), Some(lower + rng.between(0.0, 25.0)))
        }
    }
}

pub fn day_step(rng: &mut Rng, volume: f64, heaters: usize, feed: f64) -> Step {
    let events = match rng.below(4) {
        0 => 0,
        1 => 1,
        _ => rng.from_to(1, 6),
    };
    Step {
        feed,
        volumes: (0..events)
            .map(|_| match rng.below(8) {
                0 => 0.0,
                1 => rng.between(0.0, 1.0),
                2 => volume * rng.between(0.5, 1.5),
                _ => rng.between(1.0, 0.3 * volume + 2.0),
            })
            .collect(),
        set_points: (0..heaters).map(|_| day_set_points(rng)).collect(),
    }
}

pub fn day(rng: &mut Rng, layers: usize, heaters: usize, steps: usize, writer: &mut Writer) {
    let tank = day_tank(rng, layers);
    writer.tank(&tank);
    let absent = absent(rng);
    for _ in 0..heaters {
        writer.heater(&day_heater(rng), absent);
    }
    let feed = rng.between(4.0, 18.0);
    for _ in 0..steps {
        let step = day_step(rng, tank.volume, heaters, feed);
        writer.step(&step, absent);
    }
}

pub fn hot_feed(rng: &mut Rng, writer: &mut Writer) {
    let layers = rng.from_to(1, 32) as usize;
    let heaters = rng.from_to(0, 3) as usize;
    let tank = day_tank(rng, layers);
    writer.tank(&tank);
    for _ in 0..heaters {
        writer.heater(&day_heater(rng), 0.0);
    }
    for _ in 0..rng.from_to(1, 8) {
        let feed = match rng.below(5) {
            0 => tank.initial,
            1 => near(rng, tank.initial),
            2 => rng.between(4.0, 30.0),
            _ => tank.initial + rng.between(0.0, 60.0),
        };
        let step = day_step(rng, tank.volume, heaters, feed);
        writer.step(&step, 0.0);
    }
}

/// Long runs of small steps between two set points that move: the flags' memory.
pub fn hysteresis(rng: &mut Rng, writer: &mut Writer) {
    let layers = rng.from_to(1, 6) as usize;
    let heaters = rng.from_to(1, 4) as usize;
    let mut tank = day_tank(rng, layers);
    tank.step = 0.25;
    writer.tank(&tank);
    for _ in 0..heaters {
        writer.heater(&day_heater(rng), 0.0);
    }
    let base: Vec<(f64, f64)> = (0..heaters)
        .map(|_| {
            let lower = rng.between(20.0, 55.0);
            (lower, lower + rng.between(2.0, 15.0))
        })
        .collect();
    for _ in 0..rng.from_to(8, 40) {
        let step = Step {
            feed: 10.0,
            volumes: (0..rng.below(3))
                .map(|_| rng.between(0.0, 0.15 * tank.volume))
                .collect(),
            set_points: base
                .iter()
                .map(|(lower, upper)| match rng.below(12) {
                    0 => (None, None),
                    1 => (None, Some(*upper)),
                    // A refused step now and then: nothing moves.
                    2 if rng.one_in(4) => (Some(*lower), None),
                    _ => (Some(*lower), Some(*upper)),
                })
                .collect(),
        };
        writer.step(&step, 0.0);
    }
}

/// Around and past 65,536 bytes.
pub fn long(rng: &mut Rng, writer: &mut Writer) {
    let layers = rng.from_to(1, 3) as usize;
    let heaters = rng.from_to(0, 2) as usize;
    day(rng, layers, heaters, 1, writer);
    let whole = rng.one_in(3);
    while writer.bytes.len() < 65_536 + 600 {
        let mut step = day_step(rng, 100.0, heaters, 10.0);
        // Many events are one refused step: the bytes go by quickly.
        if rng.one_in(2) {
            step.volumes = vec![1.0; rng.from_to(65, 800) as usize];
        }
        let length = 4 + 12 + 8 * step.volumes.len() + 17 * heaters;
        let left = 65_536usize.saturating_sub(writer.bytes.len());
        if whole && left < 2 * length && left >= 16 + 17 * heaters && (left - 16 - 17 * heaters) % 8 == 0 {
            // Ends exactly on the line; what follows is not read.
            step.volumes = vec![0.5; (left - 16 - 17 * heaters) / 8];
        }
        writer.step(&step, 0.0);
    }
}

/// A season in one job: as many steps as 65,536 bytes hold, each with draws, on layers with heaters. Now and then
/// a step is refused and the job goes on.
pub fn season(rng: &mut Rng, writer: &mut Writer) {
    let layers = if rng.one_in(2) {
        rng.from_to(2, 6)
    } else {
        rng.from_to(2, 32)
    } as usize;
    let heaters = if rng.one_in(8) {
        1
    } else {
        rng.from_to(2, 8).min(rng.from_to(2, 8))
    } as usize;
    let mut tank = day_tank(rng, layers);
    // Whole numbers in some: ties and equalities.
    let whole = rng.one_in(4);
    let round = |x: f64| if whole { x.round() } else { x };
    if whole {
        tank.volume = 16.0 * layers as f64;
        (tank.density, tank.specific_heat) = (1.0, 1.0);
    }
    writer.tank(&tank);
    for _ in 0..heaters {
        let mut heater = day_heater(rng);
        if whole {
            heater.rated = (heater.rated * 50.0).round();
        }
        writer.heater(&heater, 0.0);
    }
    // Little draws keep the layers apart, large ones empty the tank.
    let most = tank.volume * *rng.pick(&[0.02, 0.05, 0.1, 0.3]);
    let cold = rng.between(4.0, 18.0);
    loop {
        let mut step = Step {
            feed: match rng.below(24) {
                0 => rng.between(20.0, 90.0),
                1 => near(rng, tank.initial),
                _ => cold,
            },
            volumes: (0..if rng.one_in(8) { 1 } else { rng.from_to(2, 5) })
                .map(|_| match rng.below(16) {
                    0 => near(rng, tank.volume / layers as f64),
                    1 => rng.between(0.0, 1.2 * tank.volume),
                    _ => round(rng.between(0.0, most)),
                })
                .collect(),
            set_points: (0..heaters)
                .map(|_| {
                    let (lower, upper) = day_set_points(rng);
                    (lower.map(round), upper.map(round))
                })
                .collect(),
        };
        match rng.below(400) {
            0 => step.feed = f64::NAN,
            1 => step.volumes[0] = -1.0,
            2 => step.set_points[0] = (Some(50.0), None),
            3 => step.volumes = vec![1.0; 65],
            _ => {}
        }
        if writer.bytes.len() + 16 + 8 * step.volumes.len() + 17 * heaters > MOST_BYTES {
            return;
        }
        writer.step(&step, 0.0);
    }
}
