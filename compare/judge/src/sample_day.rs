//! The sample day that the program `job` is run on: 48 half hours of a cylinder of 150 litres in four layers, with
//! two immersion heaters.

use crate::job::{Step, Writer};
use original::probe::{Heater, Making, SetPoints};

const TANK: Making = Making {
    layers: 4,
    volume: 150.0,
    standby: 1.5,
    initial: 45.0,
    density: 1.0,
    // 4184 J/(kg.K) in kWh
    specific_heat: 4184.0 / 3_600_000.0,
    ambient: 18.0,
    step: 0.5,
};

/// The feed's temperature.
const FEED: f64 = 10.0;

/// At the bottom, with a thermostat a third of the way up; the cheap rate, in the night and after noon.
const LOWER: (Heater, &[(f64, f64)]) = (
    Heater {
        rated: 3.0,
        position: 0.1,
        thermostat: Some(0.33),
    },
    &[(0.5, 7.0), (13.0, 16.0)],
);

/// Above the middle, for the evening; its thermostat is where it is.
const UPPER: (Heater, &[(f64, f64)]) = (
    Heater {
        rated: 3.0,
        position: 0.6,
        thermostat: None,
    },
    &[(16.0, 22.0)],
);

/// In its hours a heater has both; else neither.
const SET_POINTS: SetPoints = (Some(52.0), Some(60.0));

/// The hour of the day, and the litres drawn in the half hour from it.
const DRAWS: &[(f64, &[f64])] = &[
    (6.5, &[4.0, 35.0]),
    (7.0, &[40.0, 4.0]),
    (7.5, &[6.0, 3.0, 3.0]),
    (8.0, &[8.0]),
    (10.5, &[2.0]),
    (12.5, &[5.0, 3.0]),
    (15.0, &[2.0]),
    (17.5, &[6.0]),
    (18.5, &[12.0, 4.0, 3.0]),
    (19.5, &[70.0]),
    (20.5, &[25.0, 4.0]),
    (22.0, &[3.0, 2.0]),
    (23.0, &[4.0]),
];

/// The bytes of its job.
pub fn sample_day() -> Vec<u8> {
    let mut writer = Writer::default();
    writer.tank(&TANK);
    let heaters = [LOWER, UPPER];
    for (heater, _) in &heaters {
        writer.heater(heater, 0.0);
    }
    for half_hour in 0..48 {
        let hour = half_hour as f64 / 2.0;
        let drawn = DRAWS.iter().find(|(from, _)| *from == hour);
        let set = |(_, hours): &(Heater, &[(f64, f64)])| {
            let on = hours.iter().any(|(from, to)| *from <= hour && hour < *to);
            if on {
                SET_POINTS
            } else {
                (None, None)
            }
        };
        let step = Step {
            feed: FEED,
            volumes: drawn.map_or(Vec::new(), |(_, volumes)| volumes.to_vec()),
            set_points: heaters.iter().map(set).collect(),
        };
        writer.step(&step, 0.0);
    }
    writer.bytes
}
