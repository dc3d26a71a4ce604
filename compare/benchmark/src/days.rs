//! The days that are measured.

use original::probe::{Heater, Making, SetPoints, State};

pub struct Day {
    pub name: String,
    pub making: Making,
    pub heaters: Vec<Heater>,
    pub feed: f64,
    pub set_points: SetPoints,
    /// The volumes drawn in each step.
    pub draws: Vec<Vec<f64>>,
    /// What the tank holds before the first step.
    pub start: State,
    /// Not steps but mixings of `start`'s layers, as many as there are steps.
    pub mixings: bool,
}

impl Day {
    pub fn layer_volume(&self) -> f64 {
        self.making.volume / self.making.layers as f64
    }
}

/// 150 litres of water.
const TANK: Making = Making {
    layers: 4,
    volume: 150.0,
    standby: 1.5,
    initial: 45.0,
    density: 1.0,
    // 4184 J/(kg.K) in kWh
    specific_heat: 4184.0 / 3_600_000.0,
    ambient: 18.0,
    step: 0.5,
};
const SET_POINTS: SetPoints = (Some(52.0), Some(60.0));
const FEED: f64 = 10.0;
const HALF_HOURS: usize = 48;

/// The hour of an ordinary day, and the litres drawn in the half hour from it.
const DRAWS: &[(f64, &[f64])] = &[
    (6.5, &[4.0, 35.0]),
    (7.0, &[40.0, 4.0]),
    (7.5, &[6.0, 3.0, 3.0]),
    (8.0, &[8.0]),
    (17.5, &[6.0]),
    (18.5, &[12.0, 4.0, 3.0]),
    (19.5, &[70.0]),
    (20.5, &[25.0, 4.0]),
    (22.0, &[3.0, 2.0]),
];

/// 3 kW, shared out among heaters that stand one above the other from the bottom up.
fn heaters(count: usize) -> Vec<Heater> {
    let heater = |at: usize| Heater {
        rated: 3.0 / count as f64,
        position: at as f64 / (count + 1) as f64,
        thermostat: None,
    };
    (0..count).map(heater).collect()
}

fn day(name: &str, layers: usize, count: usize, feed: f64, draws: Vec<Vec<f64>>) -> Day {
    let making = Making { layers, ..TANK };
    Day {
        name: name.to_string(),
        making,
        heaters: heaters(count),
        feed,
        set_points: SET_POINTS,
        draws,
        start: State {
            layers: vec![making.initial; layers],
            flags: vec![false; count],
        },
        mixings: false,
    }
}

fn ordinary(layers: usize, count: usize) -> Day {
    let drawn = |half_hour: usize| {
        let hour = half_hour as f64 / 2.0;
        let at = DRAWS.iter().find(|(from, _)| *from == hour);
        at.map_or(Vec::new(), |(_, volumes)| volumes.to_vec())
    };
    let draws = (0..HALF_HOURS).map(drawn).collect();
    day(&format!("ordinary-{layers}-{count}"), layers, count, FEED, draws)
}

/// Six litres a step in 64 draws.
fn many_draws() -> Vec<Vec<f64>> {
    vec![vec![6.0 / 64.0; 64]; HALF_HOURS]
}

/// The cold top takes in one layer more in each of 31 rounds; no mixing is known that takes more. The heater is off.
fn most_rounds(name: &str, mixings: bool) -> Day {
    let mut day = day(name, 32, 1, FEED, vec![Vec::new(); if mixings { 8 } else { 1 }]);
    day.set_points = (None, None);
    day.start.layers = (0..32)
        .map(|at| if at == 31 { -1e6 } else { at as f64 })
        .collect();
    day.mixings = mixings;
    day
}

pub fn days() -> Vec<Day> {
    let mut all = Vec::new();
    for layers in [4, 10, 16, 32] {
        for count in [1, 2, 8] {
            all.push(ordinary(layers, count));
        }
    }
    all.push(day("64-draws", 10, 2, FEED, many_draws()));
    all.push(day("hot-feed", 10, 2, 70.0, many_draws()));
    all.push(most_rounds("most-rounds", false));
    all.push(most_rounds("mix-most-rounds", true));
    all
}
