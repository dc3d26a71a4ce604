//! A tank of the Rust, with heaters that it has a layer for.
//!
//! Position 1 is the top layer by 02, and the Rust has none for it: it panics where it looks for one. Where a tank has such a
//! position the Rust is given the largest double below 1 in its place, which is in the top layer too, and its heaters
//! in working order, so that one at 1 works after one that sits just below it. Everywhere else it is given its heaters
//! as they are, and sorts them itself.

use original::probe::{Failed, Heater, Making, SetPoints, State, Stepped, Tank};

pub const JUST_BELOW_ONE: f64 = 1.0 - f64::EPSILON / 2.0;

/// The Rust has no layer for one of its positions.
pub fn in_the_lid(heater: &Heater) -> bool {
    heater.position == 1.0 || heater.thermostat == Some(1.0)
}

fn lowered(position: f64) -> f64 {
    if position == 1.0 {
        JUST_BELOW_ONE
    } else {
        position
    }
}

/// Asked as the given tank is: flags and set points in the given order.
pub struct LoweredTank {
    tank: Tank,
    /// The given index of each heater, as the Rust was handed them.
    given: Vec<usize>,
    /// The same in working order.
    order: Vec<usize>,
}

impl LoweredTank {
    pub fn new(making: &Making, heaters: &[Heater]) -> Result<LoweredTank, Failed> {
        let mut given: Vec<usize> = (0..heaters.len()).collect();
        let tank = if heaters.iter().any(in_the_lid) {
            let compared = |a: &usize, b: &usize| heaters[*a].position.partial_cmp(&heaters[*b].position);
            given.sort_by(|a, b| compared(a, b).expect("positions are numbers"));
            let handed: Vec<Heater> = given
                .iter()
                .map(|h| Heater {
                    rated: heaters[*h].rated,
                    position: lowered(heaters[*h].position),
                    thermostat: heaters[*h].thermostat.map(lowered),
                })
                .collect();
            Tank::new(making, &handed)?
        } else {
            Tank::new(making, heaters)?
        };
        let order = tank.order().iter().map(|place| given[*place]).collect();
        Ok(LoweredTank { tank, given, order })
    }

    /// The given index of each heater, in working order.
    pub fn order(&self) -> &[usize] {
        &self.order
    }

    /// Work only the first so many heaters, in working order.
    pub fn keep_heaters(&mut self, count: usize) {
        self.tank.keep_heaters(count)
    }

    /// What the Rust lists in the order that it was handed, in the given order.
    fn as_given(&self, state: State) -> State {
        let mut flags = state.flags.clone();
        for (flag, h) in state.flags.iter().zip(&self.given) {
            flags[*h] = *flag;
        }
        State { flags, ..state }
    }

    pub fn state(&self) -> State {
        self.as_given(self.tank.state())
    }

    pub fn put(&self, state: &State) {
        self.tank.put(&State {
            layers: state.layers.clone(),
            flags: self.given.iter().map(|h| state.flags[*h]).collect(),
        })
    }

    /// Set points are in the given order.
    pub fn step(&self, feed: f64, volumes: &[f64], set_points: &[SetPoints]) -> Result<Stepped, Failed> {
        let handed: Vec<SetPoints> = self.given.iter().map(|h| set_points[*h]).collect();
        let stepped = self.tank.step(feed, volumes, &handed)?;
        let state = self.as_given(stepped.state);
        Ok(Stepped { state, ..stepped })
    }
}
