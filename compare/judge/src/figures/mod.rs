//! Cases made by hand: document 01's figures, the smallest input for each refusal, and for each place where a
//! reading shows in a last bit or the sign of a zero; and the figures of document 02's requests.

mod damage;
mod mixes;
mod numbers;
mod of_01;
mod of_02;
mod readings;
mod refusals;

pub use mixes::mixes;
pub use of_02::{of_r_1, of_r_2};

use crate::job::{Step, Writer};
use original::probe::{Heater, Making, SetPoints};

pub struct Case {
    pub name: String,
    pub bytes: Vec<u8>,
    /// What the document itself says of this case, where it does.
    pub figure: Option<Figure>,
}

/// A part of an answer that document 01 or 02 states: line, part of the line, value.
pub struct Figure(pub &'static [(usize, usize, Value)]);

pub enum Value {
    Double(f64),
    Word(&'static str),
}

/// Density, specific heat and step 1, standby 0, layer volume 16.
pub fn plain(layers: usize, initial: f64) -> Making {
    Making {
        layers,
        volume: 16.0 * layers as f64,
        standby: 0.0,
        initial,
        density: 1.0,
        specific_heat: 1.0,
        ambient: 20.0,
        step: 1.0,
    }
}

pub fn heater(rated: f64, position: f64) -> Heater {
    Heater {
        rated,
        position,
        thermostat: None,
    }
}

pub fn both(lower: f64, upper: f64) -> SetPoints {
    (Some(lower), Some(upper))
}

pub const UNSET: SetPoints = (None, None);

struct Maker {
    writer: Writer,
}

impl Maker {
    fn nothing() -> Maker {
        let writer = Writer::default();
        Maker { writer }
    }

    fn tank(making: Making) -> Maker {
        Maker::nothing().also_tank(making)
    }

    fn also_tank(mut self, making: Making) -> Maker {
        self.writer.tank(&making);
        self
    }

    fn heater(mut self, heater: Heater) -> Maker {
        self.writer.heater(&heater, 0.0);
        self
    }

    fn step(mut self, feed: f64, volumes: &[f64], set_points: &[SetPoints]) -> Maker {
        let step = Step {
            feed,
            volumes: volumes.to_vec(),
            set_points: set_points.to_vec(),
        };
        self.writer.step(&step, 0.0);
        self
    }

    fn record(mut self, kind: u16, body: &[u8]) -> Maker {
        self.writer.record(kind, body);
        self
    }

    /// Without its last so many bytes.
    fn cut(mut self, bytes: usize) -> Maker {
        let length = self.writer.bytes.len() - bytes;
        self.writer.bytes.truncate(length);
        self
    }

    /// And these bytes, whatever they are.
    fn and(mut self, bytes: &[u8]) -> Maker {
        self.writer.bytes.extend_from_slice(bytes);
        self
    }

    fn bytes(self) -> Vec<u8> {
        self.writer.bytes
    }
}

fn case(name: impl Into<String>, maker: Maker) -> Case {
    Case {
        name: name.into(),
        bytes: maker.bytes(),
        figure: None,
    }
}

fn figure(name: &str, maker: Maker, parts: &'static [(usize, usize, Value)]) -> Case {
    Case {
        name: name.to_string(),
        bytes: maker.bytes(),
        figure: Some(Figure(parts)),
    }
}

pub fn jobs() -> Vec<Case> {
    let mut all = of_01::of_01();
    all.push(of_01::of_the_format());
    all.extend(refusals::refusals());
    all.extend(numbers::numbers());
    all.extend(damage::damage());
    all.extend(readings::readings());
    all
}
