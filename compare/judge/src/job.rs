//! The job format of document 01: records in, lines out.

use original::probe::{Heater, Making, SetPoints};

pub const MOST_LAYERS: usize = 32;
pub const MOST_HEATERS: usize = 8;
pub const MOST_EVENTS: usize = 64;
pub const MOST_BYTES: usize = 65_536;

pub const TANK: u16 = 1;
pub const HEATER: u16 = 2;
pub const STEP: u16 = 3;
/// Not of document 01: sets the layers and the flags of the tank before a step, in cases beside jobs.
pub const PUT: u16 = 256;

#[derive(Clone, Debug)]
pub struct Step {
    pub feed: f64,
    /// All volumes, also past 64.
    pub volumes: Vec<f64>,
    pub set_points: Vec<SetPoints>,
}

#[derive(Clone, Debug)]
pub enum Record {
    Tank(Making),
    Heater(Heater),
    Step(Step),
    Put { layers: Vec<f64>, flags: Vec<bool> },
}

/// What came before a record.
#[derive(Clone, Copy, Debug, Default)]
pub struct Before {
    /// The tank's layers.
    pub tank: Option<usize>,
    pub heaters: usize,
    pub step: bool,
    /// Put records are known.
    pub put: bool,
}

struct Body<'a>(&'a [u8]);

impl Body<'_> {
    fn byte(&mut self) -> u8 {
        let (first, rest) = self.0.split_first().expect("the length was tested");
        self.0 = rest;
        *first
    }

    fn u16(&mut self) -> u16 {
        u16::from_le_bytes([self.byte(), self.byte()])
    }

    fn f64(&mut self) -> f64 {
        f64::from_le_bytes(std::array::from_fn(|_| self.byte()))
    }
}

/// 01, Job: the record at a position and the position after it, or nothing (refusal 11).
pub fn read(bytes: &[u8], at: usize, before: Before) -> Option<(Record, usize)> {
    let rest = bytes.get(at..)?;
    if rest.len() < 4 {
        return None;
    }
    let length = u32::from_le_bytes(rest[..4].try_into().unwrap()) as usize;
    let body = rest.get(4..4usize.checked_add(length)?)?;
    if length < 2 || before.heaters > MOST_HEATERS {
        return None;
    }
    let after = at + 4 + length;
    let mut body = Body(body);
    let record = match body.u16() {
        TANK => {
            if length != 60 || before.tank.is_some() || before.heaters > 0 || before.step {
                return None;
            }
            Record::Tank(Making {
                layers: body.u16() as usize,
                volume: body.f64(),
                standby: body.f64(),
                initial: body.f64(),
                density: body.f64(),
                specific_heat: body.f64(),
                ambient: body.f64(),
                step: body.f64(),
            })
        }
        HEATER => {
            if length != 27 || before.tank.is_none() || before.step {
                return None;
            }
            let rated = body.f64();
            let position = body.f64();
            let present = body.byte();
            let thermostat = body.f64();
            if present > 1 {
                return None;
            }
            Record::Heater(Heater {
                rated,
                position,
                thermostat: (present == 1).then_some(thermostat),
            })
        }
        STEP => {
            if length < 12 || before.tank.is_none() {
                return None;
            }
            let feed = body.f64();
            let count = body.u16() as usize;
            if length != 12 + 8 * count + 17 * before.heaters {
                return None;
            }
            let volumes = (0..count).map(|_| body.f64()).collect();
            let mut set_points = Vec::new();
            for _ in 0..before.heaters {
                let present = body.byte();
                let lower = body.f64();
                let upper = body.f64();
                if present > 3 {
                    return None;
                }
                set_points.push((
                    (present & 1 != 0).then_some(lower),
                    (present & 2 != 0).then_some(upper),
                ));
            }
            Record::Step(Step {
                feed,
                volumes,
                set_points,
            })
        }
        PUT if before.put => {
            let layers = before.tank?;
            if length != 2 + 8 * layers + before.heaters {
                return None;
            }
            Record::Put {
                layers: (0..layers).map(|_| body.f64()).collect(),
                flags: (0..before.heaters).map(|_| body.byte() != 0).collect(),
            }
        }
        _ => return None,
    };
    Some((record, after))
}

/// Writes jobs.
#[derive(Clone, Debug, Default)]
pub struct Writer {
    pub bytes: Vec<u8>,
}

impl Writer {
    pub fn record(&mut self, kind: u16, body: &[u8]) {
        self.bytes
            .extend_from_slice(&(body.len() as u32 + 2).to_le_bytes());
        self.bytes.extend_from_slice(&kind.to_le_bytes());
        self.bytes.extend_from_slice(body);
    }

    pub fn tank(&mut self, making: &Making) {
        let mut body = Vec::new();
        body.extend_from_slice(&(making.layers as u16).to_le_bytes());
        for x in [
            making.volume,
            making.standby,
            making.initial,
            making.density,
            making.specific_heat,
            making.ambient,
            making.step,
        ] {
            body.extend_from_slice(&x.to_le_bytes());
        }
        self.record(TANK, &body);
    }

    /// `absent` stands where the thermostat has no position.
    pub fn heater(&mut self, heater: &Heater, absent: f64) {
        let mut body = Vec::new();
        body.extend_from_slice(&heater.rated.to_le_bytes());
        body.extend_from_slice(&heater.position.to_le_bytes());
        body.push(heater.thermostat.is_some() as u8);
        body.extend_from_slice(&heater.thermostat.unwrap_or(absent).to_le_bytes());
        self.record(HEATER, &body);
    }

    pub fn step(&mut self, step: &Step, absent: f64) {
        let mut body = Vec::new();
        body.extend_from_slice(&step.feed.to_le_bytes());
        body.extend_from_slice(&(step.volumes.len() as u16).to_le_bytes());
        for volume in &step.volumes {
            body.extend_from_slice(&volume.to_le_bytes());
        }
        for (lower, upper) in &step.set_points {
            body.push(lower.is_some() as u8 + 2 * upper.is_some() as u8);
            body.extend_from_slice(&lower.unwrap_or(absent).to_le_bytes());
            body.extend_from_slice(&upper.unwrap_or(absent).to_le_bytes());
        }
        self.record(STEP, &body);
    }

    pub fn put(&mut self, layers: &[f64], flags: &[bool]) {
        let mut body = Vec::new();
        for layer in layers {
            body.extend_from_slice(&layer.to_le_bytes());
        }
        for flag in flags {
            body.push(*flag as u8);
        }
        self.record(PUT, &body);
    }
}
