//! The calls make and step on whatever is lent to them: any counts, any bits in every place, used or not.
//!
//! A tank, a report and a step's arguments are the arrays of the crate `shim` (compare/README.md has their
//! layout). Numbers 1 to 8, 12 and 13 and what a refused call leaves are the documents'; what an accepted step
//! gives is the Rust's. A flag is a byte: 0 is false and any other is true; what is written is 0 or 1.

use crate::checks::check_call;
use crate::job::{Step, MOST_EVENTS, MOST_HEATERS, MOST_LAYERS};
use crate::oracle::{Judged, Line, Outcome};
use original::probe::{Heater, Making, State};

/// A tank's places.
#[derive(Clone, Debug)]
pub struct LentTank {
    /// Layers, heaters.
    pub counts: [u64; 2],
    /// Volume, standby loss, density, specific heat, ambient, step length.
    pub numbers: [f64; 6],
    pub temps: [f64; MOST_LAYERS],
    /// Rated powers, positions, thermostat positions.
    pub heaters: [[f64; MOST_HEATERS]; 3],
    pub thermostats: [u8; MOST_HEATERS],
    pub flags: [u8; MOST_HEATERS],
}

/// A report's places.
#[derive(Clone, Debug)]
pub struct LentReport {
    /// Energy withdrawn, volume used, average draw-off temperature, recoverable losses.
    pub totals: [f64; 4],
    /// Adjusted inputs, energies supplied, losses.
    pub figures: [[f64; MOST_HEATERS]; 3],
    pub flags: [u8; MOST_HEATERS],
    pub rounds: [u64; MOST_HEATERS],
}

/// A step's places.
#[derive(Clone, Debug)]
pub struct LentStep {
    pub feed: f64,
    /// Events, set-point entries.
    pub asked: [u64; 2],
    pub volumes: [f64; MOST_EVENTS],
    /// Of the lower set points, then of the upper ones.
    pub present: [[u8; MOST_HEATERS]; 2],
    pub points: [[f64; MOST_HEATERS]; 2],
}

/// Arrays as the bytes of a request.
#[derive(Default)]
struct Bytes(Vec<u8>);

impl Bytes {
    fn doubles(&mut self, xs: &[f64]) {
        xs.iter().for_each(|x| self.0.extend_from_slice(&x.to_le_bytes()));
    }

    fn counts(&mut self, xs: &[u64]) {
        xs.iter().for_each(|x| self.0.extend_from_slice(&x.to_le_bytes()));
    }

    fn flags(&mut self, xs: &[u8]) {
        self.0.extend_from_slice(xs);
    }
}

/// What make is lent: the initial temperature and the tank's places, those that it only writes too.
pub fn make_request(initial: f64, tank: &LentTank) -> Vec<u8> {
    let mut out = Bytes::default();
    out.doubles(&[initial]);
    tank_bytes(tank, &mut out);
    out.0
}

/// What step is lent, in the order of its arguments.
pub fn step_request(tank: &LentTank, report: &LentReport, step: &LentStep) -> Vec<u8> {
    let mut out = Bytes::default();
    tank_bytes(tank, &mut out);
    out.doubles(&report.totals);
    out.doubles(&report.figures.concat());
    out.flags(&report.flags);
    out.counts(&report.rounds);
    out.doubles(&[step.feed]);
    out.counts(&step.asked);
    out.doubles(&step.volumes);
    out.flags(&step.present.concat());
    out.doubles(&step.points.concat());
    out.0
}

fn tank_bytes(tank: &LentTank, out: &mut Bytes) {
    out.counts(&tank.counts);
    out.doubles(&tank.numbers);
    out.doubles(&tank.temps);
    out.doubles(&tank.heaters.concat());
    out.flags(&tank.thermostats);
    out.flags(&tank.flags);
}

fn line(name: &str, values: impl Iterator<Item = String>, by_01: bool) -> Line {
    let mut text = name.to_string();
    values.for_each(|value| text.push_str(&format!(" {value}")));
    Line { text, by_01 }
}

fn doubles(name: &str, xs: &[f64], by_01: bool) -> Line {
    line(name, xs.iter().map(|x| format!("{:016x}", x.to_bits())), by_01)
}

fn counts(name: &str, xs: &[u64], by_01: bool) -> Line {
    line(name, xs.iter().map(|x| x.to_string()), by_01)
}

fn flags(name: &str, xs: &[u8], by_01: bool) -> Line {
    line(name, xs.iter().map(|x| x.to_string()), by_01)
}

fn is_set(byte: u8) -> bool {
    byte != 0
}

fn tank_lines(tank: &LentTank, by_01: bool) -> Vec<Line> {
    vec![
        counts("counts", &tank.counts, true),
        doubles("numbers", &tank.numbers, true),
        doubles("temps", &tank.temps, by_01),
        doubles("heaters", &tank.heaters.concat(), true),
        flags("thermostats", &tank.thermostats, true),
        flags("flags", &tank.flags, by_01),
    ]
}

fn report_lines(report: &LentReport, by_01: bool) -> Vec<Line> {
    vec![
        doubles("totals", &report.totals, by_01),
        doubles("figures", &report.figures.concat(), by_01),
        flags("line-flags", &report.flags, by_01),
        counts("rounds", &report.rounds, by_01),
    ]
}

fn number_line(letter: char, number: u8) -> Line {
    Line {
        text: format!("{letter} {number}"),
        by_01: number != 0,
    }
}

impl LentTank {
    fn making(&self, initial: f64) -> Making {
        let [volume, standby, density, specific_heat, ambient, step] = self.numbers;
        Making {
            layers: self.counts[0] as usize,
            volume,
            standby,
            initial,
            density,
            specific_heat,
            ambient,
            step,
        }
    }

    /// The heaters in use, as given.
    fn fitted(&self) -> Vec<Heater> {
        let [rated, position, thermostat] = &self.heaters;
        (0..(self.counts[1] as usize).min(MOST_HEATERS))
            .map(|h| Heater {
                rated: rated[h],
                position: position[h],
                thermostat: is_set(self.thermostats[h]).then_some(thermostat[h]),
            })
            .collect()
    }

    fn check(&self, temperatures: &[f64]) -> u8 {
        check_call(
            &self.making(0.0),
            temperatures,
            self.counts[1] as usize,
            &self.fitted(),
        )
    }
}

/// 01: a tank of no layers, no heaters and zeros.
const NO_TANK: LentTank = LentTank {
    counts: [0; 2],
    numbers: [0.0; 6],
    temps: [0.0; MOST_LAYERS],
    heaters: [[0.0; MOST_HEATERS]; 3],
    thermostats: [0; MOST_HEATERS],
    flags: [0; MOST_HEATERS],
};

/// 01: unused places are zero.
const NO_REPORT: LentReport = LentReport {
    totals: [0.0; 4],
    figures: [[0.0; MOST_HEATERS]; 3],
    flags: [0; MOST_HEATERS],
    rounds: [0; MOST_HEATERS],
};

/// Make: the lines `N` and the number, and the tank's places after it.
pub fn make(initial: f64, tank: &LentTank) -> Vec<Line> {
    let number = tank.check(&[initial]);
    let mut made = NO_TANK;
    if number == 0 {
        let layers = Judged::new(&tank.making(initial), &tank.fitted()).map(|judged| judged.state().layers);
        let Ok(layers) = layers else {
            return vec![Line {
                text: "N no answer".to_string(),
                by_01: false,
            }];
        };
        (made.counts, made.numbers) = (tank.counts, tank.numbers);
        made.temps[..layers.len()].copy_from_slice(&layers);
        for (h, heater) in tank.fitted().iter().enumerate() {
            made.heaters[0][h] = heater.rated;
            made.heaters[1][h] = heater.position;
            made.heaters[2][h] = heater.thermostat.unwrap_or(0.0);
            made.thermostats[h] = u8::from(heater.thermostat.is_some());
        }
    }
    let mut lines = vec![number_line('N', number)];
    lines.extend(tank_lines(&made, number != 0));
    lines
}

/// A step on the tank and the report lent, which hold its answer after it: the lines `T` and the number, and the
/// places of both. True if it was accepted.
pub fn step(tank: &mut LentTank, report: &mut LentReport, given: &LentStep) -> (Vec<Line>, bool) {
    let used = (tank.counts[0] as usize).min(MOST_LAYERS);
    let mut number = tank.check(&tank.temps[..used]);
    let (events, entries) = (given.asked[0], given.asked[1]);
    if number == 0 && (events > MOST_EVENTS as u64 || entries != tank.counts[1]) {
        number = 6;
    }
    let mut failed = None;
    if number == 0 {
        let heaters = tank.fitted();
        let step = Step {
            feed: given.feed,
            volumes: given.volumes[..events as usize].to_vec(),
            set_points: (0..heaters.len())
                .map(|h| {
                    let point = |at: usize| is_set(given.present[at][h]).then_some(given.points[at][h]);
                    (point(0), point(1))
                })
                .collect(),
        };
        match Judged::new(&tank.making(0.0), &heaters) {
            Err(words) => failed = Some(words),
            Ok(mut judged) => {
                judged.put(&State {
                    layers: tank.temps[..used].to_vec(),
                    flags: tank.flags[..heaters.len()].iter().copied().map(is_set).collect(),
                });
                match judged.step(&step) {
                    Outcome::Refused(refusal) => number = refusal,
                    Outcome::Failed(words) => failed = Some(words),
                    Outcome::Accepted(stepped) => {
                        tank.temps[..used].copy_from_slice(&stepped.state.layers);
                        tank.flags = tank.flags.map(|byte| u8::from(is_set(byte)));
                        for (byte, flag) in tank.flags.iter_mut().zip(&stepped.state.flags) {
                            *byte = u8::from(*flag);
                        }
                        *report = NO_REPORT;
                        report.totals = [
                            stepped.energy,
                            stepped.volume_used,
                            stepped.average,
                            stepped.recoverable,
                        ];
                        for (turn, h) in stepped.turns.iter().zip(judged.order()) {
                            report.figures[0][*h] = turn.adjusted;
                            report.figures[1][*h] = turn.supplied;
                            report.figures[2][*h] = turn.losses;
                            report.flags[*h] = u8::from(stepped.state.flags[*h]);
                            report.rounds[*h] = turn.rounds;
                        }
                    }
                }
            }
        }
    }
    if let Some(words) = failed {
        let text = format!("T no answer: {words:?}");
        return (vec![Line { text, by_01: false }], false);
    }
    let mut lines = vec![number_line('T', number)];
    lines.extend(tank_lines(tank, number != 0));
    lines.extend(report_lines(report, number != 0));
    (lines, number == 0)
}
