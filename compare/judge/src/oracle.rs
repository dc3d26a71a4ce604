//! The judge: the Rust's answers, and where the documents refuse (01, and 02 for its requests), theirs: 'by 01'.
//!
//! A figure comes from the Rust. A number other than 0, and the layers beside it, come from 01: its checks are in
//! `checks.rs`, 9 and 10 are found below, and the tank is put back as it was.

use crate::checks::{check_heater, check_step, check_tank, finite_above_zero};
use crate::job::{self, Before, Record, Step, MOST_BYTES, MOST_HEATERS, MOST_LAYERS};
use crate::lowered::LoweredTank;
use original::probe::{self, Failed, Heater, Making, SetPoints, State, Stepped};
use recorder::{most_rounds, Turn};
use std::fmt::Write;

/// What a step came to.
#[derive(Clone, Debug)]
pub enum Outcome {
    Accepted(Box<Stepped>),
    /// By 01.
    Refused(u8),
    /// The Rust panicked or erred where 01 accepts: no answer.
    Failed(Failed),
}

/// A tank under judgement.
pub struct Judged {
    making: Making,
    heaters: Vec<Heater>,
    tank: LoweredTank,
    /// The same tank with 0, 1, ... heaters, made when first asked for.
    fewer: Vec<Option<LoweredTank>>,
    /// Always work a step in parts, also where the whole shows that nothing is amiss.
    pub in_parts: bool,
}

fn turn_finite(turn: &Turn) -> bool {
    turn.adjusted.is_finite() && turn.supplied.is_finite() && turn.losses.is_finite()
}

fn layers_finite(stepped: &Stepped) -> bool {
    stepped.layers_finite && stepped.state.layers.iter().all(|x| x.is_finite())
}

impl Judged {
    pub fn new(making: &Making, heaters: &[Heater]) -> Result<Judged, Failed> {
        Ok(Judged {
            making: *making,
            heaters: heaters.to_vec(),
            tank: LoweredTank::new(making, heaters)?,
            fewer: (0..=heaters.len()).map(|_| None).collect(),
            in_parts: false,
        })
    }

    pub fn order(&self) -> &[usize] {
        self.tank.order()
    }

    pub fn state(&self) -> State {
        self.tank.state()
    }

    pub fn put(&mut self, state: &State) {
        self.tank.put(state)
    }

    /// 4 of 01 for the layers stored, then 6, 7 and the set points, then the work.
    pub fn step(&mut self, step: &Step) -> Outcome {
        let before = self.tank.state();
        let number = match check_tank(&self.making, &before.layers) {
            0 => check_step(step, self.heaters.len()),
            number => number,
        };
        if number != 0 {
            return Outcome::Refused(number);
        }
        let mut outcome = self.work(&before, step);
        match &mut outcome {
            Outcome::Accepted(stepped) => {
                if recorder::wrong() == recorder::OFF_BY_LAST_LAYERS {
                    self.switch_off_by_last_layers(stepped, &step.set_points);
                    self.tank.put(&stepped.state);
                }
            }
            _ => self.tank.put(&before),
        }
        outcome
    }

    fn work(&mut self, before: &State, step: &Step) -> Outcome {
        let limit = most_rounds(self.making.layers);
        let whole = self.tank.step(step.feed, &step.volumes, &step.set_points);
        if let Ok(stepped) = &whole {
            let fine = [
                stepped.energy,
                stepped.volume_used,
                stepped.average,
                stepped.recoverable,
            ]
            .iter()
            .all(|x| x.is_finite())
                && layers_finite(stepped)
                && stepped.turns.iter().all(|t| turn_finite(t) && t.rounds <= limit)
                && stepped.event_rounds.iter().all(|rounds| *rounds <= limit);
            if fine && !self.in_parts {
                return Outcome::Accepted(Box::new(whole.expect("it is there")));
            }
        }

        // Which refusal comes first: each event alone on the tank without heaters, then the whole step with
        // one heater more each time.
        let bare = match self.fewer(0) {
            Ok(bare) => bare,
            Err(failed) => return Outcome::Failed(failed),
        };
        bare.put(before);
        let (mut energy, mut volume) = (0.0, 0.0);
        for wanted in &step.volumes {
            match bare.step(step.feed, &[*wanted], &step.set_points) {
                Err(Failed::MixedTooLong) => return Outcome::Refused(9),
                Err(failed) => return Outcome::Failed(failed),
                Ok(event) => {
                    if event.event_rounds.iter().any(|rounds| *rounds > limit) {
                        return Outcome::Refused(9);
                    }
                    energy += event.energy;
                    volume += event.volume_used;
                    if !layers_finite(&event) || !f64::is_finite(energy) || !f64::is_finite(volume) {
                        return Outcome::Refused(10);
                    }
                }
            }
        }
        for count in 1..=self.heaters.len() {
            let tank = match self.fewer(count) {
                Ok(tank) => tank,
                Err(failed) => return Outcome::Failed(failed),
            };
            tank.put(before);
            match tank.step(step.feed, &step.volumes, &step.set_points) {
                Err(Failed::MixedTooLong) => return Outcome::Refused(9),
                Err(failed) => return Outcome::Failed(failed),
                Ok(stepped) => {
                    let turn = stepped.turns[count - 1];
                    if turn.rounds > limit {
                        return Outcome::Refused(9);
                    }
                    if !layers_finite(&stepped) || !turn_finite(&turn) {
                        return Outcome::Refused(10);
                    }
                }
            }
        }
        match whole {
            Err(Failed::MixedTooLong) => unreachable!("a part mixes as the whole does"),
            Err(failed) => Outcome::Failed(failed),
            Ok(stepped) if !stepped.average.is_finite() || !stepped.recoverable.is_finite() => {
                Outcome::Refused(10)
            }
            Ok(stepped) => Outcome::Accepted(Box::new(stepped)),
        }
    }

    fn fewer(&mut self, count: usize) -> Result<&LoweredTank, Failed> {
        if self.fewer[count].is_none() {
            let mut tank = LoweredTank::new(&self.making, &self.heaters)?;
            tank.keep_heaters(count);
            self.fewer[count] = Some(tank);
        }
        Ok(self.fewer[count].as_ref().expect("just made"))
    }

    /// Wrong on purpose.
    fn switch_off_by_last_layers(&self, stepped: &mut Stepped, set_points: &[SetPoints]) {
        for (turn, index) in stepped.turns.iter().zip(self.order()) {
            let heater = &self.heaters[*index];
            let place = heater.thermostat.unwrap_or(heater.position);
            let top = self.making.layers - 1;
            let layer = stepped.state.layers[((place * self.making.layers as f64) as usize).min(top)];
            let reached = set_points[*index].1.is_none_or(|upper| {
                layer > upper || (layer - upper).abs() <= 1e-9 * layer.abs().max(upper.abs())
            });
            stepped.state.flags[*index] = turn.ran && !reached;
        }
    }
}

fn hex(line: &mut String, x: f64) {
    write!(line, " {:016x}", x.to_bits()).unwrap();
}

/// One line, and whether it rests on the documents alone.
#[derive(Clone, Debug, PartialEq)]
pub struct Line {
    pub text: String,
    pub by_01: bool,
}

/// The lines of a step.
pub fn step_lines(index: usize, outcome: &Outcome, judged: &Judged, lines: &mut Vec<Line>) {
    let mut push = |text: String, by_01: bool| lines.push(Line { text, by_01 });
    let layers = |state: &State| {
        let mut line = "L".to_string();
        state.layers.iter().for_each(|x| hex(&mut line, *x));
        line
    };
    match outcome {
        Outcome::Accepted(stepped) => {
            let mut line = format!("S {index} 0");
            for x in [
                stepped.energy,
                stepped.volume_used,
                stepped.average,
                stepped.recoverable,
            ] {
                hex(&mut line, x);
            }
            push(line, false);
            push(layers(&stepped.state), false);
            for (turn, given) in stepped.turns.iter().zip(judged.order()) {
                let mut line = format!("H {}", stepped.state.flags[*given] as u8);
                for x in [turn.adjusted, turn.supplied, turn.losses] {
                    hex(&mut line, x);
                }
                write!(line, " {}", turn.rounds).unwrap();
                push(line, false);
            }
        }
        Outcome::Refused(number) => {
            push(format!("S {index} {number}"), true);
            push(layers(&judged.state()), true);
        }
        Outcome::Failed(failed) => {
            push(format!("S {index} no answer: {failed:?}"), false);
            push(layers(&judged.state()), false);
        }
    }
}

/// The lines of a job, of which `job` reads the first 65,536 bytes. `put` admits records that set layers and flags.
pub fn answer(bytes: &[u8], put: bool, in_parts: bool) -> Vec<Line> {
    answer_to_all(&bytes[..bytes.len().min(MOST_BYTES)], put, in_parts)
}

/// The lines of a job of any length: one tank of the Rust from its first step to its last.
pub fn answer_to_all(bytes: &[u8], put: bool, in_parts: bool) -> Vec<Line> {
    let mut lines = Vec::new();
    let mut at = 0;
    let mut making: Option<Making> = None;
    let mut heaters: Vec<Heater> = Vec::new();
    let mut judged: Option<Judged> = None;
    let mut stepped = false;
    let mut index = 0;
    let refuse = |number: u8, at: usize| Line {
        text: format!("E {number} {at}"),
        by_01: true,
    };
    loop {
        if at >= bytes.len() && at > 0 {
            return lines;
        }
        let before = Before {
            tank: making.map(|making| making.layers),
            heaters: heaters.len(),
            step: stepped,
            put,
        };
        let Some((record, after)) = job::read(bytes, at, before) else {
            lines.push(refuse(11, at));
            return lines;
        };
        let number = match &record {
            Record::Tank(making) => check_tank(making, &[making.initial]),
            Record::Heater(_) if heaters.len() == MOST_HEATERS => 2,
            Record::Heater(heater) => check_heater(heater),
            _ => 0,
        };
        if number != 0 {
            lines.push(refuse(number, at));
            return lines;
        }
        match record {
            Record::Tank(given) => making = Some(given),
            Record::Heater(heater) => heaters.push(heater),
            Record::Step(_) | Record::Put { .. } => {
                if judged.is_none() {
                    let made = Judged::new(&making.expect("the reader saw a tank"), &heaters);
                    match made {
                        Ok(mut made) => {
                            made.in_parts = in_parts;
                            judged = Some(made)
                        }
                        Err(failed) => {
                            lines.push(Line {
                                text: format!("no tank: {failed:?}"),
                                by_01: false,
                            });
                            return lines;
                        }
                    }
                }
                let judged = judged.as_mut().expect("just made");
                match record {
                    Record::Put { layers, flags } => judged.put(&State { layers, flags }),
                    Record::Step(step) => {
                        let outcome = judged.step(&step);
                        step_lines(index, &outcome, judged, &mut lines);
                        stepped = true;
                        index += 1;
                    }
                    _ => unreachable!("matched above"),
                }
            }
        }
        at = after;
    }
}

/// Mix: refusal 1, 3 or 9, or the layers and the rounds.
pub fn mix(volume: f64, layers: &[f64]) -> Result<(Vec<f64>, u64), Result<u8, Failed>> {
    if layers.is_empty() || layers.len() > MOST_LAYERS {
        return Err(Ok(1));
    }
    if !finite_above_zero(volume) {
        return Err(Ok(3));
    }
    let tank = probe::mixer(layers.len(), volume).map_err(Err)?;
    match tank.mix(layers) {
        Err(Failed::MixedTooLong) => Err(Ok(9)),
        Err(failed) => Err(Err(failed)),
        Ok((_, rounds)) if rounds > most_rounds(layers.len()) => Err(Ok(9)),
        Ok(answer) => Ok(answer),
    }
}

/// The line of a mix: `M 0`, rounds and layers, or `M` and the number.
pub fn mix_line(volume: f64, layers: &[f64]) -> Line {
    match mix(volume, layers) {
        Ok((layers, rounds)) => {
            let mut text = format!("M 0 {rounds}");
            layers.iter().for_each(|x| hex(&mut text, *x));
            Line { text, by_01: false }
        }
        Err(Ok(number)) => Line {
            text: format!("M {number}"),
            by_01: true,
        },
        Err(Err(failed)) => Line {
            text: format!("M no answer: {failed:?}"),
            by_01: false,
        },
    }
}
