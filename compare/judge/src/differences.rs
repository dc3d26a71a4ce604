//! Where the Rust and the documents part: the smallest inputs, run on the Rust without the documents' checks.

use crate::checks::{check_call, check_step};
use crate::figures::{both, heater, plain, UNSET};
use crate::job::Step;
use crate::oracle::{Judged, Outcome};
use original::probe::{Failed, Heater, Making, SetPoints, State, Tank};

#[derive(Clone, Copy, Debug, PartialEq)]
pub enum Rust {
    Panics,
    Errs,
    /// Still not in order `PATIENCE` rounds past the limit of 01.
    MixesOn,
    GoesOn,
}

const PATIENCE: u64 = 1_000_000;

pub struct Difference {
    pub name: &'static str,
    pub rust: Rust,
    pub number: u8,
    making: Making,
    heaters: Vec<Heater>,
    put: Option<State>,
    step: Step,
}

struct Maker(Difference);

fn differ(name: &'static str, number: u8, rust: Rust) -> Maker {
    Maker(Difference {
        name,
        rust,
        number,
        making: plain(1, 20.0),
        heaters: Vec::new(),
        put: None,
        step: Step {
            feed: 12.0,
            volumes: Vec::new(),
            set_points: Vec::new(),
        },
    })
}

impl Maker {
    fn tank(mut self, change: impl FnOnce(&mut Making)) -> Self {
        change(&mut self.0.making);
        self
    }

    fn heater(mut self, heater: Heater, set: SetPoints) -> Self {
        self.0.heaters.push(heater);
        self.0.step.set_points.push(set);
        self
    }

    fn draws(mut self, feed: f64, volumes: &[f64]) -> Self {
        self.0.step.feed = feed;
        self.0.step.volumes = volumes.to_vec();
        self
    }

    fn put(mut self, layers: &[f64]) -> Self {
        let flags = vec![false; self.0.heaters.len()];
        self.0.put = Some(State {
            layers: layers.to_vec(),
            flags,
        });
        self
    }
}

/// 1 kW at the bottom, and its thermostat at a position.
fn with_thermostat(position: f64) -> Heater {
    Heater {
        thermostat: Some(position),
        ..heater(1.0, 0.0)
    }
}

pub fn all() -> Vec<Difference> {
    use Rust::*;
    let nan = f64::NAN;
    let inf = f64::INFINITY;
    let nine = |maker: Maker| (0..9).fold(maker, |maker, _| maker.heater(heater(1.0, 0.0), UNSET));
    let made = vec![
        differ("no layers", 1, Errs).tank(|m| (m.layers, m.volume) = (0, 16.0)),
        differ("no layers, a heater without set points", 1, Errs)
            .tank(|m| (m.layers, m.volume) = (0, 16.0))
            .heater(heater(1.0, 0.0), UNSET),
        differ("33 layers", 1, GoesOn).tank(|m| m.layers = 33),
        nine(differ("nine heaters", 2, GoesOn)),
        differ("volume 0, no heater", 3, GoesOn).tank(|m| m.volume = 0.0),
        differ("volume 0 in one layer, a heater", 3, GoesOn)
            .tank(|m| m.volume = 0.0)
            .heater(heater(1.0, 0.0), UNSET),
        differ("volume 0 in two layers, a heater", 3, MixesOn)
            .tank(|m| (m.layers, m.volume) = (2, 0.0))
            .heater(heater(1.0, 0.0), UNSET),
        differ("volume not-a-number", 3, GoesOn).tank(|m| m.volume = f64::NAN),
        differ("density 0 in two layers, a heater", 3, MixesOn)
            .tank(|m| (m.layers, m.density) = (2, 0.0))
            .heater(heater(1.0, 0.0), UNSET),
        differ("specific heat -1", 3, GoesOn)
            .tank(|m| m.specific_heat = -1.0)
            .heater(heater(1.0, 0.0), UNSET),
        differ("step length 0", 3, GoesOn)
            .tank(|m| m.step = 0.0)
            .heater(heater(1.0, 0.0), both(50.0, 60.0)),
        differ("standby loss -1, ambient 0", 4, GoesOn)
            .tank(|m| (m.standby, m.ambient) = (-1.0, 0.0))
            .heater(heater(1.0, 0.0), UNSET),
        differ("initial temperature not-a-number in one layer", 4, GoesOn)
            .tank(|m| m.initial = f64::NAN)
            .heater(heater(1.0, 0.0), both(50.0, 60.0)),
        differ(
            "initial temperature not-a-number in two layers, a heater",
            4,
            MixesOn,
        )
        .tank(|m| (m.layers, m.initial) = (2, f64::NAN))
        .heater(heater(1.0, 0.0), both(50.0, 60.0)),
        differ("a stored layer not-a-number, no heater", 4, GoesOn)
            .tank(|m| m.layers = 2)
            .put(&[20.0, nan]),
        differ("ambient temperature infinite", 4, GoesOn)
            .tank(|m| m.ambient = f64::INFINITY)
            .heater(heater(1.0, 0.0), UNSET),
        differ("rated power -1, on", 5, GoesOn).heater(heater(-1.0, 0.0), both(50.0, 60.0)),
        differ("rated power not-a-number, on, two layers", 5, MixesOn)
            .tank(|m| m.layers = 2)
            .heater(heater(nan, 0.0), both(50.0, 60.0)),
        differ("rated power infinite, on", 5, GoesOn).heater(heater(inf, 0.0), both(50.0, 60.0)),
        differ("position 1", 0, Panics).heater(heater(1.0, 1.0), UNSET),
        differ("position 1 + 2^-52", 5, Panics).heater(heater(1.0, 1.0 + f64::EPSILON), UNSET),
        differ("position -0.5, two layers, on", 5, GoesOn)
            .tank(|m| (m.layers, m.volume) = (2, 32.0))
            .heater(heater(1.0, -0.5), both(50.0, 60.0)),
        differ("position not-a-number, two layers, on", 5, GoesOn)
            .tank(|m| (m.layers, m.volume) = (2, 32.0))
            .heater(heater(1.0, nan), both(50.0, 60.0)),
        differ("thermostat at 1, set points", 0, Panics).heater(with_thermostat(1.0), both(50.0, 60.0)),
        differ("thermostat at 1 + 2^-52, set points", 5, Panics)
            .heater(with_thermostat(1.0 + f64::EPSILON), both(50.0, 60.0)),
        differ("thermostat at 1 + 2^-52, no set points", 5, GoesOn)
            .heater(with_thermostat(1.0 + f64::EPSILON), UNSET),
        differ("65 events", 6, GoesOn).draws(12.0, &[0.0; 65]),
        differ("feed not-a-number, nothing drawn", 7, GoesOn).draws(nan, &[]),
        differ("feed not-a-number, a draw", 7, GoesOn).draws(nan, &[1.0]),
        differ("feed not-a-number, a draw, two layers and a heater", 7, MixesOn)
            .tank(|m| (m.layers, m.volume) = (2, 32.0))
            .heater(heater(1.0, 0.0), UNSET)
            .draws(nan, &[1.0]),
        differ("draw of -1", 7, GoesOn).draws(12.0, &[-1.0]),
        differ("draw not-a-number", 7, GoesOn).draws(12.0, &[nan]),
        differ("draw infinite", 7, GoesOn).draws(12.0, &[inf]),
        differ("lower set point not-a-number", 12, GoesOn).heater(heater(1.0, 0.0), both(nan, 60.0)),
        differ("upper set point not-a-number", 12, GoesOn).heater(heater(1.0, 0.0), both(50.0, nan)),
        differ("upper set point infinite", 12, GoesOn).heater(heater(1.0, 0.0), both(50.0, inf)),
        differ("lower set point -infinity", 12, GoesOn).heater(heater(1.0, 0.0), both(-inf, 60.0)),
        differ("both set points infinite", 12, GoesOn).heater(heater(1.0, 0.0), both(inf, inf)),
        differ("lower set point infinite", 12, Errs).heater(heater(1.0, 0.0), both(inf, 60.0)),
        differ("upper set point -infinity", 12, Errs).heater(heater(1.0, 0.0), both(60.0, -inf)),
        differ("lower set point not-a-number, alone", 12, Errs).heater(heater(1.0, 0.0), (Some(nan), None)),
        differ("lower set point alone", 8, Errs).heater(heater(1.0, 0.0), (Some(50.0), None)),
        differ("lower above upper", 13, Errs).heater(heater(1.0, 0.0), both(60.0, 50.0)),
        differ("a heat capacity that rounds to 0, two layers", 9, MixesOn)
            .tank(|m| (m.layers, m.volume) = (2, 5e-324))
            .heater(heater(1.0, 0.0), UNSET),
        differ("a mean that overflows, two layers and a heater", 9, MixesOn)
            .tank(|m| (m.layers, m.volume) = (2, 32.0))
            .heater(heater(1.0, 0.0), UNSET)
            .put(&[1e308, 1e308]),
        differ("a mean that overflows after an event", 9, MixesOn)
            .tank(|m| (m.layers, m.volume) = (2, 32.0))
            .put(&[1e307, 1e307])
            .draws(1.7e308, &[1.0]),
        differ("energy withdrawn overflows", 10, GoesOn)
            .tank(|m| m.density = 1e308)
            .draws(12.0, &[16.0]),
        differ("a heat capacity that rounds to 0, one layer", 10, GoesOn)
            .tank(|m| (m.volume, m.density) = (5e-324, 0.1))
            .heater(heater(1.0, 0.0), UNSET),
        differ("the losses overflow", 10, GoesOn)
            .tank(|m| (m.standby, m.initial) = (1e308, 1e10))
            .heater(heater(1.0, 0.0), UNSET),
        differ("the average overflows", 10, GoesOn)
            .tank(|m| (m.volume, m.initial) = (1.0, 1.7e308))
            .draws(1.7e308, &[1.0, 1.0]),
        differ("the losses of two heaters overflow together", 10, GoesOn)
            .tank(|m| (m.layers, m.volume, m.standby, m.step) = (2, 2.0, 1.08e305, 20.0))
            .heater(heater(1000.0, 0.0), both(30.0, 100.0))
            .heater(heater(1000.0, 0.0), both(110.0, 140.0)),
    ];
    made.into_iter().map(|maker| maker.0).collect()
}

fn number_of_01(case: &Difference) -> u8 {
    let initial = [case.making.initial];
    let temperatures = match &case.put {
        Some(state) => &state.layers[..],
        None => &initial,
    };
    let mut number = check_call(&case.making, temperatures, case.heaters.len(), &case.heaters);
    if number == 0 {
        number = check_step(&case.step, case.heaters.len());
    }
    if number != 0 {
        return number;
    }
    let mut judged = Judged::new(&case.making, &case.heaters).expect("a good tank is made");
    if let Some(state) = &case.put {
        judged.put(state);
    }
    match judged.step(&case.step) {
        Outcome::Refused(number) => number,
        Outcome::Accepted(_) => 0,
        Outcome::Failed(failed) => panic!("{}: no answer: {failed:?}", case.name),
    }
}

/// Runs every case and prints what the Rust does. True if each is as written here.
pub fn run() -> bool {
    let mut fine = true;
    for case in all() {
        recorder::set_patience(PATIENCE);
        let outcome = Tank::new(&case.making, &case.heaters).and_then(|tank| {
            if let Some(state) = &case.put {
                tank.put(state);
            }
            tank.step(case.step.feed, &case.step.volumes, &case.step.set_points)
        });
        let (rust, words) = match &outcome {
            Err(Failed::Panicked(words)) => (Rust::Panics, words.clone()),
            Err(Failed::Erred(words)) => (Rust::Errs, words.clone()),
            Err(Failed::MixedTooLong) => (
                Rust::MixesOn,
                format!("no order {PATIENCE} rounds past the limit"),
            ),
            Ok(stepped) => {
                let mut words = format!(
                    "layers {:?} energy {:?} used {:?} average {:?} recoverable {:?}",
                    stepped.state.layers,
                    stepped.energy,
                    stepped.volume_used,
                    stepped.average,
                    stepped.recoverable
                );
                for turn in &stepped.turns {
                    words.push_str(&format!(
                        " [adjusted {:?} supplied {:?} losses {:?}]",
                        turn.adjusted, turn.supplied, turn.losses
                    ));
                }
                words.truncate(230);
                (Rust::GoesOn, words)
            }
        };
        recorder::set_patience(1);
        let number = number_of_01(&case);
        let as_written = rust == case.rust && number == case.number;
        fine &= as_written;
        let mark = if as_written { "" } else { "  <- NOT AS WRITTEN" };
        println!("{number:>2} {rust:?}: {}: {words}{mark}", case.name);
    }
    fine && half_stepped() && thermostat_not_read()
}

/// A thermostat at 1 without an upper set point: the Rust never reads its layer, goes on, and answers as here.
fn thermostat_not_read() -> bool {
    let (making, heaters) = (plain(2, 20.0), [with_thermostat(1.0)]);
    let direct = Tank::new(&making, &heaters)
        .and_then(|tank| tank.step(12.0, &[4.0], &[UNSET]))
        .expect("it goes on");
    let step = Step {
        feed: 12.0,
        volumes: vec![4.0],
        set_points: vec![UNSET],
    };
    let mut judged = Judged::new(&making, &heaters).expect("a good tank is made");
    let same = match judged.step(&step) {
        Outcome::Accepted(here) => format!("{here:?}") == format!("{direct:?}"),
        _ => false,
    };
    println!(
        "a thermostat at 1, no set points: the Rust goes on, and answers as with the double below 1: {same}"
    );
    same
}

/// An error of the Rust comes after the events: its tank is not as it was.
fn half_stepped() -> bool {
    let tank = Tank::new(&plain(1, 20.0), &[heater(1.0, 0.0)]).expect("a good tank is made");
    let before = tank.state();
    let erred = tank.step(12.0, &[4.0], &[(Some(50.0), None)]).is_err();
    let after = tank.state();
    println!(
        "an error after a draw of 4: layers {:?}, before {:?}",
        after.layers, before.layers
    );
    erred && before != after
}
