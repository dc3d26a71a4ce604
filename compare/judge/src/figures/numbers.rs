//! Each number of each record in turn: not-a-number, infinite, a zero with a sign, below zero, the smallest.

use super::{both, case, plain, Case, Maker};
use original::probe::{Heater, Making, SetPoints};

const KINDS: [(f64, &str); 6] = [
    (f64::NAN, "not-a-number"),
    (f64::INFINITY, "infinite"),
    (f64::NEG_INFINITY, "-infinite"),
    (-0.0, "-0.0"),
    (-1.0, "-1"),
    (5e-324, "the smallest number"),
];

type Of<T> = (&'static str, fn(&mut T, f64));

const OF_TANK: [Of<Making>; 7] = [
    ("volume", |tank, x| tank.volume = x),
    ("standby loss", |tank, x| tank.standby = x),
    ("initial temperature", |tank, x| tank.initial = x),
    ("density", |tank, x| tank.density = x),
    ("specific heat", |tank, x| tank.specific_heat = x),
    ("ambient temperature", |tank, x| tank.ambient = x),
    ("step length", |tank, x| tank.step = x),
];

const OF_HEATER: [Of<Heater>; 3] = [
    ("rated power", |heater, x| heater.rated = x),
    ("position", |heater, x| heater.position = x),
    ("thermostat's position", |heater, x| heater.thermostat = Some(x)),
];

/// Feed, volume, set points.
type Arguments = (f64, f64, SetPoints);

const OF_STEP: [Of<Arguments>; 4] = [
    ("feed", |step, x| step.0 = x),
    ("volume of a draw", |step, x| step.1 = x),
    ("lower set point", |step, x| step.2 .0 = Some(x)),
    ("upper set point", |step, x| step.2 = (None, Some(x))),
];

/// A job with one number changed: every other one is as in an accepted step, which comes after it.
pub fn numbers() -> Vec<Case> {
    let tank = Making {
        standby: 1.5,
        ..plain(2, 40.0)
    };
    let heater = Heater {
        rated: 160.0,
        position: 0.0,
        thermostat: Some(0.5),
    };
    let arguments: Arguments = (12.0, 4.0, both(50.0, 60.0));
    let job = |tank: Making, heater: Heater, step: Arguments| {
        let made = Maker::tank(tank).heater(heater);
        let (feed, volume, set) = arguments;
        made.step(step.0, &[step.1], &[step.2])
            .step(feed, &[volume], &[set])
    };
    let mut all = Vec::new();
    for (x, kind) in KINDS {
        for (name, change) in OF_TANK {
            let mut changed = tank;
            change(&mut changed, x);
            all.push(case(format!("{name} {kind}"), job(changed, heater, arguments)));
        }
        for (name, change) in OF_HEATER {
            let mut changed = heater;
            change(&mut changed, x);
            all.push(case(format!("{name} {kind}"), job(tank, changed, arguments)));
        }
        for (name, change) in OF_STEP {
            let mut changed = arguments;
            change(&mut changed, x);
            all.push(case(format!("{name} {kind}"), job(tank, heater, changed)));
        }
    }
    all
}
