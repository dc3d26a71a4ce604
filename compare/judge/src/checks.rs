//! 01's refusals 1 to 7, of which 5 begins above 1 (02, R-2), and 12, 8 and 13 of 02, as functions of what a call
//! is given. Each answers the number, or 0.

use crate::job::{Step, MOST_EVENTS, MOST_HEATERS, MOST_LAYERS};
use original::probe::{Heater, Making, SetPoints};

pub fn finite_above_zero(x: f64) -> bool {
    x.is_finite() && x > 0.0
}

/// 1, 3 and 4 of 01, for a tank with these temperatures (the initial one, or its layers).
pub fn check_tank(making: &Making, temperatures: &[f64]) -> u8 {
    if making.layers == 0 || making.layers > MOST_LAYERS {
        return 1;
    }
    for x in [making.volume, making.density, making.specific_heat, making.step] {
        if !finite_above_zero(x) {
            return 3;
        }
    }
    if !making.standby.is_finite() || making.standby < 0.0 || !making.ambient.is_finite() {
        return 4;
    }
    if temperatures.iter().any(|x| !x.is_finite()) {
        return 4;
    }
    0
}

/// 5 of 01; position exactly 1 is the top layer (02, R-2).
pub fn check_heater(heater: &Heater) -> u8 {
    let place = |x: f64| (0.0..=1.0).contains(&x);
    if !heater.rated.is_finite() || heater.rated < 0.0 {
        return 5;
    }
    if !place(heater.position) || heater.thermostat.is_some_and(|x| !place(x)) {
        return 5;
    }
    0
}

/// 1 to 5 of 01 in order, for a tank that is made or stepped by one call: so many heaters, of which these are there.
pub fn check_call(making: &Making, temperatures: &[f64], count: usize, heaters: &[Heater]) -> u8 {
    match check_tank(making, temperatures) {
        1 => 1,
        _ if count > MOST_HEATERS => 2,
        0 => heaters
            .iter()
            .map(check_heater)
            .find(|number| *number != 0)
            .unwrap_or(0),
        number => number,
    }
}

/// 12, 8 and 13 of 02, in this order, of one heater's set points.
pub fn check_set_points(&(lower, upper): &SetPoints) -> u8 {
    let not_finite = |point: Option<f64>| point.is_some_and(|x| !x.is_finite());
    match (lower, upper) {
        _ if not_finite(lower) || not_finite(upper) => 12,
        (Some(_), None) => 8,
        (Some(lower), Some(upper)) if lower > upper => 13,
        _ => 0,
    }
}

/// 6 and 7 of 01; then the set points, heater by heater as given: the first faulty one decides.
pub fn check_step(step: &Step, heaters: usize) -> u8 {
    if step.volumes.len() > MOST_EVENTS || step.set_points.len() != heaters {
        return 6;
    }
    if !step.feed.is_finite() || step.volumes.iter().any(|x| !x.is_finite() || *x < 0.0) {
        return 7;
    }
    step.set_points
        .iter()
        .map(check_set_points)
        .find(|number| *number != 0)
        .unwrap_or(0)
}
