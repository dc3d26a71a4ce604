//! Cases of document 02, the customers' requests, one request after the other. They stand at the end of the stored list, so
//! that a request moves no entry that was there before it.

use super::Value::{Double, Word};
use super::{both, figure, heater, plain, Case, Maker, UNSET};
use crate::lowered::JUST_BELOW_ONE;
use original::probe::{Heater, SetPoints};

/// Two accepted steps with the first of these set points, and between them a step with each of the others.
fn between(maker: Maker, feed: f64, asked: &[Vec<SetPoints>]) -> Maker {
    let good = &asked[0];
    asked[1..]
        .iter()
        .fold(maker.step(12.0, &[], good), |maker, set_points| {
            maker.step(feed, &[], set_points)
        })
        .step(12.0, &[], good)
}

/// faults of one heater's set points, after a pair that is equal and accepted.
fn of_one() -> Vec<Vec<SetPoints>> {
    let (nan, inf) = (f64::NAN, f64::INFINITY);
    let points = [
        both(60.0, 60.0),
        both(nan, 60.0),
        both(50.0, nan),
        both(50.0, inf),
        both(inf, 60.0),
        both(-inf, 60.0),
        both(60.0, -inf),
        (Some(nan), None),
        (Some(inf), None),
        (None, Some(nan)),
        (None, Some(inf)),
        (Some(50.0), None),
        both(60.0, 50.0),
    ];
    points.into_iter().map(|one| vec![one]).collect()
}

/// faults of two heaters, of which the first as given works last.
fn of_two() -> Vec<Vec<SetPoints>> {
    let nan_alone = (Some(f64::NAN), None);
    let infinite = (None, Some(f64::INFINITY));
    let (alone, above) = ((Some(50.0), None), both(60.0, 50.0));
    vec![
        vec![both(60.0, 60.0), both(60.0, 60.0)],
        vec![above, nan_alone],
        vec![UNSET, above],
        vec![alone, above],
        vec![infinite, alone],
        vec![both(50.0, 60.0), alone],
        vec![(None, Some(60.0)), both(f64::NAN, 60.0)],
        vec![nan_alone, above],
        vec![nan_alone, infinite],
        vec![alone, infinite],
        vec![alone, alone],
        vec![above, alone],
        vec![above, above],
    ]
}

const SEVENS: &[(usize, usize, super::Value)] = &[
    (3, 2, Word("7")),
    (5, 2, Word("7")),
    (7, 2, Word("7")),
    (9, 2, Word("7")),
    (11, 2, Word("7")),
    (13, 2, Word("7")),
    (15, 2, Word("7")),
    (17, 2, Word("7")),
    (19, 2, Word("7")),
    (21, 2, Word("7")),
    (23, 2, Word("7")),
    (25, 2, Word("7")),
    (27, 2, Word("0")),
];

/// the three faults of set points, each alone and in company.
pub fn of_r_1() -> Vec<Case> {
    let one = || Maker::tank(plain(2, 40.0)).heater(heater(160.0, 0.0));
    let two = || {
        Maker::tank(plain(2, 40.0))
            .heater(heater(160.0, 0.5))
            .heater(heater(160.0, 0.0))
    };
    vec![
        figure(
            "02, R-1: faults of one heater's set points",
            between(one(), 12.0, &of_one()),
            &[
                (0, 2, Word("0")),
                (1, 1, Double(45.0)),
                (3, 2, Word("12")),
                (5, 2, Word("12")),
                (7, 2, Word("12")),
                (9, 2, Word("12")),
                (11, 2, Word("12")),
                (13, 2, Word("12")),
                (15, 2, Word("12")),
                (17, 2, Word("12")),
                (19, 2, Word("12")),
                (21, 2, Word("12")),
                (23, 2, Word("8")),
                (25, 2, Word("13")),
                (27, 2, Word("0")),
                (28, 1, Double(50.0)),
            ],
        ),
        figure(
            "02, R-1: faults of one heater's set points, the feed not-a-number",
            between(one(), f64::NAN, &of_one()),
            SEVENS,
        ),
        figure(
            "02, R-1: faults of two heaters' set points",
            between(two(), 12.0, &of_two()),
            &[
                (0, 2, Word("0")),
                (1, 1, Double(45.0)),
                (1, 2, Double(55.0)),
                (4, 2, Word("13")),
                (6, 2, Word("13")),
                (8, 2, Word("8")),
                (10, 2, Word("12")),
                (12, 2, Word("8")),
                (14, 2, Word("12")),
                (16, 2, Word("12")),
                (18, 2, Word("12")),
                (20, 2, Word("8")),
                (22, 2, Word("8")),
                (24, 2, Word("13")),
                (26, 2, Word("13")),
                (28, 2, Word("0")),
                (29, 1, Double(55.0)),
                (29, 2, Double(60.0)),
            ],
        ),
    ]
}

/// A heater with a thermostat elsewhere.
fn with_thermostat(rated: f64, position: f64, thermostat: f64) -> Heater {
    Heater {
        thermostat: Some(thermostat),
        ..heater(rated, position)
    }
}

/// position exactly 1 is the top layer, for heaters and thermostats, and 5 begins above it.
pub fn of_r_2() -> Vec<Case> {
    let above = 1.0 + f64::EPSILON;
    let set = [both(50.0, 60.0)];
    let refused = |name: &str, wrong: Heater| {
        figure(
            name,
            Maker::tank(plain(2, 40.0)).heater(wrong).step(12.0, &[], &set),
            &[(0, 0, Word("E")), (0, 1, Word("5")), (0, 2, Word("64"))],
        )
    };
    // Of 16, 32, ... 128 kW, all at 1: the top layer goes from 40 over 41, 43, 46 and 50 to 55.
    let eight = (1..=8).fold(Maker::tank(plain(2, 40.0)), |maker, k| {
        maker.heater(heater(16.0 * k as f64, 1.0))
    });
    vec![
        figure(
            "02, R-2: one layer, heater and thermostat at 1",
            Maker::tank(plain(1, 40.0))
                .heater(with_thermostat(160.0, 1.0, 1.0))
                .step(12.0, &[], &set),
            &[(1, 1, Double(50.0)), (2, 1, Word("1")), (2, 3, Double(160.0))],
        ),
        figure(
            "02, R-2: 32 layers, a heater at 1",
            Maker::tank(plain(32, 40.0))
                .heater(heater(160.0, 1.0))
                .step(12.0, &[], &set),
            &[
                (1, 1, Double(40.0)),
                (1, 31, Double(40.0)),
                (1, 32, Double(50.0)),
                (2, 1, Word("1")),
                (2, 3, Double(160.0)),
            ],
        ),
        figure(
            "02, R-2: a heater at the bottom with its thermostat at 1, and two draws",
            Maker::tank(plain(2, 60.0))
                .heater(with_thermostat(160.0, 0.0, 1.0))
                .step(12.0, &[16.0], &[both(50.0, 70.0)])
                .step(12.0, &[16.0], &[both(50.0, 70.0)]),
            // The first draw leaves 12 under 60, and the thermostat sees the 60; the second leaves 12 in both.
            &[
                (0, 3, Double(768.0)),
                (1, 1, Double(12.0)),
                (1, 2, Double(60.0)),
                (2, 1, Word("0")),
                (2, 3, Double(0.0)),
                (4, 1, Double(17.0)),
                (4, 2, Double(17.0)),
                (5, 1, Word("1")),
                (5, 3, Double(160.0)),
            ],
        ),
        figure(
            "02, R-2: a heater at 1, given first, works after one just below it",
            Maker::tank(plain(1, 40.0))
                .heater(heater(320.0, 1.0))
                .heater(heater(160.0, JUST_BELOW_ONE))
                .step(12.0, &[], &[both(60.0, 90.0), both(41.0, 55.0)]),
            // The lower one comes on at 40 and leaves 50; after the higher one, at 60, it would have stayed off.
            &[
                (1, 1, Double(70.0)),
                (2, 1, Word("1")),
                (2, 3, Double(160.0)),
                (3, 1, Word("1")),
                (3, 3, Double(320.0)),
            ],
        ),
        figure(
            "02, R-2: eight heaters at 1 work in the given order",
            eight.step(12.0, &[], &[both(50.0, 90.0); 8]),
            &[
                (1, 1, Double(40.0)),
                (1, 2, Double(55.0)),
                (2, 3, Double(16.0)),
                (3, 3, Double(32.0)),
                (4, 3, Double(48.0)),
                (5, 3, Double(64.0)),
                (6, 3, Double(80.0)),
                (7, 1, Word("0")),
                (7, 3, Double(0.0)),
            ],
        ),
        refused("02, R-2: 5, a heater just above 1", heater(160.0, above)),
        refused(
            "02, R-2: 5, a thermostat just above 1",
            with_thermostat(160.0, 0.0, above),
        ),
        refused("02, R-2: 5, a heater at 1.5", heater(160.0, 1.5)),
        refused(
            "02, R-2: 5, a thermostat at 1.5, its heater at 1",
            with_thermostat(160.0, 1.0, 1.5),
        ),
    ]
}
