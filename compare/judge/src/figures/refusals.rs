//! Cases for each refusal.

use super::{both, case, heater, plain, Case, Maker, UNSET};
use original::probe::{Heater, Making, SetPoints};

/// The smallest input for each refusal, and its nearest accepted neighbour.
pub fn refusals() -> Vec<Case> {
    let nan = f64::NAN;
    let one = || plain(1, 20.0);
    let with = |change: fn(&mut Making)| {
        let mut making = plain(1, 20.0);
        change(&mut making);
        Maker::tank(making).step(12.0, &[], &[])
    };
    let many =
        |heaters: usize| (0..heaters).fold(Maker::tank(one()), |maker, _| maker.heater(heater(1.0, 0.0)));
    let bad = |heater: Heater| Maker::tank(one()).heater(heater).step(12.0, &[], &[UNSET]);
    let with_set = |points: SetPoints| {
        Maker::tank(one())
            .heater(heater(1.0, 0.0))
            .step(12.0, &[], &[points])
    };
    vec![
        case("1: no layers", with(|m| m.layers = 0)),
        case("1: 33 layers", with(|m| m.layers = 33)),
        case("1 before 3", with(|m| (m.layers, m.volume) = (0, 0.0))),
        case("32 layers", with(|m| m.layers = 32)),
        case("2: nine heaters", many(9)),
        case("2 before 5", many(8).heater(heater(f64::NAN, 0.0))),
        case("11 before 2", many(8).record(2, &[0; 24])),
        case("8 heaters", many(8).step(12.0, &[16.0], &[UNSET; 8])),
        case("3: volume 0", with(|m| m.volume = 0.0)),
        case("3: volume not-a-number", with(|m| m.volume = f64::NAN)),
        case("3: density infinite", with(|m| m.density = f64::INFINITY)),
        case("3: specific heat -0.0", with(|m| m.specific_heat = -0.0)),
        case("3: step below 0", with(|m| m.step = -1.0)),
        case("3 before 4", with(|m| (m.step, m.initial) = (0.0, f64::NAN))),
        case("4: standby below 0", with(|m| m.standby = -5e-324)),
        case("4: standby infinite", with(|m| m.standby = f64::INFINITY)),
        case("4: initial not-a-number", with(|m| m.initial = f64::NAN)),
        case("4: ambient infinite", with(|m| m.ambient = f64::NEG_INFINITY)),
        case("standby -0.0", with(|m| m.standby = -0.0)),
        case("5: rated below 0", bad(heater(-5e-324, 0.0))),
        case("5: rated infinite", bad(heater(f64::INFINITY, 0.0))),
        case("5: position below 0", bad(heater(1.0, -5e-324))),
        case("5: position not-a-number", bad(heater(1.0, nan))),
        case(
            "thermostat at 1",
            bad(Heater {
                rated: 1.0,
                position: 0.0,
                thermostat: Some(1.0),
            }),
        ),
        case("position -0.0 and rated -0.0", bad(heater(-0.0, -0.0))),
        case(
            "position just below 1",
            bad(heater(1.0, f64::from_bits(0x3fef_ffff_ffff_ffff))),
        ),
        case("6: 65 events", Maker::tank(one()).step(12.0, &[1.0; 65], &[])),
        case("6 before 7", Maker::tank(one()).step(nan, &[1.0; 65], &[])),
        case("64 events", Maker::tank(one()).step(12.0, &[1.0; 64], &[])),
        case("7: feed not-a-number", Maker::tank(one()).step(nan, &[], &[])),
        case(
            "7: volume below 0",
            Maker::tank(one()).step(12.0, &[-5e-324], &[]),
        ),
        case(
            "7: volume infinite",
            Maker::tank(one()).step(12.0, &[f64::INFINITY], &[]),
        ),
        case("volume -0.0", Maker::tank(one()).step(12.0, &[-0.0], &[])),
        case(
            "7 before 8",
            Maker::tank(one())
                .heater(heater(1.0, 0.0))
                .step(nan, &[], &[(Some(1.0), None)]),
        ),
        case("12: lower not-a-number", with_set(both(nan, 60.0))),
        case("12: upper infinite", with_set((None, Some(f64::INFINITY)))),
        case("8: lower alone", with_set((Some(50.0), None))),
        case("13: lower above upper", with_set(both(50.0, 49.0))),
        case("upper alone", with_set((None, Some(60.0)))),
        case(
            "9: a layer that loses its heat capacity",
            Maker::tank(Making {
                volume: 5e-324,
                ..plain(2, 20.0)
            })
            .heater(heater(1.0, 0.0))
            .step(12.0, &[], &[UNSET]),
        ),
        case(
            "10: energy too large after an event",
            Maker::tank(Making {
                density: 1e308,
                ..one()
            })
            .step(12.0, &[16.0], &[]),
        ),
        case(
            "10 after a turn: one layer that loses its heat capacity",
            Maker::tank(Making {
                volume: 5e-324,
                density: 0.1,
                ..one()
            })
            .heater(heater(1.0, 0.0))
            .step(12.0, &[], &[UNSET]),
        ),
        case(
            "10 at the end: the average too large",
            Maker::tank(Making {
                volume: 1.0,
                ..plain(1, 1.7e308)
            })
            .step(1.7e308, &[1.0, 1.0], &[]),
        ),
        case(
            "10 at the end: the losses too large together",
            Maker::tank(Making {
                volume: 2.0,
                standby: 1.08e305,
                step: 20.0,
                ..plain(2, 20.0)
            })
            .heater(heater(1000.0, 0.0))
            .heater(heater(1000.0, 0.0))
            .step(12.0, &[], &[both(30.0, 100.0), both(110.0, 140.0)]),
        ),
        case(
            "10 after a turn: the losses of its layers too large together",
            Maker::tank(Making {
                volume: 2.0,
                standby: 1.08e305,
                step: 20.0,
                ..plain(2, 20.0)
            })
            .heater(heater(1000.0, 0.0))
            .step(12.0, &[], &[both(30.0, 150.0)]),
        ),
        case(
            "9: the mixing after an event, its mean too large",
            Maker::tank(plain(2, 1e307)).step(1.7e308, &[1.0], &[]),
        ),
        case(
            "9: the mixing after the second event",
            Maker::tank(plain(2, 1e307)).step(1.7e308, &[0.0, 1.0], &[]),
        ),
        case(
            "10 after an event: its layer too large, all else finite",
            Maker::tank(plain(1, 1e307)).step(1e308, &[1.0], &[]),
        ),
        case(
            "10 after the second event: the volume used too large, all else finite",
            Maker::tank(Making {
                volume: 1e308,
                ..plain(1, 1.0)
            })
            .step(1.0, &[1e308, 1e308], &[]),
        ),
        case(
            "10 after the second turn",
            Maker::tank(Making {
                standby: 1e305,
                ..one()
            })
            .heater(heater(1.0, 0.0))
            .heater(heater(1e6, 0.0))
            .step(12.0, &[], &[UNSET, both(50.0, 1e5)]),
        ),
        case(
            "9 in the second turn: the first heater, which came on in its own, is off in the next step",
            Maker::tank(Making {
                specific_heat: 1e-10,
                ..plain(2, 40.0)
            })
            .heater(heater(1.6e-8, 0.0))
            .heater(heater(1e308, 0.0))
            .step(12.0, &[], &[both(50.0, 60.0), both(50.0, 60.0)])
            .step(12.0, &[], &[both(10.0, 60.0), UNSET]),
        ),
        case("a tank alone", Maker::tank(one())),
        case(
            "a tank and a heater alone",
            Maker::tank(one()).heater(heater(1.0, 0.0)),
        ),
        case(
            "a step after a refused step",
            Maker::tank(one())
                .heater(heater(1.0, 0.0))
                .step(12.0, &[4.0], &[both(50.0, 60.0)])
                .step(nan, &[4.0], &[both(50.0, 60.0)])
                .step(12.0, &[4.0], &[both(50.0, 60.0)]),
        ),
    ]
}
