//! Cases for each reading that shows.

use super::{both, case, heater, plain, Case, Maker, UNSET};
use original::probe::{Heater, Making};

/// Where a reading shows: signs of zeros, last bits, and 01's traps.
pub fn readings() -> Vec<Case> {
    vec![
        case(
            "a rated power of -0.0 offers 0.0 and supplies -0.0",
            Maker::tank(Making {
                ambient: 0.0,
                ..plain(1, -0.0)
            })
            .heater(heater(-0.0, 0.0))
            .step(0.0, &[], &[both(0.0, 10.0)]),
        ),
        case(
            "a layer of -0.0 comes out of any turn as 0.0",
            Maker::tank(Making {
                ambient: 0.0,
                ..plain(1, -0.0)
            })
            .heater(heater(1.0, 0.0))
            .step(0.0, &[], &[UNSET]),
        ),
        case(
            "a layer of -0.0 stays without a heater",
            Maker::tank(plain(1, -0.0)).step(0.0, &[], &[]),
        ),
        case(
            "a feed of -0.0 enters at 0.0",
            Maker::tank(plain(1, -0.0)).step(-0.0, &[16.0], &[]),
        ),
        case(
            "a refilled layer's heat starts from its own, 0 x -0.0 if it is empty",
            Maker::tank(plain(2, -0.0)).step(0.0, &[16.0], &[]),
        ),
        case(
            "a loss of -0.0: the larger of 0 and -0.0 is the second",
            Maker::tank(Making {
                standby: 1.08,
                ambient: 0.0,
                ..plain(2, 0.0)
            })
            .heater(heater(1.0, 0.0))
            .step(-5e-324, &[16.0], &[UNSET]),
        ),
        case(
            "a draw of 0 can use a volume: the volume less the sum of its layers",
            Maker::tank(Making {
                volume: 5e-324,
                ..plain(32, 20.0)
            })
            .step(12.0, &[0.0, 1.0], &[]),
        ),
        case(
            "a rest wide-close to 0 comes from the feed",
            Maker::tank(plain(2, 60.0)).step(12.0, &[32.0 + 4e-11, 5e-11], &[]),
        ),
        case(
            "an offer too large: its Sum2 is no number, so nothing is supplied",
            Maker::tank(Making {
                step: 1e10,
                ..plain(1, 20.0)
            })
            .heater(heater(1e300, 0.0))
            .step(12.0, &[], &[both(30.0, 60.0)]),
        ),
        case(
            "40 under 40.00000001 mixes",
            Maker::tank(plain(2, 40.000_000_01))
                .heater(heater(1.0, 0.0))
                .step(40.0, &[16.0], &[UNSET]),
        ),
        case(
            "cold of 1/3 is not the feed",
            Maker::tank(plain(3, 60.1)).step(10.1, &[1.0 / 3.0, 0.7, 50.3], &[]),
        ),
        case(
            "a limited layer takes no loss, which still counts",
            Maker::tank(Making {
                standby: 27.0,
                step: 0.125,
                ..plain(2, 36.0)
            })
            .heater(heater(640.0, 0.0))
            .heater(heater(1.0, 0.5))
            .step(12.0, &[], &[both(40.0, 38.0 + 2.0), UNSET]),
        ),
        case(
            "switched off by its own turn, not by the step's last layers",
            Maker::tank(plain(2, 40.0))
                .heater(heater(32.0, 0.0))
                .heater(Heater {
                    rated: 320.0,
                    position: 0.5,
                    thermostat: Some(0.0),
                })
                .heater(heater(640.0, 0.0))
                .step(
                    12.0,
                    &[],
                    &[both(50.0, 45.0 + 5.0), both(50.0, 60.0), both(50.0, 70.0)],
                )
                .step(
                    12.0,
                    &[8.0],
                    &[both(10.0, 50.0), both(10.0, 60.0), both(10.0, 70.0)],
                ),
        ),
        case(
            "warmed by mixing alone, then limited by a heater that is off",
            Maker::tank(plain(3, 60.0))
                .heater(heater(1.0, 0.0))
                .step(80.0, &[16.0], &[(None, Some(50.0))])
                .step(10.0, &[40.0], &[(None, Some(30.0))]),
        ),
        case(
            "a layer above the set point is not held there by a heater that didn't warm it",
            Maker::tank(plain(4, 70.0))
                .heater(heater(160.0, 0.0))
                .step(10.0, &[16.0], &[both(50.0, 60.0)])
                .step(10.0, &[], &[both(50.0, 60.0)]),
        ),
        case(
            "energy is density x specific heat x share x difference, from the left",
            Maker::tank(Making {
                volume: 1.0,
                density: 0.7,
                specific_heat: 0.3,
                ..plain(1, 60.0)
            })
            .step(10.0, &[0.1], &[]),
        ),
        case(
            "an event's energy is a sum of its own",
            Maker::tank(Making {
                volume: 1.0,
                ..plain(2, 60.0)
            })
            .step(10.1, &[0.1, 0.7], &[]),
        ),
        case(
            "a gain is offer / (density x specific heat x layer volume)",
            Maker::tank(Making {
                volume: 3.0,
                density: 0.7,
                specific_heat: 0.3,
                ..plain(1, 36.0)
            })
            .heater(heater(14.0, 0.5))
            .step(10.0, &[], &[both(65.0, 75.0)]),
        ),
        case(
            "a layer's part of the losses is layer volume / volume",
            Maker::tank(Making {
                volume: 10.0,
                standby: 1.0,
                ..plain(3, 36.0)
            })
            .heater(heater(1.0, 0.0))
            .step(10.0, &[], &[UNSET]),
        ),
        case(
            "a loss is multiplied from the left, the step length last",
            Maker::tank(Making {
                volume: 1.0,
                standby: 1.0,
                step: 0.1,
                ..plain(1, 36.0)
            })
            .heater(heater(1.0, 0.0))
            .step(10.0, &[], &[both(40.0, 60.0)]),
        ),
        case(
            "a surplus is heat - loss - heat at the set point, heats first",
            Maker::tank(Making {
                volume: 1.0,
                density: 0.7,
                specific_heat: 0.3,
                ..plain(1, 36.0)
            })
            .heater(heater(7.0, 0.0))
            .step(10.0, &[], &[both(40.0, 60.0)]),
        ),
        case(
            "a surplus takes the loss off before the heat at the set point",
            Maker::tank(Making {
                volume: 1.0,
                standby: 1.0,
                ..plain(1, 36.0)
            })
            .heater(heater(100.0, 0.0))
            .heater(heater(300.0, 0.0))
            .heater(heater(200.0, 0.5))
            .step(10.0, &[], &[UNSET, both(70.0, 80.0), both(65.0, 75.0)]),
        ),
        case(
            "heat of a layer is ((density x specific heat) x layer volume) x temperature",
            Maker::tank(Making {
                volume: 3.0,
                density: 0.7,
                specific_heat: 0.3,
                ..plain(1, 36.0)
            })
            .heater(heater(100.0, 0.0))
            .step(10.0, &[], &[both(40.0, 60.0)]),
        ),
        case(
            "the losses of several heaters are added plainly",
            Maker::tank(Making {
                volume: 1.0,
                standby: 1.0,
                density: 0.7,
                specific_heat: 0.3,
                ..plain(2, 36.0)
            })
            .heater(heater(3.3, 0.0))
            .heater(heater(6.6, 0.5))
            .heater(heater(3.3 * 3.0, 0.0))
            .step(10.0, &[], &[UNSET, both(65.0, 75.0), both(70.0, 80.0)]),
        ),
        case(
            "two heaters at one place work in the given order",
            Maker::tank(plain(2, 40.0))
                .heater(heater(16.0, 0.0))
                .heater(heater(160.0, -0.0))
                .step(12.0, &[], &[both(50.0, 41.0 + 10.0), both(50.0, 55.0)]),
        ),
    ]
}
