//! Cases of document 01 itself, and the one of docs/JOB_FORMAT.md.

use super::Value::{Double, Word};
use super::{both, figure, heater, plain, Case, Figure, Maker, UNSET};
use original::probe::Making;

fn two_at_40() -> Maker {
    Maker::tank(plain(2, 40.0)).heater(heater(160.0, 0.0))
}

/// 01, Figures to hold it against, in its order.
pub fn of_01() -> Vec<Case> {
    let four = || Maker::tank(plain(4, 60.0));
    let set = [both(50.0, 60.0)];
    vec![
        figure(
            "01: four layers at 60, feed 12, draw 16",
            four().step(12.0, &[16.0], &[]),
            &[
                (0, 3, Double(768.0)),
                (0, 5, Double(60.0)),
                (1, 1, Double(12.0)),
                (1, 2, Double(60.0)),
                (1, 3, Double(60.0)),
                (1, 4, Double(60.0)),
            ],
        ),
        figure(
            "01: four layers at 60, feed 12, draw 80",
            four().step(12.0, &[80.0], &[]),
            &[
                (0, 3, Double(3072.0)),
                (0, 4, Double(64.0)),
                (0, 5, Double(50.4)),
                (1, 1, Double(12.0)),
                (1, 2, Double(12.0)),
                (1, 3, Double(12.0)),
                (1, 4, Double(12.0)),
            ],
        ),
        figure(
            "01: four layers at 60, feed 12, draw 0",
            four().step(12.0, &[0.0], &[]),
            &[
                (0, 5, Double(60.0)),
                (1, 1, Double(60.0)),
                (1, 2, Double(60.0)),
                (1, 3, Double(60.0)),
                (1, 4, Double(60.0)),
            ],
        ),
        figure(
            "01: two layers at 60, feed 70, draw 16",
            Maker::tank(plain(2, 60.0)).step(70.0, &[16.0], &[]),
            &[(0, 3, Double(-160.0)), (1, 1, Double(65.0)), (1, 2, Double(65.0))],
        ),
        figure(
            "01: two layers at 40, 160 kW, set points 50 and 60, four steps",
            two_at_40()
                .step(12.0, &[], &set)
                .step(12.0, &[], &set)
                .step(12.0, &[], &set)
                .step(12.0, &[], &set),
            &[
                (2, 1, Word("1")),
                (2, 3, Double(160.0)),
                (5, 1, Word("1")),
                (5, 3, Double(160.0)),
                (8, 1, Word("1")),
                (8, 3, Double(160.0)),
                (10, 1, Double(60.0)),
                (10, 2, Double(60.0)),
                (11, 1, Word("0")),
                (11, 3, Double(160.0)),
            ],
        ),
        figure(
            "01: the same with set points 41 and 42",
            two_at_40().step(12.0, &[], &[both(41.0, 42.0)]),
            &[
                (1, 1, Double(42.0)),
                (1, 2, Double(42.0)),
                (2, 1, Word("0")),
                (2, 3, Double(64.0)),
            ],
        ),
        figure(
            "01: two layers at 36, ambient 20, standby 27, step 0.125, two heaters unset",
            Maker::tank(Making {
                standby: 27.0,
                step: 0.125,
                ..plain(2, 36.0)
            })
            .heater(heater(1.0, 0.0))
            .heater(heater(1.0, 0.5))
            .step(12.0, &[], &[UNSET, UNSET]),
            &[
                (0, 6, Double(37.5)),
                (1, 1, Double(34.4375)),
                (1, 2, Double(34.4375)),
                (2, 4, Double(50.0)),
                (3, 4, Double(0.0)),
            ],
        ),
        figure(
            "01: position 0.5 of 4 is layer 2",
            Maker::tank(plain(4, 40.0))
                .heater(heater(32.0, 0.5))
                .step(12.0, &[], &[both(50.0, 60.0)]),
            // Two layers, 2 and 3, share 32 kWh: one degree each.
            &[
                (1, 1, Double(40.0)),
                (1, 2, Double(40.0)),
                (1, 3, Double(41.0)),
                (1, 4, Double(41.0)),
            ],
        ),
        figure(
            "01: position 1 of 4, which by 02 (R-2) is layer 3",
            Maker::tank(plain(4, 40.0))
                .heater(heater(16.0, 1.0))
                .step(12.0, &[], &[both(50.0, 60.0)]),
            &[
                (0, 2, Word("0")),
                (1, 1, Double(40.0)),
                (1, 2, Double(40.0)),
                (1, 3, Double(40.0)),
                (1, 4, Double(41.0)),
                (2, 1, Word("1")),
                (2, 3, Double(16.0)),
            ],
        ),
        figure(
            "01: lower equal to upper is accepted",
            Maker::tank(plain(2, 40.0))
                .heater(heater(16.0, 0.0))
                .step(12.0, &[], &[both(50.0, 50.0)]),
            &[(0, 2, Word("0"))],
        ),
        figure(
            "01: job of two layers, volume 32, initial 20, no heaters, feed 12, no events",
            Maker::tank(plain(2, 20.0)).step(12.0, &[], &[]),
            &[
                (0, 0, Word("S")),
                (0, 1, Word("0")),
                (0, 2, Word("0")),
                (0, 3, Word("0000000000000000")),
                (0, 4, Word("0000000000000000")),
                (0, 5, Word("4034000000000000")),
                (0, 6, Word("0000000000000000")),
                (1, 0, Word("L")),
                (1, 1, Word("4034000000000000")),
                (1, 2, Word("4034000000000000")),
            ],
        ),
        Case {
            name: "01: empty input".to_string(),
            bytes: Vec::new(),
            figure: Some(Figure(&[
                (0, 0, Word("E")),
                (0, 1, Word("11")),
                (0, 2, Word("0")),
            ])),
        },
    ]
}

/// The example of docs/JOB_FORMAT.md, worked by hand.
pub fn of_the_format() -> Case {
    figure(
        "docs/JOB_FORMAT.md: a heater and a draw",
        two_at_40().step(12.0, &[16.0], &[both(50.0, 60.0)]),
        // The draw takes the top layer at 40 and leaves 12 under 40; 160 kWh warm 16 litres by 10.
        &[
            (0, 3, Double(448.0)),
            (0, 4, Double(16.0)),
            (0, 5, Double(40.0)),
            (0, 6, Double(0.0)),
            (1, 1, Double(22.0)),
            (1, 2, Double(40.0)),
            (2, 1, Word("1")),
            (2, 2, Double(160.0)),
            (2, 3, Double(160.0)),
            (2, 4, Double(0.0)),
            (2, 5, Word("1")),
        ],
    )
}
