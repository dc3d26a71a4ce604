//! Mixings by themselves.

pub struct MixCase {
    pub name: &'static str,
    pub volume: f64,
    pub layers: Vec<f64>,
    /// What 01 says: rounds and layers, or the refusal.
    pub figure: Option<Result<(u64, Vec<f64>), u8>>,
}

pub fn mixes() -> Vec<MixCase> {
    let nan = f64::NAN;
    let inf = f64::INFINITY;
    let plain = |name, layers: &[f64], figure| MixCase {
        name,
        volume: 16.0,
        layers: layers.to_vec(),
        figure,
    };
    let odd = |bits: u64| f64::from_bits(bits);
    vec![
        plain("01: 50, 40", &[50.0, 40.0], Some(Ok((1, vec![45.0; 2])))),
        plain("01: 20, 30", &[20.0, 30.0], Some(Ok((1, vec![20.0, 30.0])))),
        plain("01: 30, 40, 5", &[30.0, 40.0, 5.0], Some(Ok((2, vec![25.0; 3])))),
        plain("01: one layer, not-a-number", &[nan], Some(Ok((1, vec![nan])))),
        plain("01: not-a-number with 20", &[nan, 20.0], Some(Err(9))),
        plain("20 with not-a-number", &[20.0, nan], None),
        plain("one layer, a payload", &[odd(0xfff4_dead_beef_0001)], None),
        plain(
            "two payloads",
            &[odd(0x7ff0_0000_0000_0001), odd(0xfff4_dead_beef_0001)],
            None,
        ),
        plain("01: 40 under 40.00000001", &[40.0, 40.000_000_01], None),
        plain(
            "40 under the next double past narrow-close",
            &[40.0, 40.000_000_040_000_01],
            None,
        ),
        plain(
            "43 under 43.000000043: the tolerance is that of the larger, above",
            &[43.0, 43.000_000_043],
            None,
        ),
        plain(
            "10.81 under 10.81000001081: of the larger, not of both",
            &[10.81, 10.810_000_010_81],
            None,
        ),
        plain(
            "-10.61 under -10.60999998939: the larger is below",
            &[-10.61, -10.609_999_989_39],
            None,
        ),
        plain("one layer, infinite", &[inf], None),
        plain("1 under infinity", &[1.0, inf], None),
        plain("infinity under infinity", &[inf, inf], None),
        plain("-infinity under 1", &[-inf, 1.0], None),
        plain("infinity under 1", &[inf, 1.0], None),
        plain("zeros of both signs", &[0.0, -0.0], None),
        plain("zeros of both signs, the other way", &[-0.0, 0.0], None),
        plain("the smallest under 0", &[-5e-324, 0.0], None),
        plain("no layers", &[], None),
        plain("33 layers", &[20.0; 33], None),
        plain(
            "32 layers falling",
            &(0..32).map(|i| 90.0 - i as f64).collect::<Vec<_>>(),
            None,
        ),
        plain(
            "32 layers in 31 rounds: the cold top takes in one layer more each time",
            &(0..32)
                .map(|i| if i == 31 { -1e6 } else { i as f64 })
                .collect::<Vec<_>>(),
            None,
        ),
        plain(
            "32 layers, every second one cold",
            &(0..32)
                .map(|i| if i % 2 == 0 { i as f64 } else { -3.0 * i as f64 })
                .collect::<Vec<_>>(),
            None,
        ),
        MixCase {
            name: "volume 0",
            volume: 0.0,
            layers: vec![20.0],
            figure: None,
        },
        MixCase {
            name: "volume -0.0",
            volume: -0.0,
            layers: vec![20.0],
            figure: None,
        },
        MixCase {
            name: "volume infinite",
            volume: inf,
            layers: vec![50.0, 40.0],
            figure: None,
        },
        MixCase {
            name: "volume not-a-number",
            volume: nan,
            layers: vec![20.0],
            figure: None,
        },
        MixCase {
            name: "1 before 3",
            volume: 0.0,
            layers: vec![],
            figure: None,
        },
        MixCase {
            name: "a product outside the group is too large",
            volume: 1e308,
            layers: vec![5.0, 4.0, 1e10],
            figure: None,
        },
        MixCase {
            name: "smallest volume",
            volume: 5e-324,
            layers: vec![50.0, 40.0],
            figure: None,
        },
    ]
}
