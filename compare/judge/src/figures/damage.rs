//! Cases for refusal 11: each way in which a record is damaged or misplaced.

use super::{case, heater, plain, Case, Maker, UNSET};

/// A heater's record and a step's with this presence byte; the step's in the entry given, of two heaters.
fn heater_present(byte: u8) -> [u8; 25] {
    let mut body = [0; 25];
    body[16] = byte;
    body
}

fn step_present(entry: usize, byte: u8) -> [u8; 44] {
    let mut body = [0; 44];
    body[10 + 17 * entry] = byte;
    body
}

/// The lengths here are those of the body, two fewer than the length field says.
pub fn damage() -> Vec<Case> {
    let one = || plain(1, 20.0);
    let tank = || Maker::tank(one());
    let fitted = || tank().heater(heater(1.0, 0.0));
    let two = || fitted().heater(heater(1.0, 0.5));
    let mut all = vec![
        case("11: a tank one byte longer", Maker::nothing().record(1, &[0; 59])),
        case(
            "11: a tank one byte shorter",
            Maker::nothing().record(1, &[0; 57]),
        ),
        case("11: a tank without its last byte", tank().cut(1)),
        case("11: a second tank", tank().also_tank(one())),
        case("11: a tank after a heater", fitted().also_tank(one())),
        case(
            "11: a tank after a step",
            tank().step(12.0, &[], &[]).also_tank(one()),
        ),
        case("11: a heater one byte longer", tank().record(2, &[0; 26])),
        case("11: a heater one byte shorter", tank().record(2, &[0; 24])),
        case("11: a heater without its last byte", fitted().cut(1)),
        case(
            "11: a heater before the tank",
            Maker::nothing().heater(heater(1.0, 0.0)),
        ),
        case(
            "11: a heater after an accepted step",
            tank().step(12.0, &[], &[]).heater(heater(1.0, 0.0)),
        ),
        case(
            "11: a heater after a refused step",
            tank().step(f64::NAN, &[], &[]).heater(heater(1.0, 0.0)),
        ),
        case(
            "11: presence byte 2 in a heater",
            tank().record(2, &heater_present(2)),
        ),
        case(
            "11: presence byte 255 in a heater",
            tank().record(2, &heater_present(255)),
        ),
        case("11: a step one byte longer", tank().record(3, &[0; 11])),
        case("11: cut short", tank().record(3, &[0; 9])),
        case(
            "11: a step without its last byte",
            tank().step(12.0, &[1.0], &[]).cut(1),
        ),
        case(
            "11: a step before the tank",
            Maker::nothing().step(12.0, &[], &[]),
        ),
        case(
            "11: a step with an entry too few",
            two().step(12.0, &[], &[UNSET]),
        ),
        case(
            "11: a step with an entry too many",
            fitted().step(12.0, &[], &[UNSET; 2]),
        ),
        case(
            "11: a step that counts a volume more than it has",
            tank().record(3, &[0, 0, 0, 0, 0, 0, 0, 0, 2, 0, 0, 0, 0, 0, 0, 0, 0, 0]),
        ),
        case(
            "11: presence byte 4 in a step",
            two().record(3, &step_present(0, 4)),
        ),
        case(
            "11: presence byte 255 in a step",
            two().record(3, &step_present(0, 255)),
        ),
        case(
            "11: presence byte 4 in a step's second entry",
            two().record(3, &step_present(1, 4)),
        ),
        case("11: three bytes of a length", tank().and(&[12, 0, 0])),
        case("11: a length and no more", tank().and(&[12, 0, 0, 0])),
        case("11: a length of 0", tank().and(&[0, 0, 0, 0])),
        case("11: a length of 1", tank().and(&[1, 0, 0, 0, 3])),
        case("11: the largest length", tank().and(&[255; 16])),
        case(
            "11: a length with its bytes swapped",
            Maker::nothing().and(&[0, 0, 0, 60, 1, 0]).and(&[0; 58]),
        ),
        case(
            "11: an accepted step, then a byte",
            tank().step(12.0, &[], &[]).and(&[0]),
        ),
    ];
    // Right in its first byte.
    let body = tank().bytes()[6..].to_vec();
    all.push(case(
        "11: kind 257 with a tank's body",
        Maker::nothing().record(257, &body),
    ));
    for kind in [0, 4, 256, 512, 768, 0xffff] {
        all.push(case(
            format!("11: unknown kind {kind}"),
            tank().record(kind, &[0; 10]),
        ));
    }
    all
}
