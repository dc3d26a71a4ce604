//! Numbers that jobs are made of: special ones, and ones near to another.

use crate::rng::Rng;
use original::probe::SetPoints;

/// Numbers that have gone wrong somewhere before.
pub const SPECIAL: &[u64] = &[
    0x7ff8_0000_0000_0000, // not-a-number
    0xfff8_0000_0000_0000,
    0x7ff0_0000_0000_0001, // signalling, with a payload
    0xfff4_dead_beef_0001,
    0x7ff0_0000_0000_0000, // infinities
    0xfff0_0000_0000_0000,
    0x8000_0000_0000_0000, // -0.0
    0x0000_0000_0000_0000,
    0x0000_0000_0000_0001, // subnormal
    0x8000_0000_0000_0001,
    0x000f_ffff_ffff_ffff,
    0x0010_0000_0000_0000,
    0x7fef_ffff_ffff_ffff, // largest
    0xffef_ffff_ffff_ffff,
    0x7fe1_ccf3_85eb_c8a0, // 1e308
    0x0007_30d6_7819_e8d2, // 1e-308
    0x3ff0_0000_0000_0000, // 1
    0x3fef_ffff_ffff_ffff, // just below 1
    0xbff0_0000_0000_0000,
    0x3cb0_0000_0000_0000, // 2^-52
];

pub fn special(rng: &mut Rng) -> f64 {
    f64::from_bits(*rng.pick(SPECIAL))
}

/// A step of a few units in the last place, either way.
pub fn nudge(rng: &mut Rng, x: f64) -> f64 {
    let by = rng.from_to(0, 4) as i64 - 2;
    if !x.is_finite() || x == 0.0 {
        return x;
    }
    f64::from_bits(x.to_bits().wrapping_add(by as u64))
}

/// A number at, just inside or just outside narrow-close or wide-close to x.
pub fn near(rng: &mut Rng, x: f64) -> f64 {
    let y = match rng.below(7) {
        0 => x,
        1 => x * (1.0 + 1e-9),
        2 => x * (1.0 - 1e-9),
        3 => x + 1e-10,
        4 => x - 1e-10,
        5 => x + f64::EPSILON,
        _ => x * (1.0 + 1e-9 * rng.between(-1.5, 1.5)),
    };
    nudge(rng, y)
}

/// Both set points, the lower one first.
pub fn rising(a: f64, b: f64) -> SetPoints {
    if a > b {
        (Some(b), Some(a))
    } else {
        (Some(a), Some(b))
    }
}

pub fn absent(rng: &mut Rng) -> f64 {
    match rng.below(3) {
        0 => 0.0,
        1 => special(rng),
        _ => rng.between(-100.0, 100.0),
    }
}
