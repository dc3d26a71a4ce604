//! Random jobs by shape and seed.

mod calls;
mod damaged;
mod days;
mod edges;
mod lent;
mod numbers;
mod sizes;

pub use calls::mix;
pub use lent::{lent, list, make};

use crate::job::Writer;
use crate::rng::Rng;
use calls::put;
use damaged::damaged;
use days::{day, hot_feed, hysteresis, long, season};
use edges::{edges, exact, lid, near_ones, zeros};
use sizes::{overflow, range, strange, tiny};

/// The shapes of jobs that are small enough to be stored.
pub const JOB_SHAPES: &[&str] = &[
    "day",
    "full",
    "edges",
    "special",
    "bits",
    "exact",
    "hot-feed",
    "near",
    "overflow",
    "damaged",
    "tiny",
    "hysteresis",
    "zeros",
    "range",
];

/// Shapes that a request brought. Their stored jobs stand at the end of the list.
pub const REQUEST_SHAPES: &[&str] = &["lid"];

/// Past 65,536 bytes.
pub const LONG: &str = "long";
/// As many accepted steps as a job can hold.
pub const SEASON: &str = "season";
/// Steps from a tank whose layers and flags are put in.
pub const PUT: &str = "put";
/// Mixings by themselves.
pub const MIX: &str = "mix";
/// The same on lists of any length.
pub const LISTS: &str = "lists";
/// Tanks made from any numbers in one call.
pub const MAKE: &str = "make";
/// Steps on tanks and reports that nobody made.
pub const LENT: &str = "lent";

/// Jobs of 65,536 bytes.
pub const LARGE_SHAPES: &[&str] = &[LONG, SEASON];
/// Arguments of the calls make, step and mix.
pub const CALL_SHAPES: &[&str] = &[MIX, LISTS, MAKE, LENT];

/// The job of a shape and a seed.
pub fn job(shape: &str, seed: u64) -> Vec<u8> {
    let mut rng = Rng::new(shape, seed);
    let mut writer = Writer::default();
    let rng = &mut rng;
    match shape {
        "day" => {
            let layers = rng.from_to(1, 32) as usize;
            let layers = if rng.one_in(2) { layers.min(6) } else { layers };
            let heaters = rng.below(9).min(rng.below(9)) as usize;
            let steps = rng.from_to(1, 24) as usize;
            day(rng, layers, heaters, steps, &mut writer)
        }
        "full" => {
            let layers = rng.from_to(24, 32) as usize;
            let heaters = rng.from_to(6, 8) as usize;
            let steps = rng.from_to(1, 6) as usize;
            day(rng, layers, heaters, steps, &mut writer)
        }
        "edges" => edges(rng, &mut writer),
        "special" => strange(rng, &mut writer, false),
        "bits" => strange(rng, &mut writer, true),
        "exact" => exact(rng, &mut writer),
        "hot-feed" => hot_feed(rng, &mut writer),
        "near" => near_ones(rng, &mut writer),
        "overflow" => overflow(rng, &mut writer),
        "damaged" => damaged(rng, &mut writer),
        "tiny" => tiny(rng, &mut writer),
        "hysteresis" => hysteresis(rng, &mut writer),
        "zeros" => zeros(rng, &mut writer),
        "range" => range(rng, &mut writer),
        "lid" => lid(rng, &mut writer),
        LONG => long(rng, &mut writer),
        SEASON => season(rng, &mut writer),
        PUT => put(rng, &mut writer),
        _ => crate::stop(&format!("no shape {shape}")),
    }
    writer.bytes
}
