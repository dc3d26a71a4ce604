//! The exported calls of the crate `shim`; `compare/shim/shim.h` says what stands at each place.

use original::probe::{Heater, Making, SetPoints};

pub const LAYERS: usize = 32;
pub const HEATERS: usize = 8;
pub const EVENTS: usize = 64;

#[derive(Clone, Default)]
pub struct Tank {
    pub counts: [usize; 2],
    pub numbers: [f64; 6],
    pub temps: [f64; LAYERS],
    pub heaters: [f64; 3 * HEATERS],
    pub thermostats: [u8; HEATERS],
    pub flags: [u8; HEATERS],
}

impl Tank {
    /// Layers and flags as given.
    pub fn put(&mut self, layers: &[f64], flags: &[bool]) {
        self.temps[..layers.len()].copy_from_slice(layers);
        for (byte, flag) in self.flags.iter_mut().zip(flags) {
            *byte = u8::from(*flag);
        }
    }
}

#[derive(Clone, Default)]
pub struct Report {
    pub totals: [f64; 4],
    pub figures: [f64; 3 * HEATERS],
    pub flags: [u8; HEATERS],
    pub rounds: [usize; HEATERS],
}

#[derive(Clone)]
pub struct Step {
    pub feed: f64,
    pub asked: [usize; 2],
    pub volumes: [f64; EVENTS],
    pub present: [u8; 2 * HEATERS],
    pub points: [f64; 2 * HEATERS],
}

extern "C" {
    fn huszmago_make(
        initial: f64,
        counts: &mut [usize; 2],
        numbers: &mut [f64; 6],
        temps: &mut [f64; LAYERS],
        heaters: &mut [f64; 3 * HEATERS],
        thermostats: &mut [u8; HEATERS],
        flags: &mut [u8; HEATERS],
    ) -> u8;
    fn huszmago_step(
        counts: &mut [usize; 2],
        numbers: &mut [f64; 6],
        temps: &mut [f64; LAYERS],
        heaters: &mut [f64; 3 * HEATERS],
        thermostats: &mut [u8; HEATERS],
        flags: &mut [u8; HEATERS],
        totals: &mut [f64; 4],
        figures: &mut [f64; 3 * HEATERS],
        line_flags: &mut [u8; HEATERS],
        rounds: &mut [usize; HEATERS],
        feed: f64,
        asked: &[usize; 2],
        volumes: &[f64; EVENTS],
        present: &[u8; 2 * HEATERS],
        points: &[f64; 2 * HEATERS],
    ) -> u8;
    fn huszmago_mix(layers: *mut f64, n: usize, layer_volume: f64, rounds: &mut [usize; 1]) -> u8;
}

pub fn make(making: &Making, heaters: &[Heater]) -> Tank {
    let mut t = Tank {
        counts: [making.layers, heaters.len()],
        numbers: [
            making.volume,
            making.standby,
            making.density,
            making.specific_heat,
            making.ambient,
            making.step,
        ],
        ..Tank::default()
    };
    for (at, heater) in heaters.iter().enumerate() {
        t.heaters[at] = heater.rated;
        t.heaters[HEATERS + at] = heater.position;
        t.heaters[2 * HEATERS + at] = heater.thermostat.unwrap_or(0.0);
        t.thermostats[at] = u8::from(heater.thermostat.is_some());
    }
    let number = unsafe {
        huszmago_make(
            making.initial,
            &mut t.counts,
            &mut t.numbers,
            &mut t.temps,
            &mut t.heaters,
            &mut t.thermostats,
            &mut t.flags,
        )
    };
    assert_eq!(number, 0, "a made tank");
    t
}

pub fn step_of(feed: f64, volumes: &[f64], heaters: usize, set_points: SetPoints) -> Step {
    let mut a = Step {
        feed,
        asked: [volumes.len(), heaters],
        volumes: [0.0; EVENTS],
        present: [0; 2 * HEATERS],
        points: [0.0; 2 * HEATERS],
    };
    a.volumes[..volumes.len()].copy_from_slice(volumes);
    for at in 0..heaters {
        for (from, point) in [(0, set_points.0), (HEATERS, set_points.1)] {
            a.present[from + at] = u8::from(point.is_some());
            a.points[from + at] = point.unwrap_or(0.0);
        }
    }
    a
}

#[inline]
pub fn step(t: &mut Tank, r: &mut Report, a: &Step) -> u8 {
    unsafe {
        huszmago_step(
            &mut t.counts,
            &mut t.numbers,
            &mut t.temps,
            &mut t.heaters,
            &mut t.thermostats,
            &mut t.flags,
            &mut r.totals,
            &mut r.figures,
            &mut r.flags,
            &mut r.rounds,
            a.feed,
            &a.asked,
            &a.volumes,
            &a.present,
            &a.points,
        )
    }
}

/// The number, and the rounds.
#[inline]
pub fn mix(layers: &mut [f64], layer_volume: f64) -> (u8, usize) {
    let mut rounds = [0];
    let number = unsafe { huszmago_mix(layers.as_mut_ptr(), layers.len(), layer_volume, &mut rounds) };
    (number, rounds[0])
}
