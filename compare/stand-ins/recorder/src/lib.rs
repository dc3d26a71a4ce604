//! What the stand-ins see while `StorageTank` works, and the bound on its mixing loop.
//!
//! The Rust keeps several figures to itself: each heater's adjusted input and losses, and the rounds of a
//! mixing, which it never counts. All of them pass through a stand-in. The stand-ins call the hooks below,
//! and the hooks tell by the order of the calls which part of the step is at work:
//!
//! - one event: the cold source, `Sum2` and narrow `relative_eq` in `extract_hot_water`; its last sum is that
//!   of the volumes that remain; from there to the writing of `temp_n`, every sum that is not of the cold
//!   source and every narrow `relative_eq` belongs to `rearrange_temperatures`;
//! - one turn: `HeatSource::setpnt` is called six times; between the fourth and the fifth call stand the sum
//!   for `q_s6`, the mixing, the sum of the offers and the sum of the losses, in this order; the first wide
//!   `relative_eq` after the fifth call is asked of the adjusted input.
//!
//! A pair of layers that mixes takes two sums; one that doesn't takes one narrow `relative_eq` that answers
//! no. A round looks at `layers - 1` pairs, so pairs / (layers - 1) are the rounds.
//!
//! With the feature `silent` every hook is empty: so the Rust is timed.

use std::cell::{Cell, RefCell};
use std::sync::atomic::{AtomicU64, AtomicU8, Ordering};

/// The payload of the panic that ends a mixing well past its limit.
pub struct MixedTooLong;

/// Wrong on purpose, for the self-test. None of them is on outside it.
pub const RIGHT: u8 = 0;
pub const PLAIN_SUM: u8 = 1;
pub const ABSOLUTE_TOLERANCE: u8 = 2;
pub const COLD_IS_FEED: u8 = 3;
pub const OFF_BY_LAST_LAYERS: u8 = 4;

static WRONG: AtomicU8 = AtomicU8::new(RIGHT);

pub fn set_wrong(kind: u8) {
    WRONG.store(kind, Ordering::Relaxed);
}

#[inline]
pub fn wrong() -> u8 {
    if cfg!(feature = "silent") {
        return RIGHT;
    }
    WRONG.load(Ordering::Relaxed)
}

/// 01, refusal 9. A rule of the layers, for the day when larger tanks get more.
pub fn most_rounds(_layers: usize) -> u64 {
    64
}

/// One heater's turn as the stand-ins saw it.
#[derive(Clone, Copy, Debug, Default, PartialEq)]
pub struct Turn {
    pub adjusted: f64,
    pub supplied: f64,
    pub losses: f64,
    pub rounds: u64,
    /// The flag was on after its switch-on: the heater's own control was not asked.
    pub ran: bool,
}

#[derive(Clone, Copy, Debug, PartialEq)]
enum Phase {
    Idle,
    /// A mixing called by itself.
    Mix,
    /// An event, up to the sum of the remaining volumes.
    Draw,
    /// The same event from there on.
    Refill,
    /// A heater's turn after so many readings of its set points.
    Turn(u8),
}

thread_local! {
    static PHASE: Cell<Phase> = const { Cell::new(Phase::Idle) };
    static LAYERS: Cell<usize> = const { Cell::new(0) };
    static TEMP_N: Cell<usize> = const { Cell::new(0) };
    static COLD_SUMS: Cell<u8> = const { Cell::new(0) };
    static SUMS: Cell<u64> = const { Cell::new(0) };
    static APART: Cell<u64> = const { Cell::new(0) };
    static LAST_SUM: Cell<f64> = const { Cell::new(0.0) };
    static ADJUSTED: Cell<Option<f64>> = const { Cell::new(None) };
    static SUPPLIED: Cell<f64> = const { Cell::new(0.0) };
    static LOSSES: Cell<f64> = const { Cell::new(0.0) };
    static RAN: Cell<bool> = const { Cell::new(false) };
    static ROUNDS: Cell<u64> = const { Cell::new(0) };
    static TURNS: RefCell<Vec<Turn>> = const { RefCell::new(Vec::new()) };
    static EVENT_ROUNDS: RefCell<Vec<u64>> = const { RefCell::new(Vec::new()) };
    static LAYERS_FINITE: Cell<bool> = const { Cell::new(true) };
}

fn reset(phase: Phase, layers: usize, temp_n: usize) {
    PHASE.set(phase);
    LAYERS.set(layers);
    TEMP_N.set(temp_n);
    COLD_SUMS.set(0);
    SUMS.set(0);
    APART.set(0);
    ADJUSTED.set(None);
    TURNS.with_borrow_mut(Vec::clear);
    EVENT_ROUNDS.with_borrow_mut(Vec::clear);
    LAYERS_FINITE.set(true);
}

/// A step of a tank of so many layers, whose `temp_n` lies at this address, is about to run.
pub fn begin_step(layers: usize, temp_n: usize) {
    reset(Phase::Draw, layers, temp_n);
}

/// A mixing alone is about to run.
pub fn begin_mix(layers: usize) {
    reset(Phase::Mix, layers, 0);
}

/// What a step showed.
pub struct Seen {
    pub turns: Vec<Turn>,
    /// Rounds of each event's mixing, 0 where the event ended in none. One layer mixes unseen.
    pub event_rounds: Vec<u64>,
    /// Every layer written to the tank was finite.
    pub layers_finite: bool,
}

/// Ends the recording; nothing is told of a step that did not end.
pub fn end_step(ended: bool) -> Option<Seen> {
    let phase = PHASE.replace(Phase::Idle);
    if !ended {
        return None;
    }
    if let Phase::Turn(6) = phase {
        close_turn();
    }
    Some(Seen {
        turns: TURNS.take(),
        event_rounds: EVENT_ROUNDS.take(),
        layers_finite: LAYERS_FINITE.get(),
    })
}

pub fn end_mix() -> u64 {
    PHASE.set(Phase::Idle);
    rounds(SUMS.get())
}

/// Rounds run, from the sums of a mixing and the pairs found apart. The first always runs.
fn rounds(sums: u64) -> u64 {
    let pairs = APART.get() + sums / 2;
    let each = LAYERS.get().saturating_sub(1) as u64;
    if each == 0 {
        return 1;
    }
    assert_eq!(pairs % each, 0, "a round looks at every pair");
    pairs / each
}

/// How many rounds beyond the limit a mixing may run before it is ended. Exact counting is left to `rounds`.
static PATIENCE: AtomicU64 = AtomicU64::new(1);

pub fn set_patience(rounds: u64) {
    PATIENCE.store(rounds, Ordering::Relaxed);
}

/// Ends a mixing that is certainly past its limit.
fn bound() {
    let each = LAYERS.get().saturating_sub(1) as u64;
    let pairs = APART.get() + SUMS.get() / 2;
    if pairs > (most_rounds(LAYERS.get()) + PATIENCE.load(Ordering::Relaxed)) * each + 2 {
        std::panic::panic_any(MixedTooLong);
    }
}

fn close_turn() {
    let turn = Turn {
        adjusted: ADJUSTED.take().expect("the adjusted input was looked at"),
        supplied: SUPPLIED.get(),
        losses: LOSSES.get(),
        rounds: ROUNDS.get(),
        ran: RAN.get(),
    };
    TURNS.with_borrow_mut(|turns| turns.push(turn));
}

/// The cold source was asked: its list is summed twice.
#[inline]
pub fn cold_asked() {
    if cfg!(feature = "silent") {
        return;
    }
    COLD_SUMS.set(2);
}

/// The step is in `calc_temps_after_extraction`.
#[inline]
pub fn refilling() -> bool {
    if cfg!(feature = "silent") {
        return false;
    }
    PHASE.get() == Phase::Refill
}

/// A sum was finished.
#[inline]
pub fn summed(answer: f64) {
    if cfg!(feature = "silent") {
        return;
    }
    if COLD_SUMS.get() > 0 {
        COLD_SUMS.set(COLD_SUMS.get() - 1);
        return;
    }
    match PHASE.get() {
        Phase::Draw => {
            PHASE.set(Phase::Refill);
            SUMS.set(0);
            APART.set(0);
        }
        Phase::Refill | Phase::Mix | Phase::Turn(4) => {
            SUMS.set(SUMS.get() + 1);
            LAST_SUM.set(answer);
            bound();
        }
        _ => {}
    }
}

/// `relative_eq` was asked of a number and another, with its default epsilon (narrow) or one given (wide).
#[inline]
pub fn compared(a: f64, narrow: bool, answer: bool) {
    if cfg!(feature = "silent") {
        return;
    }
    match PHASE.get() {
        Phase::Refill | Phase::Mix | Phase::Turn(4) if narrow && !answer => {
            APART.set(APART.get() + 1);
            bound();
        }
        Phase::Turn(5) if !narrow && ADJUSTED.get().is_none() => ADJUSTED.set(Some(a)),
        _ => {}
    }
}

/// `HeatSource::setpnt` was called.
#[inline]
pub fn set_points_read() {
    if cfg!(feature = "silent") {
        return;
    }
    let next = match PHASE.get() {
        Phase::Draw | Phase::Refill => 1,
        Phase::Turn(6) => {
            close_turn();
            1
        }
        Phase::Turn(at) => at + 1,
        Phase::Idle | Phase::Mix => return,
    };
    if next == 4 {
        SUMS.set(0);
        APART.set(0);
    }
    if next == 5 {
        ROUNDS.set(rounds(SUMS.get() - 3));
        LOSSES.set(LAST_SUM.get());
        ADJUSTED.set(None);
        RAN.set(true);
    }
    PHASE.set(Phase::Turn(next));
}

/// A heater's control was asked whether it is on, which happens only where the flag doesn't say so.
#[inline]
pub fn control_asked() {
    if cfg!(feature = "silent") {
        return;
    }
    RAN.set(false);
}

/// `EnergySupplyConnection::demand_energy` was called.
#[inline]
pub fn supplied(energy: f64) {
    if cfg!(feature = "silent") {
        return;
    }
    SUPPLIED.set(energy);
}

/// A list of doubles behind a lock was written.
#[inline]
pub fn written(address: usize, list: &[f64]) {
    if cfg!(feature = "silent") {
        return;
    }
    if address != TEMP_N.get() {
        return;
    }
    if list.iter().any(|x| !x.is_finite()) {
        LAYERS_FINITE.set(false);
    }
    if PHASE.get() == Phase::Refill {
        let mixed = SUMS.get() + APART.get() > 0;
        let rounds = if mixed { rounds(SUMS.get()) } else { 0 };
        EVENT_ROUNDS.with_borrow_mut(|all| all.push(rounds));
        PHASE.set(Phase::Draw);
    }
}
