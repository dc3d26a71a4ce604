//! The same days through the Rust's `demand_hot_water` and through the exported step, timed one after the other, with
//! every answer compared. `compare/bench` runs it and makes the table.

mod days;
mod job;
mod ours;

use days::Day;
use original::timed::{events, Events, Timed};
use std::time::Instant;

const USAGE: &str = "\
benchmark names                    the days, each with its steps
benchmark time DAY                 nanoseconds a step: the Rust's, ours
benchmark time DAY wrong           the same with one bit of our answer turned, which must be noticed
benchmark count rust|ours DAY N    N days of one side, to be counted in the functions *_day and *_mixings
benchmark job DAY                  the day as a job with a put record, or as words for `judge mix`
benchmark lines DAY                our answers as the job's lines
";

/// Ends with words on standard error.
fn stop(words: &str) -> ! {
    eprintln!("{}", words.trim_end());
    std::process::exit(2)
}

fn differ(day: &Day, step: usize, what: &str, rust: f64, ours: f64) {
    if rust.to_bits() != ours.to_bits() {
        eprintln!(
            "benchmark: day {}, step {step}: {what} differs: the Rust {rust:?} ({:016x}), ours {ours:?} ({:016x})",
            day.name,
            rust.to_bits(),
            ours.to_bits()
        );
        std::process::exit(1)
    }
}

struct Rust {
    tank: Timed,
    events: Vec<Events>,
    energies: Vec<f64>,
    mixed: Vec<Vec<f64>>,
}

struct Ours {
    tank: ours::Tank,
    report: ours::Report,
    /// Those that differ; `asked` has the place of each step's.
    steps: Vec<ours::Step>,
    asked: Vec<usize>,
    energies: Vec<f64>,
    mixed: Vec<Vec<f64>>,
}

/// A day's steps and no more: this is what is timed and counted.
#[no_mangle]
#[inline(never)]
fn rust_day(tank: &Timed, events: &mut Vec<Events>, energies: &mut [f64]) {
    for (events, energy) in events.drain(..).zip(energies) {
        *energy = tank.demand_hot_water(events);
    }
}

#[no_mangle]
#[inline(never)]
fn our_day(
    tank: &mut ours::Tank,
    report: &mut ours::Report,
    steps: &[ours::Step],
    asked: &[usize],
    energies: &mut [f64],
) -> u8 {
    let mut number = 0;
    for (at, energy) in asked.iter().zip(energies) {
        number |= ours::step(tank, report, &steps[*at]);
        *energy = report.totals[0];
    }
    number
}

#[no_mangle]
#[inline(never)]
fn rust_mixings(tank: &Timed, layers: &[f64], mixed: &mut [Vec<f64>]) {
    for mixed in mixed {
        *mixed = tank.rearrange_temperatures(layers);
    }
}

#[no_mangle]
#[inline(never)]
fn our_mixings(layer_volume: f64, mixed: &mut [Vec<f64>]) -> u8 {
    let mut number = 0;
    for mixed in mixed {
        number |= ours::mix(mixed, layer_volume).0;
    }
    number
}

impl Rust {
    fn new(day: &Day) -> Rust {
        Rust {
            tank: Timed::new(&day.making, &day.heaters, day.feed, day.set_points),
            events: Vec::new(),
            energies: vec![0.0; day.draws.len()],
            mixed: vec![Vec::new(); day.draws.len()],
        }
    }

    /// Puts the tank back to the day's start and makes the arguments of its steps.
    fn prepare(&mut self, day: &Day) {
        self.tank.put(&day.start);
        self.events = day.draws.iter().map(|volumes| events(volumes)).collect();
    }

    fn work(&mut self, day: &Day) {
        if day.mixings {
            rust_mixings(&self.tank, &day.start.layers, &mut self.mixed);
        } else {
            rust_day(&self.tank, &mut self.events, &mut self.energies);
        }
    }
}

impl Ours {
    fn new(day: &Day) -> Ours {
        let mut kinds: Vec<&Vec<f64>> = Vec::new();
        let mut asked = Vec::new();
        for volumes in &day.draws {
            let known = kinds.iter().position(|kind| *kind == volumes);
            asked.push(known.unwrap_or(kinds.len()));
            if known.is_none() {
                kinds.push(volumes);
            }
        }
        let step = |volumes: &&Vec<f64>| ours::step_of(day.feed, volumes, day.heaters.len(), day.set_points);
        Ours {
            tank: ours::make(&day.making, &day.heaters),
            report: ours::Report::default(),
            steps: kinds.iter().map(step).collect(),
            asked,
            energies: vec![0.0; day.draws.len()],
            mixed: Vec::new(),
        }
    }

    fn prepare(&mut self, day: &Day) {
        self.tank.put(&day.start.layers, &day.start.flags);
        self.mixed = vec![day.start.layers.clone(); day.draws.len()];
    }

    fn work(&mut self, day: &Day) {
        let number = if day.mixings {
            our_mixings(day.layer_volume(), &mut self.mixed)
        } else {
            our_day(
                &mut self.tank,
                &mut self.report,
                &self.steps,
                &self.asked,
                &mut self.energies,
            )
        };
        if number != 0 {
            stop(&format!(
                "benchmark: day {}: a step or mixing is refused",
                day.name
            ));
        }
    }
}

fn compare_state(day: &Day, step: usize, rust: &Rust, ours: &Ours) {
    let state = rust.tank.state();
    for (at, layer) in state.layers.iter().enumerate() {
        differ(day, step, &format!("layer {at}"), *layer, ours.tank.temps[at]);
    }
    for (at, flag) in state.flags.iter().enumerate() {
        differ(
            day,
            step,
            &format!("flag {at}"),
            f64::from(u8::from(*flag)),
            f64::from(ours.tank.flags[at]),
        );
    }
    let (average, recoverable) = rust.tank.average_and_recoverable();
    let totals = &ours.report.totals;
    differ(day, step, "the average", average, totals[2]);
    differ(day, step, "recoverable", recoverable, totals[3]);
}

/// What a timed day left, on both sides.
fn compare_day(day: &Day, rust: &Rust, ours: &Ours) {
    if day.mixings {
        for (step, (one, other)) in rust.mixed.iter().zip(&ours.mixed).enumerate() {
            for (at, (one, other)) in one.iter().zip(other).enumerate() {
                differ(day, step, &format!("layer {at}"), *one, *other);
            }
        }
        return;
    }
    for (step, energy) in rust.energies.iter().enumerate() {
        differ(day, step, "energy withdrawn", *energy, ours.energies[step]);
    }
    compare_state(day, day.draws.len() - 1, rust, ours);
}

/// A day step by step, with everything compared after each.
fn compare_steps(day: &Day, rust: &mut Rust, ours: &mut Ours) {
    rust.prepare(day);
    ours.prepare(day);
    for (step, events) in std::mem::take(&mut rust.events).into_iter().enumerate() {
        let energy = rust.tank.demand_hot_water(events);
        let number = ours::step(&mut ours.tank, &mut ours.report, &ours.steps[ours.asked[step]]);
        differ(day, step, "the refusal", 0.0, f64::from(number));
        differ(day, step, "energy withdrawn", energy, ours.report.totals[0]);
        compare_state(day, step, rust, ours);
    }
}

/// Nanoseconds of so many days. What a day needs is made before its clock starts.
fn rust_days(day: &Day, rust: &mut Rust, days: usize) -> f64 {
    let mut took = 0;
    for _ in 0..days {
        rust.prepare(day);
        let start = Instant::now();
        rust.work(day);
        took += start.elapsed().as_nanos();
    }
    took as f64
}

fn our_days(day: &Day, ours: &mut Ours, days: usize) -> f64 {
    let mut took = 0;
    for _ in 0..days {
        ours.prepare(day);
        let start = Instant::now();
        ours.work(day);
        took += start.elapsed().as_nanos();
    }
    took as f64
}

/// The least time a step of many stretches, the sides in turn. A stretch is so many days that it lasts a few milliseconds.
fn time(day: &Day, wrong: bool) {
    const STRETCHES: usize = 150;
    const STRETCH: f64 = 4e6;
    let (mut rust, mut ours) = (Rust::new(day), Ours::new(day));
    if !day.mixings {
        compare_steps(day, &mut rust, &mut ours);
    }
    let days = (STRETCH / rust_days(day, &mut rust, 1)).ceil() as usize;
    let steps = (days * day.draws.len()) as f64;
    let mut least = [f64::INFINITY; 2];
    for _ in 0..STRETCHES {
        let took = [rust_days(day, &mut rust, days), our_days(day, &mut ours, days)];
        if wrong {
            let top = &mut ours.tank.temps[day.making.layers - 1];
            *top = f64::from_bits(top.to_bits() ^ 1);
        }
        compare_day(day, &rust, &ours);
        for side in 0..2 {
            least[side] = f64::min(least[side], took[side] / steps);
        }
    }
    println!("{} {}", least[0], least[1]);
}

fn count(side: &str, day: &Day, days: usize) {
    let mut rust = Rust::new(day);
    let mut ours = Ours::new(day);
    for _ in 0..days {
        if side == "ours" {
            ours.prepare(day);
            ours.work(day);
        } else {
            rust.prepare(day);
            rust.work(day);
        }
    }
}

fn main() {
    let words: Vec<String> = std::env::args().skip(1).collect();
    let words: Vec<&str> = words.iter().map(|word| word.as_str()).collect();
    let all = days::days();
    let find = |name: &str| {
        all.iter()
            .find(|day| day.name == name)
            .unwrap_or_else(|| stop(&format!("benchmark: {name} is no day")))
    };
    match words[..] {
        ["names"] => {
            for day in &all {
                println!("{} {}", day.name, day.draws.len());
            }
        }
        ["time", name] => time(find(name), false),
        ["time", name, "wrong"] => time(find(name), true),
        ["count", side @ ("rust" | "ours"), name, days] => {
            let days = days
                .parse()
                .unwrap_or_else(|_| stop(&format!("benchmark: {days} is no number")));
            count(side, find(name), days)
        }
        ["job", name] => job::write_job(find(name)),
        ["lines", name] => job::write_lines(find(name)),
        _ => stop(USAGE),
    }
}
