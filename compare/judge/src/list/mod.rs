//! The stored list: jobs and mixings with the judge's answers.
//!
//! - `jobs-NN.bin`, `put-NN.bin`: entries of a 4-byte length and a job, then a 4-byte length and its lines.
//!   No file is larger than 65,536 bytes. `put` files hold records of kind 256, which no job has.
//! - `mix-NN.bin`: a 2-byte count, the layer volume, the layers, a 2-byte number, 2-byte rounds and the layers
//!   after it. The same limit.
//! - `long-N.job`, `long-N.txt`: a job that passes 65,536 bytes, and its lines.
//! - `index.txt`: one line for each entry.
//!
//! All numbers are little-endian.

mod stored;
mod test;

pub use stored::export;
pub use test::{replay, self_test};

use crate::figures;
use crate::job::{self, Before, Record};
use crate::lowered::in_the_lid;
use crate::oracle::{self, Line};
use crate::sample_day::sample_day;
use crate::tally::Tally;
use crate::{shapes, words};
use std::fs;
use std::path::{Path, PathBuf};

const MOST_FILE: usize = 65_536;

/// Entries taken from random jobs are no larger than this.
const MOST_ENTRY: usize = 6_000;

pub struct Entry {
    pub name: String,
    pub put: bool,
    pub job: Vec<u8>,
    pub lines: Vec<Line>,
}

pub struct Mixing {
    pub name: String,
    pub volume: f64,
    pub layers: Vec<f64>,
    pub line: Line,
}

fn entry(name: String, put: bool, job: Vec<u8>) -> Entry {
    let lines = oracle::answer(&job, put, false);
    Entry {
        name,
        put,
        job,
        lines,
    }
}

fn mixing(name: String, volume: f64, layers: Vec<f64>) -> Mixing {
    let line = oracle::mix_line(volume, &layers);
    Mixing {
        name,
        volume,
        layers,
        line,
    }
}

/// Cases that a wrong model was caught by: `shape seed`, then words.
fn chosen(text: &str) -> Vec<(String, u64, String)> {
    text.lines()
        .filter(|line| !line.is_empty() && !line.starts_with('#'))
        .map(|line| {
            let mut parts = line.splitn(3, ' ');
            let shape = parts.next().expect("a shape").to_string();
            let seed = parts.next().expect("a seed").parse().expect("a seed");
            (shape, seed, parts.next().unwrap_or("").to_string())
        })
        .collect()
}

/// So many random jobs of a shape that are small enough.
fn random(shape: &str, count: u64) -> Vec<Entry> {
    // Seeds of the list begin where runs by hand seldom go.
    (1_000_000..)
        .map(|seed| {
            let put = shape == shapes::PUT;
            entry(format!("{shape} {seed}"), put, shapes::job(shape, seed))
        })
        .filter(|one| one.job.len() + words::text(&one.lines).len() <= MOST_ENTRY)
        .take(count as usize)
        .collect()
}

/// Everything that is stored, made anew.
pub fn all(folder: &Path, each: u64) -> (Vec<Entry>, Vec<Mixing>, Vec<Entry>) {
    let mut jobs: Vec<Entry> = figures::jobs()
        .into_iter()
        .map(|case| entry(case.name, false, case.bytes))
        .collect();
    let mut mixes: Vec<Mixing> = figures::mixes()
        .into_iter()
        .map(|case| mixing(case.name.to_string(), case.volume, case.layers))
        .collect();
    let text = fs::read_to_string(folder.join("chosen.txt")).unwrap_or_default();
    for (shape, seed, why) in chosen(&text) {
        let name = format!("{shape} {seed}: {why}");
        if shape == shapes::MIX {
            let (volume, layers) = shapes::mix(seed);
            mixes.push(mixing(name, volume, layers));
        } else {
            jobs.push(entry(name, shape == shapes::PUT, shapes::job(&shape, seed)));
        }
    }
    for shape in shapes::JOB_SHAPES.iter().chain(&[shapes::PUT]) {
        jobs.extend(random(shape, each));
    }
    // Last, so that what a request adds moves nothing that was there: request by request its figures, then its shapes.
    for (figures, shapes) in [
        (figures::of_r_1(), &[][..]),
        (figures::of_r_2(), shapes::REQUEST_SHAPES),
    ] {
        jobs.extend(
            figures
                .into_iter()
                .map(|case| entry(case.name, false, case.bytes)),
        );
        for shape in shapes {
            jobs.extend(random(shape, each / 2));
        }
    }
    for seed in 1_000_000..1_000_000 + 8 * each {
        let (volume, layers) = shapes::mix(seed);
        mixes.push(mixing(format!("mix {seed}"), volume, layers));
    }
    // In the first a record crosses the line at 65,536 bytes, in the second one ends on it.
    let long = (1_000_001..1_000_003)
        .map(|seed| entry(format!("long {seed}"), false, shapes::job(shapes::LONG, seed)))
        .collect();
    (jobs, mixes, long)
}

fn framed(bytes: &[u8], out: &mut Vec<u8>) {
    out.extend_from_slice(&(bytes.len() as u32).to_le_bytes());
    out.extend_from_slice(bytes);
}

/// Whether the Rust was given the largest double below 1 for a position of 1.
fn lowered(bytes: &[u8]) -> bool {
    let mut before = Before {
        put: true,
        ..Before::default()
    };
    let mut at = 0;
    while let Some((record, after)) = job::read(bytes, at, before) {
        match record {
            Record::Tank(making) => before.tank = Some(making.layers),
            Record::Heater(heater) if in_the_lid(&heater) => return true,
            Record::Heater(_) => before.heaters += 1,
            _ => return false,
        }
        at = after;
    }
    false
}

/// What a job's lines rest on.
fn rests(one: &Entry) -> String {
    let answered = one.lines.iter().any(|line| !line.by_01);
    let how = if answered && lowered(&one.job) {
        "; 1 lowered"
    } else {
        ""
    };
    marks(&one.lines) + how
}

/// Which lines rest on 01, as `3-5,9`.
fn marks(lines: &[Line]) -> String {
    let mut out: Vec<String> = Vec::new();
    let mut at = 0;
    while at < lines.len() {
        let from = at;
        while at < lines.len() && lines[at].by_01 {
            at += 1;
        }
        if at > from + 1 {
            out.push(format!("{}-{}", from + 1, at));
        } else if at > from {
            out.push(format!("{}", from + 1));
        }
        at += 1;
    }
    if out.is_empty() {
        "the Rust".to_string()
    } else {
        format!("01: {}", out.join(","))
    }
}

/// Files of entries, none larger than the limit.
struct Parts {
    stem: &'static str,
    files: Vec<Vec<u8>>,
    counts: Vec<usize>,
}

impl Parts {
    fn new(stem: &'static str) -> Self {
        Parts {
            stem,
            files: Vec::new(),
            counts: Vec::new(),
        }
    }

    /// Adds an entry; its file and number.
    fn push(&mut self, bytes: &[u8]) -> (String, usize) {
        assert!(bytes.len() <= MOST_FILE);
        if self
            .files
            .last()
            .is_none_or(|file| file.len() + bytes.len() > MOST_FILE)
        {
            self.files.push(Vec::new());
            self.counts.push(0);
        }
        let at = self.files.len() - 1;
        self.files[at].extend_from_slice(bytes);
        self.counts[at] += 1;
        (format!("{}-{at:02}.bin", self.stem), self.counts[at] - 1)
    }

    /// The files by name.
    fn files(self) -> impl Iterator<Item = (String, Vec<u8>)> {
        let stem = self.stem;
        let named = move |(at, bytes)| (format!("{stem}-{at:02}.bin"), bytes);
        self.files.into_iter().enumerate().map(named)
    }
}

/// Writes all files beside the old ones, then puts them in their places, so that no half file is left.
fn save(files: &[(PathBuf, Vec<u8>)]) {
    let fail = |path: &Path, error| -> () { crate::stop(&format!("{}: {error}", path.display())) };
    let beside = |path: &Path| PathBuf::from(format!("{}.new", path.display()));
    for (path, bytes) in files {
        fs::write(beside(path), bytes).unwrap_or_else(|error| fail(path, error));
    }
    for (path, _) in files {
        fs::rename(beside(path), path).unwrap_or_else(|error| fail(path, error));
    }
}

pub fn mix_bytes(volume: f64, layers: &[f64], line: &str) -> Vec<u8> {
    let mut out = (layers.len() as u16).to_le_bytes().to_vec();
    out.extend_from_slice(&volume.to_le_bytes());
    for layer in layers {
        out.extend_from_slice(&layer.to_le_bytes());
    }
    let words: Vec<&str> = line.split(' ').collect();
    let number: u16 = words[1].parse().expect("the judge answers every mixing");
    let rounds: u16 = if number == 0 {
        words[2].parse().expect("rounds")
    } else {
        0
    };
    out.extend_from_slice(&number.to_le_bytes());
    out.extend_from_slice(&rounds.to_le_bytes());
    for (at, layer) in layers.iter().enumerate() {
        let after = if number == 0 {
            u64::from_str_radix(words[3 + at], 16).expect("bits")
        } else {
            layer.to_bits()
        };
        out.extend_from_slice(&after.to_le_bytes());
    }
    out
}

/// What the gate's programs read and must print: `replay` all stored jobs, `job` the sample day.
fn run_by_the_gate(crates: &Path, stored: Vec<u8>, jobs: usize, lines: usize) -> Vec<(PathBuf, Vec<u8>)> {
    let day = sample_day();
    let answer = words::text(&oracle::answer(&day, false, false));
    let count = format!("{jobs} jobs, {lines} lines, 0 jobs differ\n");
    vec![
        (crates.join("replay/stdin"), stored),
        (crates.join("replay/stdout"), count.into_bytes()),
        (crates.join("job/stdin"), day),
        (crates.join("job/stdout"), answer.into_bytes()),
    ]
}

/// Writes the list, and what the programs `replay` and `job` read and must print in the gate, in the folder of
/// the crates. `about` heads the index.
pub fn write(folder: &Path, each: u64, crates: &Path, about: &str) {
    let (jobs, mixes, long) = all(folder, each);
    let mut index = String::new();
    for line in about.lines() {
        index.push_str(&format!("# {line}\n"));
    }
    index.push_str(
        "# Columns: file, entry in it, lines of the answer, what they rest on, name (shape and seed).\n",
    );
    let (mut plain, mut put) = (Parts::new("jobs"), Parts::new("put"));
    let (mut replayed, mut replayed_lines) = (0, 0);
    for one in &jobs {
        let text = words::text(&one.lines);
        assert!(
            !text.contains("no answer") && !text.contains("no tank"),
            "{}: the Rust has no answer",
            one.name
        );
        let mut bytes = Vec::new();
        framed(&one.job, &mut bytes);
        framed(text.as_bytes(), &mut bytes);
        let (file, at) = if one.put { &mut put } else { &mut plain }.push(&bytes);
        let lines = one.lines.len();
        if !one.put {
            (replayed, replayed_lines) = (replayed + 1, replayed_lines + lines);
        }
        index.push_str(&format!("{file} {at} {lines} [{}] {}\n", rests(one), one.name));
    }
    let mut parts = Parts::new("mix");
    for one in &mixes {
        let (file, at) = parts.push(&mix_bytes(one.volume, &one.layers, &one.line.text));
        let lines = std::slice::from_ref(&one.line);
        index.push_str(&format!("{file} {at} 1 [{}] {}\n", marks(lines), one.name));
    }
    let mut files = run_by_the_gate(crates, plain.files.concat(), replayed, replayed_lines);
    for (name, bytes) in plain.files().chain(put.files()).chain(parts.files()) {
        files.push((folder.join(name), bytes));
    }
    for (at, one) in long.iter().enumerate() {
        files.push((folder.join(format!("long-{at}.job")), one.job.clone()));
        files.push((
            folder.join(format!("long-{at}.txt")),
            words::text(&one.lines).into_bytes(),
        ));
        let lines = one.lines.len();
        index.push_str(&format!(
            "long-{at}.job 0 {lines} [{}] {}\n",
            rests(one),
            one.name
        ));
    }
    files.push((folder.join("index.txt"), index.into_bytes()));
    save(&files);
    for file in fs::read_dir(folder).expect("the folder is there").flatten() {
        let path = file.path();
        let name = file.file_name().to_string_lossy().into_owned();
        let of_list = name.ends_with(".bin") || name.starts_with("long-");
        if of_list && files.iter().all(|(kept, _)| *kept != path) {
            fs::remove_file(&path).expect("an old file goes");
        }
    }
    let mut tally = Tally::default();
    for one in &jobs {
        tally.job(&one.job, one.put, &one.lines);
    }
    for one in &mixes {
        tally.lines(std::slice::from_ref(&one.line));
    }
    let in_list = files.iter().filter(|(path, _)| path.starts_with(folder));
    println!(
        "{} jobs, {} mixings, {} long jobs, {} bytes",
        jobs.len(),
        mixes.len(),
        long.len(),
        in_list.map(|(_, bytes)| bytes.len()).sum::<usize>()
    );
    print!("{}", tally.words());
}
