//! The stored list, held against a candidate and against the judge.

use super::stored::{stored, Kind, Stored};
use super::{framed, run_by_the_gate};
use crate::candidate::Candidate;
use crate::figures::{self, Value};
use crate::oracle::{self, Line};
use crate::words;
use std::path::Path;

fn lines_of(text: &str) -> Vec<Line> {
    text.lines()
        .map(|line| Line {
            text: line.to_string(),
            by_01: false,
        })
        .collect()
}

/// The judge's own answer now.
fn again(one: &Stored, in_parts: bool) -> String {
    match &one.kind {
        Kind::Job(job) => words::text(&oracle::answer(job, false, in_parts)),
        Kind::Put(job) => words::text(&oracle::answer(job, true, in_parts)),
        Kind::Mix(volume, layers) => format!("{}\n", oracle::mix_line(*volume, layers).text),
    }
}

/// Replays the list on a candidate. True if nothing differs.
pub fn replay(folder: &Path, candidate: &mut dyn Candidate) -> bool {
    let (mut same, mut passed) = (0, 0);
    for one in stored(folder) {
        let got = match &one.kind {
            Kind::Job(job) => candidate.job(job),
            Kind::Put(job) => candidate.put(job),
            Kind::Mix(volume, layers) => candidate.mix(*volume, layers),
        };
        let Some(got) = got else {
            passed += 1;
            continue;
        };
        if let Some(difference) = words::difference(&lines_of(&one.expected), &got) {
            println!("first difference: stored {}: {difference}", one.name);
            if let Kind::Job(job) | Kind::Put(job) = &one.kind {
                println!("the case:\n{}", words::job(job));
            }
            return false;
        }
        same += 1;
    }
    println!("{same} stored answers agree, {passed} cases that the candidate has no call for");
    same > 0
}

/// What the gate's programs read and must print is the stored list and the sample day.
fn gate_test(list: &[Stored], crates: &Path) -> bool {
    let mut bytes = Vec::new();
    let (mut jobs, mut lines) = (0, 0);
    for one in list.iter().filter(|one| one.name.starts_with("jobs")) {
        let Kind::Job(job) = &one.kind else { continue };
        framed(job, &mut bytes);
        framed(one.expected.as_bytes(), &mut bytes);
        (jobs, lines) = (jobs + 1, lines + one.expected.lines().count());
    }
    let mut fine = true;
    for (path, expected) in run_by_the_gate(crates, bytes, jobs, lines) {
        if std::fs::read(&path).ok() != Some(expected) {
            println!("{}: not what compare/make-list writes", path.display());
            fine = false;
        }
    }
    println!("the gate's programs run the stored list and the sample day: {fine}");
    fine
}

/// The list must say what the judge says now, whole and in parts, and 01's and 02's figures; and each wrong stand-in
/// must change some answer.
pub fn self_test(folder: &Path, crates: &Path) -> bool {
    let list = stored(folder);
    let mut fine = !list.is_empty() && gate_test(&list, crates);
    for one in &list {
        for in_parts in [false, true] {
            if again(one, in_parts) != one.expected {
                println!(
                    "{}: the stored answer is not the judge's (in parts: {in_parts})",
                    one.name
                );
                fine = false;
            }
        }
    }
    println!(
        "{} stored answers are the judge's, whole and in parts: {fine}",
        list.len()
    );

    let mut figures = 0;
    for case in [figures::jobs(), figures::of_r_1(), figures::of_r_2()]
        .into_iter()
        .flatten()
    {
        let Some(figure) = case.figure else { continue };
        let lines = oracle::answer(&case.bytes, false, false);
        for (line, part, value) in figure.0 {
            let got = lines.get(*line).and_then(|line| line.text.split(' ').nth(*part));
            let expected = match value {
                Value::Double(x) => format!("{:016x}", x.to_bits()),
                Value::Word(word) => word.to_string(),
            };
            figures += 1;
            if got != Some(&*expected) {
                println!(
                    "{}: line {line} part {part}: the document says {expected}, the judge {got:?}",
                    case.name
                );
                fine = false;
            }
        }
    }
    for case in figures::mixes() {
        let Some(figure) = case.figure else { continue };
        let got = oracle::mix_line(case.volume, &case.layers).text;
        let expected = match figure {
            Err(number) => format!("M {number}"),
            Ok((rounds, layers)) => {
                let bits: String = layers.iter().map(|x| format!(" {:016x}", x.to_bits())).collect();
                format!("M 0 {rounds}{bits}")
            }
        };
        figures += 1;
        if got != expected {
            println!("{}: 01 says {expected}, the judge {got}", case.name);
            fine = false;
        }
    }
    println!("{figures} figures of 01, 02 and docs/JOB_FORMAT.md are the judge's: {fine}");

    for (kind, name) in [
        (recorder::PLAIN_SUM, "a plain sum for Sum2"),
        (recorder::ABSOLUTE_TOLERANCE, "an absolute tolerance alone"),
        (recorder::COLD_IS_FEED, "the feed for the cold temperature"),
        (
            recorder::OFF_BY_LAST_LAYERS,
            "switching off by the step's last layers",
        ),
    ] {
        recorder::set_wrong(kind);
        let changed = list
            .iter()
            .filter(|one| again(one, false) != one.expected)
            .count();
        recorder::set_wrong(recorder::RIGHT);
        println!("{name} changes {changed} of {} stored answers", list.len());
        fine &= changed > 0;
    }
    let still = list.iter().all(|one| again(one, false) == one.expected);
    println!("put right again, nothing differs: {still}");
    fine && still
}
