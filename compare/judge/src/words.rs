//! A job and a difference in words.

use crate::job::{self, Before, Record};
use crate::oracle::Line;
use std::fmt::Write;

pub fn text(lines: &[Line]) -> String {
    lines.iter().map(|line| format!("{}\n", line.text)).collect()
}

/// A job, record by record.
pub fn job(bytes: &[u8]) -> String {
    let mut out = String::new();
    let mut before = Before {
        put: true,
        ..Before::default()
    };
    let mut at = 0;
    let mut steps = 0;
    while at < bytes.len() {
        match job::read(bytes, at, before) {
            None => {
                writeln!(out, "  at {at}: a record that is not well formed or misplaced").unwrap();
                break;
            }
            Some((record, after)) => {
                match record {
                    Record::Tank(making) => {
                        before.tank = Some(making.layers);
                        writeln!(out, "  at {at}: {making:?}").unwrap();
                    }
                    Record::Heater(heater) => {
                        before.heaters += 1;
                        writeln!(out, "  at {at}: {heater:?}").unwrap();
                    }
                    Record::Step(step) => {
                        before.step = true;
                        writeln!(out, "  at {at}: step {steps}: {step:?}").unwrap();
                        steps += 1;
                    }
                    Record::Put { layers, flags } => {
                        writeln!(out, "  at {at}: put layers {layers:?} flags {flags:?}").unwrap();
                    }
                }
                at = after;
            }
        }
    }
    out
}

const STEP_PARTS: &[&str] = &[
    "kind",
    "index",
    "number",
    "energy withdrawn",
    "volume used",
    "average draw-off temperature",
    "recoverable losses",
];
const HEATER_PARTS: &[&str] = &[
    "kind",
    "flag",
    "adjusted input",
    "energy supplied",
    "losses",
    "rounds",
];

fn part_name(kind: &str, part: usize) -> String {
    match kind {
        "S" => STEP_PARTS.get(part).unwrap_or(&"a part too many").to_string(),
        "H" => HEATER_PARTS.get(part).unwrap_or(&"a part too many").to_string(),
        "L" if part > 0 => format!("layer {}", part - 1),
        "E" => ["kind", "number", "offset"]
            .get(part)
            .unwrap_or(&"a part too many")
            .to_string(),
        "M" if part == 1 => "number".to_string(),
        "M" if part == 2 => "rounds".to_string(),
        "M" if part > 2 => format!("layer {}", part - 3),
        "T" | "N" if part == 1 => "number".to_string(),
        _ if part > 0 => format!("place {} of {kind}", part - 1),
        _ => "kind".to_string(),
    }
}

fn value(part: Option<&str>) -> String {
    match part {
        None => "nothing".to_string(),
        Some(part) if part.len() == 16 => match u64::from_str_radix(part, 16) {
            Ok(bits) => format!("{part} ({:e})", f64::from_bits(bits)),
            Err(_) => part.to_string(),
        },
        Some(part) => part.to_string(),
    }
}

/// The first line and part in which two answers differ.
pub fn difference(expected: &[Line], got: &str) -> Option<String> {
    let mut got = got.split_inclusive('\n');
    let mut step = String::new();
    let mut heater = 0;
    for (at, line) in expected.iter().enumerate() {
        let other = got.next().unwrap_or("");
        if line.text.starts_with('S') {
            step = format!(", step {}", line.text.split(' ').nth(1).unwrap_or("?"));
            heater = 0;
        }
        if other.strip_suffix('\n') == Some(&*line.text) {
            heater += line.text.starts_with('H') as usize;
            continue;
        }
        let source = if line.by_01 { "the documents" } else { "the Rust" };
        let mut theirs = other.trim_end_matches('\n').split(' ');
        let kind = line.text.split(' ').next().unwrap_or("");
        let place = if kind == "H" {
            format!("{step}, heater {heater} in working order")
        } else {
            step.clone()
        };
        for (part, ours) in line.text.split(' ').enumerate() {
            let their = theirs.next();
            if their != Some(ours) {
                return Some(format!(
                    "line {at}{place}: {} is {} by {source}, {} by the candidate\n  expected {}\n  got      {}",
                    part_name(kind, part),
                    value(Some(ours)),
                    value(their),
                    line.text,
                    other.trim_end_matches('\n'),
                ));
            }
        }
        return Some(format!(
            "line {at}{place}: expected {:?}, got {:?}",
            line.text, other
        ));
    }
    got.next()
        .map(|more| format!("after the last line the candidate goes on: {more:?}"))
}
