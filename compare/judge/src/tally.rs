//! What a run compared: accepted steps, and refusals by number.

use crate::job::{self, Before, Record};
use crate::oracle::Line;
use std::collections::BTreeMap;

#[derive(Default)]
pub struct Tally {
    pub cases: u64,
    pub lines: u64,
    /// Where the Rust panicked or erred and 01 accepts.
    pub without: u64,
    pub accepted: u64,
    /// Accepted steps of 2 or more layers with a heater and a draw above 0.
    pub worked: u64,
    /// Accepted steps of 2 or more layers, heaters and draws above 0.
    pub several: u64,
    /// Accepted steps in which a heater supplied something.
    pub supplied: u64,
    /// By the letter of the line and the number.
    refused: BTreeMap<(char, u8), u64>,
}

fn parts(line: &str) -> (char, Vec<&str>) {
    let parts: Vec<&str> = line.split(' ').collect();
    (line.chars().next().unwrap_or(' '), parts)
}

fn number(part: Option<&&str>) -> Option<u8> {
    part.and_then(|part| part.parse().ok())
}

impl Tally {
    /// Counts a case whose lines agree.
    pub fn lines(&mut self, lines: &[Line]) {
        self.cases += 1;
        self.lines += lines.len() as u64;
        for line in lines {
            let (letter, parts) = parts(&line.text);
            let number = match letter {
                'S' => number(parts.get(2)),
                'E' | 'M' | 'T' | 'N' => number(parts.get(1)),
                _ => Some(0),
            };
            match number {
                None => self.without += 1,
                Some(0) => {}
                Some(number) => *self.refused.entry((letter, number)).or_default() += 1,
            }
        }
    }

    /// Counts an accepted step.
    pub fn step(&mut self, layers: usize, heaters: usize, volumes: &[f64], supplied: bool) {
        let draws = volumes.iter().filter(|volume| **volume > 0.0).count();
        self.accepted += 1;
        self.worked += (layers >= 2 && heaters >= 1 && draws >= 1) as u64;
        self.several += (layers >= 2 && heaters >= 2 && draws >= 2) as u64;
        self.supplied += supplied as u64;
    }

    /// Counts the lines of a job and its accepted steps.
    pub fn job(&mut self, bytes: &[u8], put: bool, lines: &[Line]) {
        self.lines(lines);
        let mut before = Before {
            put,
            ..Before::default()
        };
        let mut at = 0;
        let mut left = lines;
        while let Some((record, after)) = job::read(bytes, at, before) {
            at = after;
            match record {
                Record::Tank(making) => before.tank = Some(making.layers),
                Record::Heater(_) => before.heaters += 1,
                Record::Put { .. } => {}
                Record::Step(step) => {
                    before.step = true;
                    let Some(from) = left.iter().position(|line| line.text.starts_with('S')) else {
                        return;
                    };
                    let (first, rest) = (&left[from], &left[from + 1..]);
                    left = rest;
                    if number(parts(&first.text).1.get(2)) == Some(0) {
                        let heaters = rest.iter().skip(1).take(before.heaters);
                        let supplied = heaters
                            .filter_map(|line| u64::from_str_radix(parts(&line.text).1.get(3)?, 16).ok())
                            .any(|bits| f64::from_bits(bits) > 0.0);
                        self.step(before.tank.unwrap_or(0), before.heaters, &step.volumes, supplied);
                    }
                }
            }
        }
    }

    /// The summary of a run.
    pub fn words(&self) -> String {
        let mut out = format!(
            "{} cases: {} lines, {} without an answer of the Rust\n",
            self.cases, self.lines, self.without
        );
        out.push_str(&format!(
            "accepted steps: {}; of 2 or more layers with a heater and a draw: {}; of 2 or more of each: {}; a heater supplied in {}\n",
            self.accepted, self.worked, self.several, self.supplied
        ));
        for (letter, name) in [
            ('E', "tank and heater records, damage"),
            ('S', "steps"),
            ('M', "mixings"),
            ('T', "steps of lent tanks"),
            ('N', "tanks made from lent numbers"),
        ] {
            let counts: Vec<String> = self
                .refused
                .iter()
                .filter(|((of, _), _)| *of == letter)
                .map(|((_, number), count)| format!("{number}: {count}"))
                .collect();
            if !counts.is_empty() {
                out.push_str(&format!(
                    "refused by the documents, {name}: {}\n",
                    counts.join(", ")
                ));
            }
        }
        out
    }
}
