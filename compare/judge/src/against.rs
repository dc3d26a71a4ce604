//! Random cases by seed: the judge's answers beside a candidate's.

use crate::candidate::Candidate;
use crate::oracle;
use crate::tally::Tally;
use crate::{lent, shapes, words};
use std::time::Instant;

/// The shapes named, with commas between them, or all.
pub fn shapes_of(names: &str) -> Vec<&'static str> {
    let every: Vec<&str> = [
        shapes::JOB_SHAPES,
        shapes::REQUEST_SHAPES,
        shapes::LARGE_SHAPES,
        &[shapes::PUT],
        shapes::CALL_SHAPES,
    ]
    .concat();
    if names == "all" {
        return every;
    }
    names
        .split(',')
        .map(|name| {
            *every
                .iter()
                .find(|shape| **shape == name)
                .unwrap_or_else(|| crate::stop(&format!("no shape {name}; there are {}", every.join(", "))))
        })
        .collect()
}

/// The mixing of a shape and a seed.
fn mixing(shape: &str, seed: u64) -> (f64, Vec<f64>) {
    if shape == shapes::MIX {
        shapes::mix(seed)
    } else {
        shapes::list(seed)
    }
}

/// Asks judge and candidate of one case and counts it, unless the candidate has no such call. The first difference.
fn case(shape: &str, seed: u64, candidate: &mut dyn Candidate, tally: &mut Tally) -> Option<String> {
    match shape {
        shapes::MIX | shapes::LISTS => {
            let (volume, layers) = mixing(shape, seed);
            let theirs = candidate.mix(volume, &layers)?;
            let ours = vec![oracle::mix_line(volume, &layers)];
            tally.lines(&ours);
            words::difference(&ours, &theirs)
        }
        shapes::MAKE => {
            let (initial, tank) = shapes::make(seed);
            let theirs = candidate.make(&lent::make_request(initial, &tank))?;
            let ours = lent::make(initial, &tank);
            tally.lines(&ours);
            words::difference(&ours, &theirs)
        }
        shapes::LENT => {
            let (mut tank, mut report, steps) = shapes::lent(seed);
            for step in &steps {
                let theirs = candidate.lent(&lent::step_request(&tank, &report, step))?;
                let (ours, accepted) = lent::step(&mut tank, &mut report, step);
                tally.lines(&ours);
                if accepted {
                    let volumes = &step.volumes[..step.asked[0] as usize];
                    let supplied = report.figures[1].iter().any(|x| *x > 0.0);
                    tally.step(
                        tank.counts[0] as usize,
                        tank.counts[1] as usize,
                        volumes,
                        supplied,
                    );
                }
                if let Some(difference) = words::difference(&ours, &theirs) {
                    return Some(difference);
                }
            }
            None
        }
        _ => {
            let bytes = shapes::job(shape, seed);
            let put = shape == shapes::PUT;
            let theirs = if put {
                candidate.put(&bytes)?
            } else {
                candidate.job(&bytes)?
            };
            let ours = oracle::answer(&bytes, put, false);
            tally.job(&bytes, put, &ours);
            words::difference(&ours, &theirs)
        }
    }
}

/// The case in words.
pub fn tell(shape: &str, seed: u64) -> String {
    match shape {
        shapes::MIX | shapes::LISTS => {
            let (volume, layers) = mixing(shape, seed);
            format!("  layer volume {volume:?}, layers {layers:?}\n")
        }
        shapes::MAKE => format!("  initial temperature and tank: {:?}\n", shapes::make(seed)),
        shapes::LENT => format!("  tank, report and steps: {:?}\n", shapes::lent(seed)),
        _ => words::job(&shapes::job(shape, seed)),
    }
}

/// Seeds `from` to `from + count` of each shape. True if there was no difference.
pub fn run(candidate: &mut dyn Candidate, shape: &str, from: u64, count: u64) -> bool {
    let chosen = shapes_of(shape);
    let begin = Instant::now();
    let mut last = Instant::now();
    let mut tally = Tally::default();
    for seed in from..from + count {
        for shape in &chosen {
            // Among other shapes, one in twenty seeds has a large one.
            if shapes::LARGE_SHAPES.contains(shape) && chosen.len() > 1 && seed % 20 != 0 {
                continue;
            }
            if let Some(difference) = case(shape, seed, candidate, &mut tally) {
                println!("first difference: shape {shape}, seed {seed}\n{difference}");
                println!("the case:\n{}", tell(shape, seed));
                return false;
            }
            if last.elapsed().as_secs() >= 5 {
                last = Instant::now();
                eprintln!(
                    "  seed {seed} of {}: {} cases, {} lines, {} accepted steps agree",
                    from + count,
                    tally.cases,
                    tally.lines,
                    tally.accepted
                );
            }
        }
    }
    if tally.cases == 0 {
        println!("nothing was compared: the candidate has no such call");
        return false;
    }
    let rate = tally.cases as f64 / begin.elapsed().as_secs_f64();
    print!("no difference in {}", tally.words());
    println!("{rate:.0} cases/s");
    true
}
