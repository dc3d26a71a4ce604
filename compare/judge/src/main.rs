mod against;
mod candidate;
mod checks;
mod damage;
mod differences;
mod figures;
mod job;
mod lent;
mod list;
mod lowered;
mod oracle;
mod rng;
mod sample_day;
mod shapes;
mod tally;
mod words;

use std::io::{Read, Write};

const USAGE: &str = "\
judge answer                                  a job from standard input, its lines to standard output
judge answer put                              the same, with records that put in layers and flags (kind 256)
judge answer long                             the same as `judge answer`, of a job of any length
judge mix VOLUME LAYER...                     a mixing of layers of this volume, bottom first
judge make SHAPE SEED                         the bytes of a random job
judge sample-day                              the bytes of the sample day (judge/src/sample_day.rs)
judge show SHAPE SEED                         the same in words
judge against server SHAPE FROM N COMMAND...  N seeds of a shape (several: with commas; or all) against a process that answers requests
judge against program SHAPE FROM N COMMAND... the same against a program started for each job
judge damage JOB server|program COMMAND...    every short input, prefix and change of one byte, and every prefix of the file JOB
judge list write FOLDER EACH CRATES           writes the stored list, EACH random jobs of each shape, and in the folder CRATES
                                              what the programs `replay` and `job` read and must print
judge list export FOLDER TO                   the list as what programs read and must print, into the folder TO
judge list test FOLDER CRATES                 all that `list write` writes says what the judge says, and wrong stand-ins change it
judge list replay FOLDER server COMMAND...    the list against a process that answers requests
judge list replay FOLDER program COMMAND...   the list against a program started for each job
judge parts FROM N                            N seeds of each shape: steps worked whole and in parts agree
judge differences                             where the Rust and the documents part, run
judge rounds N                                the most rounds in N random mixings of finite layers
judge speed N                                 jobs a second, shape by shape
";

/// Steps worked whole and in parts must give the same lines.
fn parts(from: u64, count: u64) -> bool {
    for shape in [shapes::JOB_SHAPES, shapes::REQUEST_SHAPES, &[shapes::PUT]]
        .concat()
        .iter()
    {
        let put = *shape == shapes::PUT;
        for seed in from..from + count {
            let job = shapes::job(shape, seed);
            if oracle::answer(&job, put, false) != oracle::answer(&job, put, true) {
                println!("shape {shape}, seed {seed}: whole and in parts differ");
                return false;
            }
        }
        println!("{shape}: {count} jobs, whole and in parts alike");
    }
    true
}

fn speed(count: u64) {
    for shape in [
        shapes::JOB_SHAPES,
        shapes::REQUEST_SHAPES,
        shapes::LARGE_SHAPES,
        &[shapes::PUT],
    ]
    .concat()
    .iter()
    {
        let count = if shapes::LARGE_SHAPES.contains(shape) {
            count / 50 + 1
        } else {
            count
        };
        let jobs: Vec<Vec<u8>> = (0..count).map(|seed| shapes::job(shape, seed)).collect();
        let start = std::time::Instant::now();
        let steps: usize = jobs
            .iter()
            .map(|job| {
                let lines = oracle::answer(job, *shape == shapes::PUT, false);
                lines.iter().filter(|line| line.text.starts_with('S')).count()
            })
            .sum();
        let took = start.elapsed().as_secs_f64();
        let (jobs, steps) = (count as f64 / took, steps as f64 / took);
        println!("{shape:12} {jobs:>8.0} jobs/s {steps:>8.0} steps/s");
    }
}

/// The most rounds met in mixings that end, by the number of layers.
fn rounds(count: u64) {
    let mut most = [0; job::MOST_LAYERS + 1];
    for seed in 0..count {
        let mut rng = rng::Rng::new("rounds", seed);
        let layers = rng.from_to(2, job::MOST_LAYERS as u64) as usize;
        let fall = rng.between(0.0, 12.0);
        let kind = rng.below(5);
        let temperatures: Vec<f64> = (0..layers)
            .map(|at| match kind {
                0 => rng.between(0.0, 90.0),
                1 => rng.below(4) as f64,
                2 => at as f64 * 10.0 - fall * (at * at) as f64 * rng.unit(),
                // The cold top pulls one layer more into its group in each round.
                3 => {
                    if at + 1 == layers {
                        -1e6
                    } else {
                        at as f64 * (1.0 + fall)
                    }
                }
                _ => -(fall.powi(at as i32 % 9)),
            })
            .collect();
        if let Ok((_, rounds)) = oracle::mix(rng.between(1.0, 20.0), &temperatures) {
            most[layers] = most[layers].max(rounds);
        }
    }
    println!(
        "most rounds for 2, 3, ... {} layers: {:?}",
        job::MOST_LAYERS,
        &most[2..]
    );
}

fn main() {
    original::probe::quiet_panics();
    // A panic of the judge itself is said aloud.
    if std::panic::catch_unwind(run).is_err() {
        stop(&format!("judge: {}", original::probe::last_panic()));
    }
}

fn run() {
    let args: Vec<String> = std::env::args().skip(1).collect();
    let words: Vec<&str> = args.iter().map(|word| word.as_str()).collect();
    let number = |word: &str| -> u64 {
        word.parse()
            .unwrap_or_else(|_| stop(&format!("{word} is no number")))
    };
    let double = |word: &str| -> f64 {
        word.parse()
            .unwrap_or_else(|_| stop(&format!("{word} is no number")))
    };
    let fine = match words[..] {
        ["answer", ref how @ ..] if how.is_empty() || *how == ["put"] || *how == ["long"] => {
            let mut bytes = Vec::new();
            std::io::stdin()
                .read_to_end(&mut bytes)
                .expect("standard input can be read");
            let lines = if *how == ["long"] {
                oracle::answer_to_all(&bytes, false, false)
            } else {
                oracle::answer(&bytes, !how.is_empty(), false)
            };
            print!("{}", words::text(&lines));
            true
        }
        ["mix", volume, ref layers @ ..] => {
            let layers: Vec<f64> = layers.iter().map(|word| double(word)).collect();
            println!("{}", oracle::mix_line(double(volume), &layers).text);
            true
        }
        ["make", shape, seed] => {
            let bytes = shapes::job(shape, number(seed));
            std::io::stdout()
                .write_all(&bytes)
                .expect("standard output takes the job");
            true
        }
        ["sample-day"] => {
            std::io::stdout()
                .write_all(&sample_day::sample_day())
                .expect("standard output takes the job");
            true
        }
        ["show", shape, seed] => {
            print!("{}", against::tell(shape, number(seed)));
            true
        }
        ["against", "server", shape, from, count, ref command @ ..] if !command.is_empty() => {
            let mut server = candidate::Server::new(command);
            against::run(&mut server, shape, number(from), number(count))
        }
        ["against", "program", shape, from, count, ref command @ ..] if !command.is_empty() => {
            let mut program = candidate::Program::new(command);
            against::run(&mut program, shape, number(from), number(count))
        }
        ["damage", job, "server", ref command @ ..] if !command.is_empty() => {
            damage::run(&mut candidate::Server::new(command), job, &read(job))
        }
        ["damage", job, "program", ref command @ ..] if !command.is_empty() => {
            damage::run(&mut candidate::Program::new(command), job, &read(job))
        }
        ["list", "write", folder, each, crates] => {
            let mut about = String::new();
            std::io::stdin()
                .read_to_string(&mut about)
                .expect("standard input is text");
            list::write(folder.as_ref(), number(each), crates.as_ref(), &about);
            true
        }
        ["list", "export", folder, to] => {
            list::export(folder.as_ref(), to.as_ref());
            true
        }
        ["list", "test", folder, crates] => list::self_test(folder.as_ref(), crates.as_ref()),
        ["list", "replay", folder, "server", ref command @ ..] if !command.is_empty() => {
            list::replay(folder.as_ref(), &mut candidate::Server::new(command))
        }
        ["list", "replay", folder, "program", ref command @ ..] if !command.is_empty() => {
            list::replay(folder.as_ref(), &mut candidate::Program::new(command))
        }
        ["parts", from, count] => parts(number(from), number(count)),
        ["differences"] => differences::run(),
        ["rounds", count] => {
            rounds(number(count));
            true
        }
        ["speed", count] => {
            speed(number(count));
            true
        }
        _ => stop(USAGE),
    };
    std::process::exit(if fine { 0 } else { 1 });
}

fn read(file: &str) -> Vec<u8> {
    std::fs::read(file).unwrap_or_else(|error| stop(&format!("{file}: {error}")))
}

/// Ends with words on standard error.
pub fn stop(words: &str) -> ! {
    eprintln!("{}", words.trim_end());
    std::process::exit(2)
}
