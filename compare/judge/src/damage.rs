//! Damaged jobs, all of them: every input of up to 2 bytes, and of good jobs every prefix and every change of one
//! byte. And jobs that come in pieces, which are not damaged.

use crate::candidate::Candidate;
use crate::figures;
use crate::oracle;
use crate::shapes;
use crate::tally::Tally;
use crate::words;
use std::time::Instant;

/// Good jobs whose every byte is changed, by their names in the list: 01's own, one with a heater, a draw and set
/// points, one with three heaters, a thermostat and two steps.
const SMALL_JOBS: &[&str] = &[
    "01: job of two layers, volume 32, initial 20, no heaters, feed 12, no events",
    "docs/JOB_FORMAT.md: a heater and a draw",
    "switched off by its own turn, not by the step's last layers",
];

const PIECES: &[usize] = &[1, 2, 3, 5, 7, 64, 1000, 4096, 40_000];

fn job_named(name: &str) -> Vec<u8> {
    let case = figures::jobs().into_iter().find(|case| case.name == name);
    case.unwrap_or_else(|| panic!("no case has the name {name}"))
        .bytes
}

/// Holds a candidate against the judge, one input after another.
struct Run<'a> {
    candidate: &'a mut dyn Candidate,
    tally: Tally,
    last: Instant,
}

impl Run<'_> {
    /// True if the two agree.
    fn input(&mut self, name: &str, bytes: &[u8]) -> bool {
        let Some(theirs) = self.candidate.job(bytes) else {
            println!("the candidate reads no jobs");
            return false;
        };
        self.agree(name, bytes, &theirs)
    }

    fn agree(&mut self, name: &str, bytes: &[u8], theirs: &str) -> bool {
        let ours = oracle::answer(bytes, false, false);
        if let Some(difference) = words::difference(&ours, theirs) {
            println!("first difference: {name}\n{difference}\nthe input:\n{bytes:02x?}");
            return false;
        }
        self.tally.job(bytes, false, &ours);
        if self.last.elapsed().as_secs() >= 5 {
            self.last = Instant::now();
            eprintln!("  {} inputs agree; at {name}", self.tally.cases);
        }
        true
    }

    /// Runs a part and says how many inputs it had.
    fn part(&mut self, what: &str, work: impl FnOnce(&mut Self) -> bool) -> bool {
        let before = self.tally.cases;
        let fine = work(self);
        let count = self.tally.cases - before;
        if fine && count > 0 {
            println!("{count} inputs: {what}");
        }
        fine
    }

    fn short_inputs(&mut self) -> bool {
        let one = |a: u8| vec![a];
        let two = |a: u8| (0..=255).map(move |b: u8| vec![a, b]);
        let mut all = std::iter::once(Vec::new())
            .chain((0..=255).map(one))
            .chain((0..=255).flat_map(two));
        all.all(|bytes| self.input(&format!("the input {bytes:02x?}"), &bytes))
    }

    fn prefixes(&mut self, name: &str, job: &[u8]) -> bool {
        (0..=job.len())
            .all(|length| self.input(&format!("the first {length} bytes of {name}"), &job[..length]))
    }

    /// The same answer however the bytes come; a server has no such call.
    fn pieces(&mut self, name: &str, job: &[u8]) -> bool {
        PIECES
            .iter()
            .all(|size| match self.candidate.job_in_pieces(job, *size) {
                None => true,
                Some(theirs) => self.agree(&format!("{name} in pieces of {size} bytes"), job, &theirs),
            })
    }

    fn one_byte(&mut self, name: &str, job: &[u8]) -> bool {
        let mut bytes = job.to_vec();
        for at in 0..job.len() {
            for change in 1..=255 {
                bytes[at] = job[at] ^ change;
                if !self.input(&format!("{name} with byte {at} {:#04x}", bytes[at]), &bytes) {
                    return false;
                }
            }
            bytes[at] = job[at];
        }
        true
    }
}

/// Runs all of it, and every prefix of the job named. True if nothing differs.
pub fn run(candidate: &mut dyn Candidate, name: &str, job: &[u8]) -> bool {
    let begin = Instant::now();
    let mut run = Run {
        candidate,
        tally: Tally::default(),
        last: Instant::now(),
    };
    let mut fine = run.part("all of 0, 1 and 2 bytes", |run| run.short_inputs());
    for name in SMALL_JOBS {
        let job = job_named(name);
        let what = format!(
            "every prefix and every other value of every byte of '{name}' ({} bytes)",
            job.len()
        );
        fine = fine && run.part(&what, |run| run.prefixes(name, &job) && run.one_byte(name, &job));
    }
    let what = format!("every prefix of {name} ({} bytes)", job.len());
    fine = fine && run.part(&what, |run| run.prefixes(name, job));
    let long = ("a job past 65,536 bytes", shapes::job(shapes::LONG, 0));
    for (name, job) in [(name, job.to_vec()), long] {
        let what = format!("{name} in pieces of {PIECES:?} bytes");
        fine = fine && run.part(&what, |run| run.pieces(name, &job));
    }
    if fine {
        print!("no difference in {}", run.tally.words());
        println!(
            "{:.0} inputs/s",
            run.tally.cases as f64 / begin.elapsed().as_secs_f64()
        );
    }
    fine
}
