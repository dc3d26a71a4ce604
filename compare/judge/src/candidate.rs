//! Whatever is held against the Rust.
//!
//! Three ways to run one: a server (one process, many requests), a program (one process for each job, as the
//! program `job` is run), and anything else that implements `Candidate`, such as a library linked in.

use std::io::{Read, Write};
use std::process::{Child, Command, Stdio};
use std::sync::{Arc, Mutex};
use std::time::{Duration, Instant};

/// Each answer is the lines, every one ended by a newline; `None` where the candidate has no such call.
pub trait Candidate {
    fn job(&mut self, bytes: &[u8]) -> Option<String>;

    /// A job that comes in pieces of so many bytes, as through a slow line.
    fn job_in_pieces(&mut self, bytes: &[u8], size: usize) -> Option<String> {
        let _ = (bytes, size);
        None
    }

    /// A job with records that put in layers and flags.
    fn put(&mut self, bytes: &[u8]) -> Option<String> {
        let _ = bytes;
        None
    }

    /// A mixing: `M 0`, rounds and layers, or `M` and the number of the refusal.
    fn mix(&mut self, volume: f64, layers: &[f64]) -> Option<String> {
        let _ = (volume, layers);
        None
    }

    /// Make, of what `lent::make_request` has: `N` and the number, and the tank's places.
    fn make(&mut self, bytes: &[u8]) -> Option<String> {
        let _ = bytes;
        None
    }

    /// A step on what `lent::step_request` has: `T` and the number, and the places of tank and report.
    fn lent(&mut self, bytes: &[u8]) -> Option<String> {
        let _ = bytes;
        None
    }
}

fn start(words: &[&str]) -> Child {
    Command::new(words[0])
        .args(&words[1..])
        .stdin(Stdio::piped())
        .stdout(Stdio::piped())
        .spawn()
        .unwrap_or_else(|error| crate::stop(&format!("{} cannot be started: {error}", words[0])))
}

/// A process that answers one request after another: a byte (J, P, M, N or T), a 4-byte length and the bytes; back
/// come a 4-byte length and the lines. A length of 2^32 - 1 says that it has no such call.
pub struct Server {
    name: String,
    child: Child,
}

impl Server {
    pub fn new(words: &[&str]) -> Self {
        Server {
            name: words.join(" "),
            child: start(words),
        }
    }

    fn ask(&mut self, kind: u8, bytes: &[u8]) -> Option<String> {
        let ended = |error| {
            crate::stop(&format!(
                "the server {} ended before its answer: {error}",
                self.name
            ))
        };
        let to = self.child.stdin.as_mut().expect("it is piped");
        let mut request = vec![kind];
        request.extend_from_slice(&(bytes.len() as u32).to_le_bytes());
        request.extend_from_slice(bytes);
        to.write_all(&request).unwrap_or_else(ended);
        to.flush().unwrap_or_else(ended);
        let from = self.child.stdout.as_mut().expect("it is piped");
        let mut length = [0; 4];
        from.read_exact(&mut length).unwrap_or_else(ended);
        let length = u32::from_le_bytes(length);
        if length == u32::MAX {
            return None;
        }
        let mut text = vec![0; length as usize];
        from.read_exact(&mut text).unwrap_or_else(ended);
        Some(String::from_utf8_lossy(&text).into_owned())
    }
}

impl Candidate for Server {
    fn job(&mut self, bytes: &[u8]) -> Option<String> {
        self.ask(b'J', bytes)
    }

    fn put(&mut self, bytes: &[u8]) -> Option<String> {
        self.ask(b'P', bytes)
    }

    fn mix(&mut self, volume: f64, layers: &[f64]) -> Option<String> {
        let mut bytes = volume.to_le_bytes().to_vec();
        for layer in layers {
            bytes.extend_from_slice(&layer.to_le_bytes());
        }
        self.ask(b'M', &bytes)
    }

    fn make(&mut self, bytes: &[u8]) -> Option<String> {
        self.ask(b'N', bytes)
    }

    fn lent(&mut self, bytes: &[u8]) -> Option<String> {
        self.ask(b'T', bytes)
    }
}

impl Drop for Server {
    fn drop(&mut self) {
        drop(self.child.stdin.take());
        let _ = self.child.wait();
    }
}

/// A program that has not ended after so long is ended, and its answer says so.
const MOST_TIME: Duration = Duration::from_secs(60);

type Running = Arc<Mutex<Option<(Child, Instant)>>>;

/// A program started for each job, which reads it from standard input and prints the lines.
pub struct Program {
    words: Vec<String>,
    running: Running,
}

impl Program {
    pub fn new(words: &[&str]) -> Self {
        let running: Running = Arc::default();
        let watched = running.clone();
        std::thread::spawn(move || loop {
            std::thread::sleep(Duration::from_secs(1));
            if let Some((child, since)) = &mut *watched.lock().expect("nothing panics here") {
                if since.elapsed() > MOST_TIME {
                    let _ = child.kill();
                }
            }
        });
        Program {
            words: words.iter().map(|word| word.to_string()).collect(),
            running,
        }
    }

    /// Runs it on these bytes, written in pieces of so many, with a pause between them.
    fn run(&mut self, bytes: &[u8], size: usize) -> String {
        let words: Vec<&str> = self.words.iter().map(|word| word.as_str()).collect();
        let mut child = start(&words);
        let mut to = child.stdin.take().expect("it is piped");
        let mut from = child.stdout.take().expect("it is piped");
        *self.running.lock().expect("nothing panics here") = Some((child, Instant::now()));
        let bytes = bytes.to_vec();
        // A program may stop reading at 65,536 bytes: a broken pipe is no fault.
        let writer = std::thread::spawn(move || {
            for (at, piece) in bytes.chunks(size).enumerate() {
                if at > 0 {
                    std::thread::sleep(Duration::from_micros(50));
                }
                if to.write_all(piece).is_err() {
                    return;
                }
            }
        });
        let mut text = Vec::new();
        from.read_to_end(&mut text).expect("a pipe can be read");
        writer.join().expect("the writer ends");
        let ran = self.running.lock().expect("nothing panics here").take();
        let (mut child, _) = ran.expect("it was put there");
        let status = child.wait().expect("a child can be waited for");
        let mut text = String::from_utf8_lossy(&text).into_owned();
        // Its status says nothing, but it must end by itself.
        if status.code().is_none() {
            text.push_str(&format!("the program was ended by a signal: {status}\n"));
        }
        text
    }
}

impl Candidate for Program {
    fn job(&mut self, bytes: &[u8]) -> Option<String> {
        Some(self.run(bytes, bytes.len().max(1)))
    }

    fn job_in_pieces(&mut self, bytes: &[u8], size: usize) -> Option<String> {
        Some(self.run(bytes, size))
    }
}
