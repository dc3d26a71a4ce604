//! The stored list as it lies.

use super::framed;
use std::fs;
use std::path::Path;

pub struct Stored {
    pub name: String,
    pub kind: Kind,
    pub expected: String,
}

pub enum Kind {
    Job(Vec<u8>),
    Put(Vec<u8>),
    Mix(f64, Vec<f64>),
}

fn take<'a>(bytes: &mut &'a [u8], count: usize) -> &'a [u8] {
    let (first, rest) = bytes.split_at(count);
    *bytes = rest;
    first
}

fn framed_part<'a>(bytes: &mut &'a [u8]) -> &'a [u8] {
    let length = u32::from_le_bytes(take(bytes, 4).try_into().unwrap()) as usize;
    take(bytes, length)
}

pub fn stored(folder: &Path) -> Vec<Stored> {
    let mut names: Vec<String> = fs::read_dir(folder)
        .unwrap_or_else(|error| panic!("{}: {error}", folder.display()))
        .flatten()
        .map(|file| file.file_name().to_string_lossy().into_owned())
        .collect();
    names.sort();
    let mut all = Vec::new();
    for name in names {
        let read = |name: &str| fs::read(folder.join(name)).expect("the file can be read");
        if let Some(stem) = name.strip_suffix(".job") {
            all.push(Stored {
                name: name.clone(),
                kind: Kind::Job(read(&name)),
                expected: String::from_utf8(read(&format!("{stem}.txt"))).expect("text"),
            });
        }
        if !name.ends_with(".bin") {
            continue;
        }
        let bytes = read(&name);
        let mut rest = &bytes[..];
        let mut at = 0;
        while !rest.is_empty() {
            let (kind, expected) = if name.starts_with("mix") {
                let double = |bytes: &[u8]| f64::from_le_bytes(bytes.try_into().unwrap());
                let small = |bytes: &[u8]| u16::from_le_bytes(bytes.try_into().unwrap());
                let count = small(take(&mut rest, 2)) as usize;
                let volume = double(take(&mut rest, 8));
                let layers: Vec<f64> = (0..count).map(|_| double(take(&mut rest, 8))).collect();
                let number = small(take(&mut rest, 2));
                let rounds = small(take(&mut rest, 2));
                let mut expected = format!("M {number}");
                if number == 0 {
                    expected.push_str(&format!(" {rounds}"));
                }
                for _ in 0..count {
                    let after = double(take(&mut rest, 8));
                    if number == 0 {
                        expected.push_str(&format!(" {:016x}", after.to_bits()));
                    }
                }
                expected.push('\n');
                (Kind::Mix(volume, layers), expected)
            } else {
                let job = framed_part(&mut rest).to_vec();
                let expected = String::from_utf8(framed_part(&mut rest).to_vec()).expect("text");
                let kind = if name.starts_with("put") {
                    Kind::Put(job)
                } else {
                    Kind::Job(job)
                };
                (kind, expected)
            };
            all.push(Stored {
                name: format!("{name} entry {at}"),
                kind,
                expected,
            });
            at += 1;
        }
    }
    all
}

/// The list for a program that is run once: `jobs.stdin`, `put.stdin` and `mix.stdin` hold the cases without
/// answers (a 4-byte length and a job; a 2-byte count, the layer volume and the layers), and `jobs.stdout` and so
/// on what is to be printed: for each case a line `J` or `M` and its index, then its lines.
pub fn export(folder: &Path, to: &Path) {
    let mut files: [(&str, Vec<u8>, String, usize); 3] =
        ["jobs", "put", "mix"].map(|name| (name, Vec::new(), String::new(), 0));
    for one in stored(folder) {
        if one.name.starts_with("long") {
            continue;
        }
        let mut bytes = Vec::new();
        let (at, mark) = match &one.kind {
            Kind::Job(job) => {
                framed(job, &mut bytes);
                (0, 'J')
            }
            Kind::Put(job) => {
                framed(job, &mut bytes);
                (1, 'J')
            }
            Kind::Mix(volume, layers) => {
                bytes.extend_from_slice(&(layers.len() as u16).to_le_bytes());
                bytes.extend_from_slice(&volume.to_le_bytes());
                layers
                    .iter()
                    .for_each(|layer| bytes.extend_from_slice(&layer.to_le_bytes()));
                (2, 'M')
            }
        };
        let (_, stdin, stdout, count) = &mut files[at];
        stdin.extend_from_slice(&bytes);
        stdout.push_str(&format!("{mark} {count}\n{}", one.expected));
        *count += 1;
    }
    for (name, stdin, stdout, count) in &files {
        fs::write(to.join(format!("{name}.stdin")), stdin).expect("the folder takes a file");
        fs::write(to.join(format!("{name}.stdout")), stdout).expect("the folder takes a file");
        println!(
            "{name}: {count} cases, {} bytes in, {} bytes out",
            stdin.len(),
            stdout.len()
        );
    }
}
