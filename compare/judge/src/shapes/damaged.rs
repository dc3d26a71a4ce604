//! Jobs with a fault in their bytes.

use super::days::day;
use crate::job::{Writer, HEATER, STEP, TANK};
use crate::rng::Rng;

pub fn starts(bytes: &[u8]) -> Vec<usize> {
    let mut all = Vec::new();
    let mut at = 0;
    while at + 4 <= bytes.len() {
        all.push(at);
        at += 4 + u32::from_le_bytes(bytes[at..at + 4].try_into().unwrap()) as usize;
    }
    all
}

/// A good job, then one or two faults.
pub fn damaged(rng: &mut Rng, writer: &mut Writer) {
    let layers = rng.from_to(1, 4) as usize;
    let heaters = rng.from_to(0, 3) as usize;
    let steps = rng.from_to(1, 3) as usize;
    day(rng, layers, heaters, steps, writer);
    for _ in 0..rng.from_to(1, 2) {
        let bytes = &mut writer.bytes;
        let starts = starts(bytes);
        let Some(&at) = starts.get(rng.below(starts.len().max(1) as u64) as usize) else {
            return;
        };
        match rng.below(12) {
            0 => bytes.truncate(rng.below(bytes.len() as u64 + 1) as usize),
            1 => bytes.truncate(at + rng.below(8) as usize),
            2 => {
                // Another length.
                let by = *rng.pick(&[1u32, 2, 8, 17, 256, 65536, 1 << 31]);
                let old = u32::from_le_bytes(bytes[at..at + 4].try_into().unwrap());
                let new = if rng.one_in(2) {
                    old.wrapping_add(by)
                } else {
                    old.wrapping_sub(by)
                };
                bytes[at..at + 4].copy_from_slice(&new.to_le_bytes());
            }
            3 if at + 6 <= bytes.len() => {
                let kind = *rng.pick(&[0u16, 4, 5, 256, 257, 0xffff, 0x0301]);
                bytes[at + 4..at + 6].copy_from_slice(&kind.to_le_bytes());
            }
            4 if at + 6 <= bytes.len() => {
                let kind = *rng.pick(&[TANK, HEATER, STEP]);
                bytes[at + 4..at + 6].copy_from_slice(&kind.to_le_bytes());
            }
            5 => {
                // A record twice, or at the end, or before the tank.
                let end = starts.iter().find(|s| **s > at).copied().unwrap_or(bytes.len());
                let copy = bytes[at..end].to_vec();
                let to = *rng.pick(&[0, at, end, bytes.len()]);
                bytes.splice(to..to, copy);
            }
            6 => {
                let end = starts.iter().find(|s| **s > at).copied().unwrap_or(bytes.len());
                bytes.drain(at..end);
            }
            7 => {
                // A presence byte.
                if at + 6 <= bytes.len() {
                    let place = match u16::from_le_bytes([bytes[at + 4], bytes[at + 5]]) {
                        HEATER => at + 6 + 16,
                        STEP if at + 16 <= bytes.len() => {
                            let count = u16::from_le_bytes([bytes[at + 14], bytes[at + 15]]) as usize;
                            at + 16 + 8 * count + 17 * rng.below(heaters.max(1) as u64) as usize
                        }
                        _ => at,
                    };
                    if place > at && place < bytes.len() {
                        bytes[place] = *rng.pick(&[2, 3, 4, 5, 255, 128]);
                    }
                }
            }
            8 if at + 16 <= bytes.len() => {
                // A step's count of events.
                let count = *rng.pick(&[0u16, 1, 64, 65, 0xffff]);
                bytes[at + 14..at + 16].copy_from_slice(&count.to_le_bytes());
            }
            9 => {
                let more = rng.from_to(1, 9);
                for _ in 0..more {
                    let byte = rng.next() as u8;
                    bytes.push(byte);
                }
            }
            10 => {
                // One bit.
                if !bytes.is_empty() {
                    let place = rng.below(bytes.len() as u64) as usize;
                    bytes[place] ^= 1 << rng.below(8);
                }
            }
            _ => {
                // Short lengths, down to none.
                let new = rng.below(4) as u32;
                bytes[at..at + 4].copy_from_slice(&new.to_le_bytes());
            }
        }
    }
}
