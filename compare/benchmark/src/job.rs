//! A day as a job, for the judge, which sees every figure; and our answers as the lines that it prints.

use crate::days::Day;
use crate::ours;
use std::io::Write;

fn record(job: &mut Vec<u8>, kind: u16, body: &[u8]) {
    job.extend((body.len() as u32 + 2).to_le_bytes());
    job.extend(kind.to_le_bytes());
    job.extend(body);
}

fn doubles(body: &mut Vec<u8>, numbers: &[f64]) {
    for number in numbers {
        body.extend(number.to_le_bytes());
    }
}

/// Document 01, Job, with one put record (kind 256) before the first step; of mixings, the words for `judge mix`.
pub fn write_job(day: &Day) {
    if day.mixings {
        let layers: String = day.start.layers.iter().map(|layer| format!(" {layer}")).collect();
        println!("{}{layers}", day.layer_volume());
        return;
    }
    let mut job = Vec::new();
    let m = &day.making;
    let mut body = (m.layers as u16).to_le_bytes().to_vec();
    let numbers = [
        m.volume,
        m.standby,
        m.initial,
        m.density,
        m.specific_heat,
        m.ambient,
        m.step,
    ];
    doubles(&mut body, &numbers);
    record(&mut job, 1, &body);
    for heater in &day.heaters {
        let mut body = Vec::new();
        doubles(&mut body, &[heater.rated, heater.position]);
        body.push(u8::from(heater.thermostat.is_some()));
        doubles(&mut body, &[heater.thermostat.unwrap_or(0.0)]);
        record(&mut job, 2, &body);
    }
    let mut body = Vec::new();
    doubles(&mut body, &day.start.layers);
    body.extend(day.start.flags.iter().map(|flag| u8::from(*flag)));
    record(&mut job, 256, &body);
    for volumes in &day.draws {
        let mut body = day.feed.to_le_bytes().to_vec();
        body.extend((volumes.len() as u16).to_le_bytes());
        doubles(&mut body, volumes);
        for _ in &day.heaters {
            let (lower, upper) = day.set_points;
            body.push(u8::from(lower.is_some()) + 2 * u8::from(upper.is_some()));
            doubles(&mut body, &[lower.unwrap_or(0.0), upper.unwrap_or(0.0)]);
        }
        record(&mut job, 3, &body);
    }
    std::io::stdout()
        .write_all(&job)
        .expect("standard output takes the job");
}

fn hex(numbers: &[f64]) -> String {
    numbers
        .iter()
        .map(|number| format!(" {:016x}", number.to_bits()))
        .collect()
}

/// The heaters stand in working order as they are given.
pub fn write_lines(day: &Day) {
    if day.mixings {
        let mut layers = day.start.layers.clone();
        let (number, rounds) = ours::mix(&mut layers, day.layer_volume());
        println!("M {number} {rounds}{}", hex(&layers));
        return;
    }
    let mut tank = ours::make(&day.making, &day.heaters);
    tank.put(&day.start.layers, &day.start.flags);
    let mut report = ours::Report::default();
    for (index, volumes) in day.draws.iter().enumerate() {
        let step = ours::step_of(day.feed, volumes, day.heaters.len(), day.set_points);
        let number = ours::step(&mut tank, &mut report, &step);
        let totals = if number == 0 {
            hex(&report.totals)
        } else {
            String::new()
        };
        println!("S {index} {number}{totals}");
        println!("L{}", hex(&tank.temps[..day.making.layers]));
        for at in 0..day.heaters.len() {
            let figures = [0, 1, 2].map(|kind| report.figures[kind * ours::HEATERS + at]);
            println!("H {}{} {}", report.flags[at], hex(&figures), report.rounds[at]);
        }
    }
}
