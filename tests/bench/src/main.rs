//! The benchmark: one table, measured in one run.
//!
//!     bench [--rounds N]
//!
//! The library and the three C++ baselines (see baseline/baseline.cpp: by rows, by heights, by widths)
//! take turns, round by round (400 of a millisecond), on the same drawings and in the same buffers; the best
//! round of each counts. Pinwheels and jobs have a tenth of the rounds. The last column is the library's time over that of the fastest baseline on that line.
//! Table (14,400 entries) and list (900 numbers) are lent whole and not cleared between calls: each
//! call finds what the last one left. Every call is whole: checks, grid, fill, emission.

use bench::{layout, lines, wheel_lines};
use drawings::document::{FRAMED_JOB, JOB};
use drawings::elements;
use law::bytes::{header, written_outline};
use law::{Calls, Drawing, Law, Told};
use std::hint::black_box;
use std::time::Instant;

type Fracture<'a> = &'a dyn Fn(&Drawing, &mut [u32], &mut [u16]) -> Told;

/// ns per drawing of one round: all drawings of a line, over and over.
fn round(drawings: &[Drawing], fracture: Fracture, table: &mut [u32], list: &mut [u16], turns: usize) -> f64 {
    let start = Instant::now();
    for _ in 0..turns {
        for drawing in drawings {
            let told = fracture(black_box(drawing), table, list);
            assert!(black_box(told).number == 0);
        }
    }
    start.elapsed().as_secs_f64() * 1e9 / (turns * drawings.len()) as f64
}

/// So many turns that a round takes about a millisecond: short enough to fit between two turns of whatever else a shared machine
/// does, so that the best of many rounds is one that nothing disturbed.
fn turns(drawings: &[Drawing], fracture: Fracture, table: &mut [u32], list: &mut [u16]) -> usize {
    let mut turns = 1;
    loop {
        let took = round(drawings, fracture, table, list, turns) * (turns * drawings.len()) as f64;
        if took > 5e5 {
            return (turns as f64 * 1e6 / took).ceil() as usize;
        }
        turns *= 4;
    }
}

/// A job of 40 layout-like outlines, as far as they fit.
fn job() -> Vec<u8> {
    let mut body = Vec::new();
    let mut count = 0;
    for drawing in layout().iter().take(40) {
        let part = written_outline(drawing);
        if body.len() + part.len() <= 4000 {
            body.extend(part);
            count += 1;
        }
    }
    [header(25, 40, count), body].concat()
}

/// Reads a job: checks it, takes each outline, unpacks it. Gives a number that depends on all of it.
fn read(calls: &dyn Calls, job: &[u8], list: &mut [u16], rings: &mut [u16]) -> u64 {
    let told = calls.job_check(job);
    let mut sum = told.numbers[0];
    for k in 0..told.numbers[2] as usize {
        let part = calls.job_outline(job, k).numbers;
        sum += calls.unpack(&job[part[0] as usize..(part[0] + part[1]) as usize], list, rings).numbers[0];
    }
    sum
}

/// Opens a job and picks each outline by the index. Gives a number that depends on all of it.
fn pick(calls: &dyn Calls, job: &[u8], index: &mut [u16]) -> usize {
    if let Some(bytes) = library::opened_and_picked(job, index) {
        return bytes;
    }
    let count = calls.index_open(job, index).numbers[0] as usize;
    (0..count).map(|k| calls.index_pick(job, index, count, k).numbers[1] as usize).sum()
}

/// A job of 255 small outlines.
fn full_job() -> Vec<u8> {
    let square = Drawing::outline(&[0, 0, 100, 0, 100, 100, 0, 100]);
    [header(25, 40, 255), written_outline(&square).repeat(255)].concat()
}

/// Best ns of a call over some rounds.
fn best(rounds: usize, mut call: impl FnMut()) -> f64 {
    let mut least = f64::MAX;
    for _ in 0..rounds {
        let start = Instant::now();
        for _ in 0..100 {
            call();
        }
        least = least.min(start.elapsed().as_secs_f64() * 1e9 / 100.0);
    }
    least
}

fn load() -> String {
    let load = std::fs::read_to_string("/proc/loadavg").unwrap_or_default();
    load.split(' ').take(3).collect::<Vec<_>>().join(" ")
}

/// The same by pinwheels, beside the C++ baseline that weighs them in the same way.
fn by_pinwheels(calls: &dyn Calls, who: &str, rounds: usize) {
    let ours: Fracture = &|drawing, table, list| calls.fracture_pinwheel(drawing, 25, 40, table, list);
    let wheels: Fracture = &|drawing, table, list| baseline::baseline_wheels(drawing, 25, 40, table, list);
    println!("\n| By pinwheels | {who} | C++ by pinwheels | to it |\n|---|---:|---:|---:|");
    let (mut table, mut list) = (vec![0u32; 14_400], vec![0u16; 900]);
    for line in &wheel_lines() {
        let all = [ours, wheels];
        let turns = all.map(|fracture| turns(&line.drawings, fracture, &mut table, &mut list));
        let mut best = [f64::MAX; 2];
        for _ in 0..rounds {
            for which in 0..2 {
                let took = round(&line.drawings, all[which], &mut table, &mut list, turns[which]);
                best[which] = best[which].min(took);
            }
        }
        println!("| {} | {:.0} | {:.0} | {:.2} |", line.name, best[0], best[1], best[0] / best[1]);
    }
}

fn main() {
    let words: Vec<String> = std::env::args().collect();
    let rounds: usize = match words.get(1).map(String::as_str) {
        Some("--rounds") => words[2].parse().unwrap(),
        _ => 400,
    };
    let lines = lines();
    let library = library::library();
    let ours: Fracture = &|drawing, table, list| match library {
        Some(library) => library.fracture(drawing, 25, 40, table, list),
        None => Law.fracture(drawing, 25, 40, table, list),
    };
    let heights: Fracture = &|drawing, table, list| baseline::baseline(drawing, 25, 40, table, list);
    let rows: Fracture = &|drawing, table, list| baseline::baseline_rows(drawing, 25, 40, table, list);
    let widths: Fracture = &|drawing, table, list| baseline::baseline_widths(drawing, 25, 40, table, list);
    let who = if library.is_some() { "library" } else { "plain Rust" };
    println!("ns per fracture, whole call, rule 25, 40; best of {rounds} rounds in turn; buffers not cleared between calls");
    println!("machine: {}, load before {}", std::env::consts::ARCH, load());
    println!("| Outline | {who} | C++ by rows | C++ by heights | C++ by widths | to rows | to heights | to widths | to the best |");
    println!("|---|---:|---:|---:|---:|---:|---:|---:|---:|");
    let (mut table, mut list) = (vec![0u32; 14_400], vec![0u16; 900]);
    for line in &lines {
        let all = [ours, rows, heights, widths];
        let turns = all.map(|fracture| turns(&line.drawings, fracture, &mut table, &mut list));
        let mut best = [f64::MAX; 4];
        for _ in 0..rounds {
            for which in 0..4 {
                let took = round(&line.drawings, all[which], &mut table, &mut list, turns[which]);
                best[which] = best[which].min(took);
            }
        }
        let [ours, baselines @ ..] = best;
        let fastest = baselines.into_iter().fold(f64::MAX, f64::min);
        let times: Vec<String> = best.iter().map(|took| format!("{took:.0}")).collect();
        let ratios: Vec<String> = baselines.iter().chain([&fastest]).map(|took| format!("{:.2}", ours / took)).collect();
        println!("| {} | {} | {} |", line.name, times.join(" | "), ratios.join(" | "));
    }
    let calls: &dyn Calls = match library {
        Some(library) => library,
        None => &Law,
    };
    // what follows takes longer for each round
    let rounds = rounds.div_ceil(10);
    by_pinwheels(calls, who, rounds);
    println!("\n| Job, by the {who} | bytes | outlines | ns |\n|---|---:|---:|---:|");
    let mut rings = [0; 8];
    let mut index = [0; 255];
    let jobs = [
        ("worked example", JOB.to_vec()),
        ("layout-like outlines", job()),
        ("frame with a window", FRAMED_JOB.to_vec()),
        ("255 squares", full_job()),
    ];
    for (name, job) in &jobs {
        let count = Law.job_check(job).numbers[2];
        let checked = best(rounds, || {
            black_box(calls.job_check(black_box(job)));
        });
        let read = best(rounds, || {
            black_box(read(calls, black_box(job), &mut list, &mut rings));
        });
        println!("| {name}: checked | {} | {count} | {checked:.0} |", job.len());
        let picked = best(rounds, || {
            black_box(pick(calls, black_box(job), &mut index));
        });
        println!("| {name}: checked, and every outline taken and unpacked | {} | {count} | {read:.0} |", job.len());
        println!("| {name}: opened, and every outline picked by the index | {} | {count} | {picked:.0} |", job.len());
        println!("| {name}: that over its check | | | {:.2} |", picked / checked);
    }
    println!("\n| Boundary element, by the {who} | bytes | ns to read | ns to fracture |\n|---|---:|---:|---:|");
    for (name, element) in [("L", elements::element(&elements::L)), ("32 corners", elements::element(&elements::stairs()))] {
        let read = best(rounds, || {
            black_box(calls.gdsii_read(black_box(&element), &mut list));
        });
        let fractured = best(rounds, || {
            black_box(calls.gdsii_fracture(black_box(&element), &mut table, &mut list));
        });
        println!("| {name} | {} | {read:.0} | {fractured:.0} |", element.len());
    }
    println!("\n| Largest shot, by the {who} | shots before | shots | ns |\n|---|---:|---:|---:|");
    let square = Drawing::outline(&[0, 0, 65_535, 0, 65_535, 65_535, 0, 65_535]);
    let mut long = vec![0u16; 467_856];
    for (name, drawing, largest) in [("full square at 200 nm", &square, 200), ("full square at 65,535 nm", &square, 65_535)] {
        let before = calls.fracture(drawing, 25, 40, &mut table, &mut list).numbers[0];
        let shots = calls.fracture_divided(false, drawing, 25, 40, largest, &mut table, &mut long).numbers[0];
        let took = best(rounds.min(5), || {
            black_box(calls.fracture_divided(false, black_box(drawing), 25, 40, largest, &mut table, &mut long));
        });
        println!("| {name} | {before} | {shots} | {took:.0} |");
    }
    println!("load after {}", load());
}
