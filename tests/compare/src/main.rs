//! The comparison that the gate runs: the proved library, through its C interface, and the C++
//! baselines against the scope in plain Rust (`law`), answer by answer and buffer by buffer.
//!
//!     compare [--outlines N] [--jobs N] [--seed S] [--threads T] [--record FILE] [--without-library]
//!
//! It stops at the first difference and says from which seed it came. `--record` also writes cases
//! with their outcomes for the C program `replay`. Without the library only the baselines are compared.

mod edges;
mod divisions;
mod fractures;
mod gdsii;
mod indexes;
mod jobs;
mod joins;
mod progress;
mod record;
mod room;
mod salvages;
mod same;
mod texts;

use law::Calls;
use progress::Progress;
use std::sync::atomic::{AtomicUsize, Ordering};

/// The library under test, called from every thread.
pub type Library = &'static (dyn Calls + Sync);

/// What to compare, and on how much.
pub struct Plan {
    pub outlines: usize,
    pub jobs: usize,
    pub seed: u64,
    pub threads: usize,
    pub record: Option<String>,
    pub library: Option<Library>,
}

impl Plan {
    /// The turns of a part, 0 to below `total`, shared out among the threads. What a turn compares comes from
    /// its number alone, so that it is the same by however many threads.
    pub fn turns(&self, part: &str, total: usize, progress: &Progress, turn: impl Fn(usize) + Sync) {
        self.turns_with(part, total, progress, || (), |(), n| turn(n));
    }

    /// The same with something that each thread keeps from one turn to the next, as buffers that are lent again.
    pub fn turns_with<K>(
        &self, part: &str, total: usize, progress: &Progress, first: impl Fn() -> K + Sync, turn: impl Fn(&mut K, usize) + Sync,
    ) {
        let next = AtomicUsize::new(0);
        let thread = || {
            let mut kept = first();
            loop {
                let n = next.fetch_add(1, Ordering::Relaxed);
                if n >= total {
                    break;
                }
                turn(&mut kept, n);
                progress.at(part, n, total);
            }
        };
        std::thread::scope(|scope| {
            for _ in 0..self.threads {
                scope.spawn(&thread);
            }
        });
    }
}

fn plan() -> Plan {
    let mut plan = Plan {
        outlines: 60_000,
        jobs: 48_000,
        seed: 1,
        threads: std::thread::available_parallelism().map_or(1, |n| n.get()),
        record: None,
        library: library::library(),
    };
    let mut without = false;
    let mut words = std::env::args().skip(1);
    while let Some(word) = words.next() {
        let mut number = || words.next().and_then(|n| n.parse().ok()).unwrap_or_else(|| panic!("{word} takes a number"));
        match word.as_str() {
            "--outlines" => plan.outlines = number(),
            "--jobs" => plan.jobs = number(),
            "--seed" => plan.seed = number() as u64,
            "--threads" => plan.threads = number(),
            "--record" => plan.record = words.next(),
            "--without-library" => without = true,
            _ => panic!("unknown word {word}"),
        }
    }
    assert!(without || plan.library.is_some(), "the library is not linked (PINAREWHEMI_PACKAGE)");
    if without {
        plan.library = None;
    }
    plan
}

fn main() {
    let plan = plan();
    let progress = Progress::new();
    println!(
        "comparing {} with the scope in plain Rust: seed {}, {} threads",
        if plan.library.is_some() { "the library and the C++ baselines" } else { "the C++ baselines alone" },
        plan.seed,
        plan.threads
    );
    fractures::rows(&plan, &progress);
    fractures::wheel_rows(&plan, &progress);
    fractures::presets(&plan, &progress);
    fractures::every_ring_length(&plan, &progress);
    fractures::every_order(&plan, &progress);
    fractures::every_length(&plan, &progress);
    fractures::every_cutting(&plan, &progress);
    fractures::outlines(&plan, &progress);
    jobs::numbers(&plan, &progress);
    jobs::ring_rows(&plan, &progress);
    jobs::writers(&plan, &progress);
    jobs::limits(&plan, &progress);
    jobs::every_byte(&plan, &progress);
    jobs::damaged(&plan, &progress);
    gdsii::rows(&plan, &progress);
    gdsii::longest(&plan, &progress);
    gdsii::others(&plan, &progress);
    gdsii::elements(&plan, &progress);
    same::rows(&plan, &progress);
    same::figures(&plan, &progress);
    joins::rows(&plan, &progress);
    joins::lists(&plan, &progress);
    edges::rows(&plan, &progress);
    edges::figures(&plan, &progress);
    divisions::rows(&plan, &progress);
    divisions::ranges(&plan, &progress);
    divisions::sides(&plan, &progress);
    divisions::full_square(&plan, &progress);
    divisions::drawings(&plan, &progress);
    texts::rows(&plan, &progress);
    texts::every_byte(&plan, &progress);
    texts::longest(&plan, &progress);
    texts::lists(&plan, &progress);
    indexes::rows(&plan, &progress);
    indexes::histories(&plan, &progress);
    salvages::rows(&plan, &progress);
    salvages::damaged(&plan, &progress);
    if let Some(file) = &plan.record {
        record::write(file, plan.seed, &progress);
    }
    progress.end();
}
