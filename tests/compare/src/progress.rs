//! What has been compared so far: a line for each part as it ends, and one in between every few
//! seconds; the sum at the end. And what the calls of a part answered, by number.

use std::fmt;
use std::sync::atomic::{AtomicU64, AtomicUsize, Ordering};
use std::sync::Mutex;
use std::time::{Duration, Instant};

pub struct Progress {
    start: Instant,
    last: Mutex<Instant>,
    comparisons: AtomicU64,
    parts: Mutex<Vec<String>>,
}

impl Progress {
    pub fn new() -> Progress {
        let now = Instant::now();
        Progress { start: now, last: Mutex::new(now), comparisons: AtomicU64::new(0), parts: Mutex::new(Vec::new()) }
    }

    /// One answer, with its lent memory, was the same.
    pub fn same(&self) {
        self.comparisons.fetch_add(1, Ordering::Relaxed);
    }

    pub fn same_many(&self, count: u64) {
        self.comparisons.fetch_add(count, Ordering::Relaxed);
    }

    /// Says how far a part is, at most every five seconds.
    pub fn at(&self, part: &str, done: usize, of: usize) {
        let mut last = self.last.lock().unwrap();
        if last.elapsed() > Duration::from_secs(5) {
            *last = Instant::now();
            println!("  .. {part}: {done} of {of} ({:.0} s)", self.start.elapsed().as_secs_f64());
        }
    }

    /// A part is done.
    pub fn done(&self, part: String) {
        println!("  {part} ({:.1} s)", self.start.elapsed().as_secs_f64());
        self.parts.lock().unwrap().push(part);
    }

    pub fn end(&self) {
        println!(
            "compared {} answers in {} parts, all the same ({:.0} s)",
            self.comparisons.load(Ordering::Relaxed),
            self.parts.lock().unwrap().len(),
            self.start.elapsed().as_secs_f64()
        );
    }
}

/// How many calls answered each number, counted by every thread.
pub struct Tally([AtomicUsize; 24]);

impl Tally {
    pub fn new() -> Tally {
        Tally(std::array::from_fn(|_| AtomicUsize::new(0)))
    }

    /// A call answered this number.
    pub fn told(&self, number: u32) {
        self.0[number as usize].fetch_add(1, Ordering::Relaxed);
    }

    pub fn of(&self, number: usize) -> usize {
        self.0[number].load(Ordering::Relaxed)
    }

    pub fn sum(&self) -> usize {
        (0..self.0.len()).map(|number| self.of(number)).sum()
    }

    /// Each of these numbers was answered, if enough was asked: a part that never sees a refusal compares nothing of it.
    pub fn all_shown(&self, numbers: &[usize], enough: bool) {
        for &number in numbers {
            assert!(!enough || self.of(number) > 0, "no call answered {number}; answers by number {self}");
        }
    }
}

/// The numbers that were answered, each with its count.
impl fmt::Display for Tally {
    fn fmt(&self, f: &mut fmt::Formatter) -> fmt::Result {
        let shown = (0..self.0.len()).map(|number| (number, self.of(number))).filter(|(_, count)| *count > 0);
        f.write_str(&shown.map(|(number, count)| format!("{number}: {count}")).collect::<Vec<_>>().join(", "))
    }
}
