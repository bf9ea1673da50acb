//! Two functions timed in turn, in batches, by the processor time of their thread: other programs' time is not in it.
use crate::library::Lent;
use std::{fmt, time::Duration};

#[repr(C)]
struct Timespec {
    seconds: i64,
    nanoseconds: i64,
}

extern "C" {
    fn clock_gettime(clock: i32, time: *mut Timespec) -> i32;
}

const CLOCK_THREAD_CPUTIME_ID: i32 = 3;

/// The processor time that this thread has taken.
fn now() -> Duration {
    let mut time = Timespec { seconds: 0, nanoseconds: 0 };
    // SAFETY: the time is this function's own.
    let failed = unsafe { clock_gettime(CLOCK_THREAD_CPUTIME_ID, &mut time) };
    assert_eq!(failed, 0, "the thread has no clock");
    Duration::new(time.seconds as u64, time.nanoseconds as u32)
}

/// How long to measure.
#[derive(Clone, Copy)]
pub struct Effort {
    /// Batches of each side.
    pub batches: usize,
    /// A batch repeats a function until it takes about this long.
    pub batch: Duration,
    /// No further batch is begun after this.
    pub enough: Duration,
}

/// Nanoseconds for one run in the fastest batch, which other work on the machine slowed down least.
#[derive(Clone, Copy)]
pub struct Times {
    pub fastest: f64,
    slowest: f64,
    batches: usize,
}

impl Times {
    fn of(samples: &[f64]) -> Self {
        let fastest = samples.iter().copied().fold(f64::MAX, f64::min);
        let slowest = samples.iter().copied().fold(0.0, f64::max);
        Times { fastest, slowest, batches: samples.len() }
    }

    /// How many batches there are, and how far the slowest lies above the fastest, in percent.
    pub fn spread(&self) -> String {
        let percent = 100.0 * (self.slowest - self.fastest) / self.fastest;
        format!("{}, {percent:.0}%", self.batches)
    }
}

impl fmt::Display for Times {
    fn fmt(&self, f: &mut fmt::Formatter) -> fmt::Result {
        f.write_str(&grouped(self.fastest.round() as usize))
    }
}

/// A number's digits in groups of three.
pub fn grouped(n: usize) -> String {
    let digits = n.to_string();
    let groups: Vec<&str> =
        digits.as_bytes().rchunks(3).rev().map(|group| std::str::from_utf8(group).unwrap()).collect();
    groups.join(",")
}

/// What is timed. It is handed the memory that is lent.
pub type Run<'a> = Box<dyn FnMut(&mut Lent) + 'a>;

struct Side<'a> {
    run: Run<'a>,
    /// How many runs make a batch; 0 before the first.
    repeat: u32,
    samples: Vec<f64>,
    spent: Duration,
}

impl<'a> Side<'a> {
    fn new(run: Run<'a>) -> Self {
        Side { run, repeat: 0, samples: Vec::new(), spent: Duration::ZERO }
    }

    fn timed(&mut self, runs: u32, lent: &mut Lent) -> Duration {
        let start = now();
        for _ in 0..runs {
            (self.run)(lent);
        }
        let elapsed = now() - start;
        self.spent += elapsed;
        elapsed
    }

    /// The first run decides how many make a batch. It is a batch itself if it is long enough.
    fn first(&mut self, effort: &Effort, lent: &mut Lent) {
        let elapsed = self.timed(1, lent);
        self.repeat = (effort.batch.as_nanos() / elapsed.as_nanos().max(1) + 1) as u32;
        if self.repeat == 1 {
            self.samples.push(elapsed.as_nanos() as f64);
        }
    }

    /// A batch, if one is due. Before a batch of several runs stands one that is not counted, so that the caches hold what they need.
    fn next(&mut self, effort: &Effort, lent: &mut Lent) {
        if self.repeat == 0 {
            self.first(effort, lent);
        }
        let enough = !self.samples.is_empty() && self.spent >= effort.enough;
        if enough || self.samples.len() == effort.batches {
            return;
        }
        if self.repeat > 1 {
            self.timed(1, lent);
        }
        let elapsed = self.timed(self.repeat, lent);
        self.samples.push(elapsed.as_nanos() as f64 / self.repeat as f64);
    }
}

/// The Rust's part in an answer and Skriduhol's.
pub struct Pair<'a> {
    rust: Side<'a>,
    ours: Side<'a>,
}

impl<'a> Pair<'a> {
    pub fn new(rust: Run<'a>, ours: Run<'a>) -> Self {
        Pair { rust: Side::new(rust), ours: Side::new(ours) }
    }

    pub fn times(&self) -> (Times, Times) {
        (Times::of(&self.rust.samples), Times::of(&self.ours.samples))
    }
}

/// Times the pairs in rounds, a batch of each side of each in every round, so that a slow spell of the machine falls on all alike.
pub fn in_rounds(effort: &Effort, pairs: &mut [Pair], lent: &mut Lent) {
    for _ in 0..effort.batches {
        for pair in &mut *pairs {
            pair.rust.next(effort, lent);
            pair.ours.next(effort, lent);
        }
    }
}
