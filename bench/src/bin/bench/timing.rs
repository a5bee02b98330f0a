//! The best of many rounds, by the clock or on the processor, and the rows of a table.

use std::fs;
use std::sync::LazyLock;
use std::thread;
use std::time::{Duration, Instant};

static START: LazyLock<Instant> = LazyLock::new(Instant::now);

/// By the clock, or on the processor: for work that takes longer than the system lets a program run without a pause.
#[derive(Clone, Copy)]
pub enum Clock {
    Wall,
    Processor,
}

impl Clock {
    pub fn time<T>(self, best: &mut Duration, work: impl FnOnce() -> T) -> T {
        let start = self.now();
        let result = work();
        *best = (self.now() - start).min(*best);
        result
    }

    fn now(self) -> Duration {
        match self {
            Clock::Wall => START.elapsed(),
            Clock::Processor => on_processor(),
        }
    }
}

/// The first number of Linux's `schedstat`, in nanoseconds; to yield brings it up to date.
fn on_processor() -> Duration {
    thread::yield_now();
    let told = fs::read_to_string("/proc/thread-self/schedstat").unwrap_or_default();
    let first = told.split_whitespace().next();
    let nanos = first.and_then(|number| number.parse().ok());
    Duration::from_nanos(nanos.expect("the time on the processor"))
}

pub fn timed<T>(best: &mut Duration, work: impl FnOnce() -> T) -> T {
    Clock::Wall.time(best, work)
}

/// Best times of the library and of plain Rust.
#[derive(Clone, Copy)]
pub struct Pair(pub [Duration; 2]);

impl Pair {
    /// Both in turn, so many rounds.
    pub fn of<T>(
        rounds: usize,
        clock: Clock,
        mut library: impl FnMut() -> T,
        mut plain: impl FnMut() -> T,
    ) -> Pair {
        let mut best = [Duration::MAX; 2];
        for _ in 0..rounds {
            clock.time(&mut best[0], &mut library);
            clock.time(&mut best[1], &mut plain);
        }
        Pair(best)
    }

    pub fn ratio(&self) -> f64 {
        self.0[0].as_secs_f64() / self.0[1].as_secs_f64()
    }

    /// A row of the table: microseconds.
    pub fn report(&self, name: &str) -> f64 {
        self.row(name, 1e6, "us")
    }

    /// A row of the table: nanoseconds for one of so many.
    pub fn report_each(&self, name: &str, count: usize) -> f64 {
        self.row(name, 1e9 / count as f64, "ns")
    }

    fn row(&self, name: &str, scale: f64, unit: &str) -> f64 {
        let [library, plain] = self.0.map(|time| time.as_secs_f64() * scale);
        let ratio = self.ratio();
        println!("| {name} | {library:.0} {unit} | {plain:.0} {unit} | {ratio:.2} |");
        ratio
    }
}

/// A row of the table without a rival.
pub fn report_alone(name: &str, time: f64, unit: &str) {
    println!("| {name} | {time:.0} {unit} | | |");
}

pub fn micros(time: Duration) -> f64 {
    time.as_secs_f64() * 1e6
}

pub fn nanos(time: Duration) -> f64 {
    time.as_secs_f64() * 1e9
}
