//! The times of two calls that are run in turns: of each the least of many runs, since others on the machine only add.

use crate::clock::used;
use std::sync::atomic::{AtomicUsize, Ordering::Relaxed};
use std::time::Duration;

/// How much is done for a figure.
pub struct Effort {
    /// Runs of each side: so many at least, and more until the three least of both lie together.
    runs: usize,
    most_runs: usize,
    /// A run repeats its call until it takes about this long, so that the clock's grain does not show.
    run_length: Duration,
}

/// For a ratio to the rival.
pub const FULL: Effort = Effort { runs: 15, most_runs: 150, run_length: Duration::from_millis(30) };
/// For figures whose limit is wide.
pub const QUICK: Effort = Effort { runs: 7, most_runs: 30, run_length: Duration::from_millis(8) };

pub struct Times {
    pub ours: Duration,
    pub theirs: Duration,
}

impl Times {
    pub fn ratio(&self) -> f64 {
        self.ours.as_secs_f64() / self.theirs.as_secs_f64()
    }

    pub fn least(self, other: Times) -> Times {
        Times { ours: self.ours.min(other.ours), theirs: self.theirs.min(other.theirs) }
    }
}

fn timed(repeats: u32, call: &mut dyn FnMut() -> u64) -> (Duration, u64) {
    let start = used();
    let mut answer = 0;
    for _ in 0..repeats {
        answer = call();
    }
    ((used() - start) / repeats, answer)
}

/// How often a run repeats its call. The first call, not measured, brings the input to memory.
fn repeats(effort: &Effort, call: &mut dyn FnMut() -> u64) -> u32 {
    timed(1, call);
    let (once, _) = timed(1, call);
    (effort.run_length.as_nanos() / once.as_nanos().max(100)).max(1) as u32
}

/// How many figures were taken, and of how many the runs lay apart.
static FIGURES: AtomicUsize = AtomicUsize::new(0);
static APART: AtomicUsize = AtomicUsize::new(0);

/// Whether the three least times lie within a twentieth: then the least is no accident, and hardly disturbed.
fn settled(times: &[Duration]) -> bool {
    let mut times = times.to_vec();
    times.sort();
    times[2] <= times[0] * 21 / 20
}

/// The least time. Where the median lies more than a quarter above it, something else disturbed the runs.
fn least(mut times: Vec<Duration>) -> Duration {
    times.sort();
    FIGURES.fetch_add(1, Relaxed);
    if times[times.len() / 2] > times[0] * 5 / 4 {
        APART.fetch_add(1, Relaxed);
    }
    times[0]
}

/// Both sides in turns. What they answer is some number of the answer, and has to be the same.
pub fn measure(effort: &Effort, ours: &mut dyn FnMut() -> u64, theirs: &mut dyn FnMut() -> u64) -> Times {
    let our_repeats = repeats(effort, ours);
    let their_repeats = repeats(effort, theirs);
    let mut our_times = Vec::new();
    let mut their_times = Vec::new();
    for run in 1..=effort.most_runs {
        let (time, answer) = timed(our_repeats, ours);
        our_times.push(time);
        let (time, other) = timed(their_repeats, theirs);
        their_times.push(time);
        assert_eq!(answer, other, "the two sides answer differently");
        if run >= effort.runs && settled(&our_times) && settled(&their_times) {
            break;
        }
    }
    Times { ours: least(our_times), theirs: least(their_times) }
}

pub fn shown(time: Duration) -> String {
    let micros = time.as_secs_f64() * 1e6;
    if micros < 1.0 {
        return format!("{:.1} ns", micros * 1e3);
    }
    if micros < 1000.0 {
        return format!("{:.1} µs", micros);
    }
    if micros < 1e6 {
        return format!("{:.2} ms", micros / 1e3);
    }
    format!("{:.2} s", micros / 1e6)
}

/// How steady the runs were.
pub fn steadiness() -> String {
    let (figures, apart) = (FIGURES.load(Relaxed), APART.load(Relaxed));
    format!("In {} of {} times the median of the runs lay more than a quarter above the least.", apart, figures)
}
