//! Medians of two things, measured in turn.
use std::time::{Duration, Instant};

/// How often both are measured at most and at least, and for how long where that is often enough.
const MOST: usize = 301;
const LEAST: usize = 9;
const LONG: Duration = Duration::from_millis(1_500);

/// Medians of the library and of plain Rust.
#[derive(Clone, Copy)]
pub struct Times {
    pub library: Duration,
    pub plain: Duration,
}

impl Times {
    pub fn ratio(&self) -> f64 {
        self.library.as_secs_f64() / self.plain.as_secs_f64()
    }
}

fn once(call: &mut dyn FnMut()) -> Duration {
    let start = Instant::now();
    call();
    start.elapsed()
}

fn median(mut times: Vec<Duration>) -> Duration {
    times.sort_unstable();
    times[times.len() / 2]
}

/// Calls both in turn, after once for warming up.
pub fn in_turn(mut library: impl FnMut(), mut plain: impl FnMut()) -> Times {
    library();
    plain();
    let start = Instant::now();
    let (mut ours, mut theirs) = (Vec::new(), Vec::new());
    while ours.len() < LEAST || (ours.len() < MOST && start.elapsed() < LONG) {
        ours.push(once(&mut library));
        theirs.push(once(&mut plain));
    }
    Times { library: median(ours), plain: median(theirs) }
}
