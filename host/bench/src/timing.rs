//! Times of many calls at once, round by round.

use std::hint::black_box;
use std::time::{Duration, Instant};

/// Rounds of each row; their times make the spread.
const ROUNDS: usize = 301;

/// A batch is as many calls as last this long, far beyond a timer's tick.
const BATCH: Duration = Duration::from_micros(100);

/// Nanoseconds per call.
#[derive(Clone, Copy, Debug)]
pub struct Spread {
    pub low: f64,
    pub median: f64,
    pub high: f64,
}

impl Spread {
    fn of(mut times: Vec<f64>) -> Self {
        times.sort_by(f64::total_cmp);
        let at = |percent: usize| times[(times.len() - 1) * percent / 100];
        Spread {
            low: at(10),
            median: at(50),
            high: at(90),
        }
    }
}

/// One of the three that are timed in a row: a call with its inputs and a buffer
/// for its results. It gives the length of the result.
pub type Runner<'a> = Box<dyn FnMut() -> u32 + 'a>;

/// Times all three, in their order.
pub fn measure(runners: [Runner<'_>; 3]) -> [Spread; 3] {
    let mut contestants = runners.map(Contestant::new);
    // They take turns, so that a slow moment of the machine strikes them all.
    for _ in 0..ROUNDS {
        for contestant in &mut contestants {
            contestant.run_round();
        }
    }
    contestants.map(|contestant| Spread::of(contestant.times))
}

struct Contestant<'a> {
    runner: Runner<'a>,
    calls: u32,
    times: Vec<f64>,
}

impl<'a> Contestant<'a> {
    /// Finds the size of a batch, and warms up by doing so.
    fn new(runner: Runner<'a>) -> Self {
        let mut contestant = Contestant {
            runner,
            calls: 1,
            times: Vec::with_capacity(ROUNDS),
        };
        while contestant.time_batch() < BATCH {
            contestant.calls *= 2;
        }
        contestant
    }

    fn run_round(&mut self) {
        let time = self.time_batch();
        self.times
            .push(time.as_nanos() as f64 / f64::from(self.calls));
    }

    fn time_batch(&mut self) -> Duration {
        let start = Instant::now();
        for _ in 0..self.calls {
            black_box((self.runner)());
        }
        start.elapsed()
    }
}
