//! Samples of calls taken in turn, and what several runs of them come to.

use std::fmt;
use std::hint::black_box;
use std::time::{Duration, Instant};

/// How long one sample takes at least, how many a run takes at most, and how many runs there are.
#[derive(Clone, Copy)]
pub struct Effort {
    pub sample: Duration,
    pub samples: usize,
    pub runs: usize,
}

impl Effort {
    /// The calls of a sample, and the samples of a run, where a call takes so long: fewer samples where
    /// it is longer than a sample need be, but no less than a quarter.
    fn shared(self, call: f64) -> (u32, usize) {
        let calls = self.sample.as_secs_f64() / call;
        let samples = (self.samples as f64 * calls) as usize;
        (calls.clamp(1.0, 1e7) as u32, samples.clamp(self.samples / 4, self.samples))
    }
}

/// The seconds of one call in one run: rattle (the proved library, where it was linked), plain (the
/// reference) and tuned, where there is one.
#[derive(Clone, Copy)]
pub struct Times {
    pub rattle: Option<f64>,
    pub plain: f64,
    pub tuned: Option<f64>,
}

/// One row's times, run by run.
#[derive(Default)]
pub struct Runs(Vec<Times>);

impl Runs {
    pub fn add(&mut self, times: Times) {
        self.0.push(times);
    }

    /// The median over the runs of a number made of one run's times, where there is one.
    fn median(&self, of: impl Fn(&Times) -> Option<f64>) -> Option<f64> {
        let mut numbers: Vec<f64> = self.0.iter().filter_map(of).collect();
        numbers.sort_by(f64::total_cmp);
        numbers.get(numbers.len() / 2).copied()
    }

    pub fn rattle(&self) -> Option<f64> {
        self.median(|times| times.rattle)
    }

    pub fn plain(&self) -> Option<f64> {
        self.median(|times| Some(times.plain))
    }

    pub fn tuned(&self) -> Option<f64> {
        self.median(|times| times.tuned)
    }
}

/// The heads of the columns that `Runs` prints.
pub const COLUMNS: &str = "   rattle     plain     tuned r/plain  r/tuned";

impl fmt::Display for Runs {
    fn fmt(&self, f: &mut fmt::Formatter<'_>) -> fmt::Result {
        for time in [self.rattle(), self.plain(), self.tuned()] {
            write!(f, "{:>9} ", time.map_or("-".to_string(), seconds))?;
        }
        let by_plain = self.median(|times| Some(times.rattle? / times.plain));
        let by_tuned = self.median(|times| Some(times.rattle? / times.tuned?));
        write!(f, "{:>7} {:>8}", ratio(by_plain), ratio(by_tuned))
    }
}

/// A ratio or a power.
pub fn ratio(number: Option<f64>) -> String {
    number.map_or("-".to_string(), |number| format!("{number:.2}"))
}

fn seconds(time: f64) -> String {
    match time {
        t if t < 1e-6 => format!("{:.0} ns", t * 1e9),
        t if t < 1e-3 => format!("{:.2} us", t * 1e6),
        t => format!("{:.3} ms", t * 1e3),
    }
}

/// The seconds of one of so many calls.
pub fn sample<T>(calls: u32, call: &mut impl FnMut() -> T) -> f64 {
    let begin = Instant::now();
    for _ in 0..calls {
        black_box(call());
    }
    begin.elapsed().as_secs_f64() / f64::from(calls)
}

/// One run: samples the calls in turn and takes the best of each.
pub fn compare<A, B, C>(
    effort: Effort,
    mut rattle: impl FnMut() -> A,
    mut plain: impl FnMut() -> B,
    mut tuned: Option<impl FnMut() -> C>,
) -> Times {
    let (calls, samples) = effort.shared(sample(1, &mut plain).max(1e-9));
    let mut best = Times {
        rattle: guard::LINKED.then_some(f64::MAX),
        plain: f64::MAX,
        tuned: tuned.is_some().then_some(f64::MAX),
    };
    for _ in 0..samples {
        if let Some(time) = &mut best.rattle {
            *time = time.min(sample(calls, &mut rattle));
        }
        best.plain = best.plain.min(sample(calls, &mut plain));
        if let (Some(time), Some(tuned)) = (&mut best.tuned, &mut tuned) {
            *time = time.min(sample(calls, tuned));
        }
    }
    best
}
