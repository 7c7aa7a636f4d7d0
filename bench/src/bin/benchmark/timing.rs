//! Samples of several contestants, taken in turn.

use std::time::{Duration, Instant};

pub const SAMPLES: usize = 31;
const SAMPLE_TIME: Duration = Duration::from_millis(20);

/// A contestant goes once through its pool of cases at each call.
pub type Contestant<'a> = Box<dyn FnMut() + 'a>;

/// One contestant's samples, in nanoseconds per case and in the order in which they were taken.
#[derive(Default)]
pub struct Measured {
    samples: Vec<f64>,
}

impl Measured {
    pub fn median(&self) -> f64 {
        quartile(&self.samples, 2)
    }

    /// The median with the lower and the upper quartile.
    pub fn text(&self) -> String {
        let [lower, median, upper] = [1, 2, 3].map(|which| quartile(&self.samples, which));
        format!("{median:.1} [{lower:.1}, {upper:.1}]")
    }

    /// The median of the ratios of samples that were taken one after the other, which a busy machine disturbs least.
    pub fn ratio_to(&self, other: &Measured) -> f64 {
        let pairs = self.samples.iter().zip(&other.samples);
        quartile(
            &pairs
                .map(|(mine, theirs)| mine / theirs)
                .collect::<Vec<f64>>(),
            2,
        )
    }
}

fn quartile(values: &[f64], which: usize) -> f64 {
    let mut sorted = values.to_vec();
    sorted.sort_by(f64::total_cmp);
    sorted[which * (sorted.len() - 1) / 4]
}

/// Measures the contestants in turn, so that a slower or faster moment of the machine meets all of them alike.
pub fn measure(contestants: &mut [Contestant<'_>], pool_size: usize) -> Vec<Measured> {
    let passes: Vec<u32> = contestants.iter_mut().map(warm_up).collect();
    let mut measured: Vec<Measured> = contestants.iter().map(|_| Measured::default()).collect();
    for round in 0..SAMPLES {
        for turn in 0..contestants.len() {
            let who = (round + turn) % contestants.len();
            let time = time(&mut contestants[who], passes[who]);
            let cases = f64::from(passes[who]) * pool_size as f64;
            measured[who].samples.push(time.as_nanos() as f64 / cases);
        }
    }
    measured
}

/// Runs the contestant for a while and returns the number of passes that take about one sample's time.
fn warm_up(contestant: &mut Contestant<'_>) -> u32 {
    let mut passes = 1;
    while time(contestant, passes) < SAMPLE_TIME {
        passes *= 2;
    }
    let taken = time(contestant, passes);
    let wanted = f64::from(passes) * SAMPLE_TIME.as_secs_f64() / taken.as_secs_f64();
    (wanted.round() as u32).max(1)
}

fn time(contestant: &mut Contestant<'_>, passes: u32) -> Duration {
    let start = Instant::now();
    for _ in 0..passes {
        contestant();
    }
    start.elapsed()
}
