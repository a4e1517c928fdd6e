//! Time: one run, the mean of many, the best of several.
use std::time::{Duration, Instant};

/// How long one measurement lasts at least, so that the clock's own error does not count.
const MEASUREMENT: Duration = Duration::from_millis(5);

/// What some work gave, and how long it took.
pub fn timed<T>(work: impl FnOnce() -> T) -> (T, Duration) {
    let begin = Instant::now();
    let given = work();
    (given, begin.elapsed())
}

/// The mean seconds of a run, over as many runs as fill a measurement. A run says itself how long it took, so that
/// checking what it gave is not counted.
pub fn mean(run: impl FnMut() -> Duration) -> f64 {
    let runs = measurement(run);
    let total: Duration = runs.iter().sum();
    total.as_secs_f64() / runs.len() as f64
}

/// The seconds of the shortest of these runs: where one time is taken off another, since other work on the machine
/// seldom meets all runs. A run is to be long beside the clock's own error.
pub fn shortest(run: impl FnMut() -> Duration) -> f64 {
    let shortest = measurement(run).into_iter().min();
    shortest.unwrap_or_default().as_secs_f64()
}

fn measurement(mut run: impl FnMut() -> Duration) -> Vec<Duration> {
    let mut total = Duration::ZERO;
    let mut runs = Vec::new();
    while total < MEASUREMENT {
        let time = run();
        total += time;
        runs.push(time);
    }
    runs
}

/// Something that is measured again and again: each time it says how many seconds it took.
pub type Contender<'a> = Box<dyn FnMut() -> f64 + 'a>;

/// The least seconds of each contender. All of them take turns in every round, so that other work on the machine meets
/// all of them, and hardly one of them in all of its rounds.
pub fn best(rounds: usize, mut contenders: Vec<Contender>) -> Vec<f64> {
    let mut least = vec![f64::INFINITY; contenders.len()];
    for _ in 0..rounds {
        for (seconds, contender) in least.iter_mut().zip(&mut contenders) {
            *seconds = seconds.min(contender());
        }
    }
    least
}
