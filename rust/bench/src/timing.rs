//! The time of one call: the best mean of many short batches, of which some run while nothing else
//! takes the processor.

use std::hint::black_box;
use std::time::{Duration, Instant};

const BATCHES: usize = 1_000;
const BATCH_TIME: Duration = Duration::from_millis(1);

pub fn time_of<Answer>(mut call: impl FnMut() -> Answer) -> Duration {
    let mut best = Duration::MAX;
    for _ in 0..BATCHES {
        let start = Instant::now();
        let mut calls = 0;
        while start.elapsed() < BATCH_TIME {
            black_box(call());
            calls += 1;
        }
        best = best.min(start.elapsed() / calls);
    }
    best
}
