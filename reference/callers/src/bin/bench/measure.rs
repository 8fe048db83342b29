//! Two ways to do one thing, measured in turn, so that a busy machine slows both; or one alone.

use std::time::Instant;

/// A batch takes about so long, in nanoseconds: much longer than it takes to read the clock.
const BATCH: f64 = 200_000.0;

/// All batches of the slower take about so long, unless they are already fewest or most.
const ALL_BATCHES: f64 = 1e9;
const FEWEST: usize = 11;
const MOST: usize = 201;

/// The median of one call.
#[derive(Clone, Copy)]
pub struct Nanoseconds {
    pub library: f64,
    pub tuned: f64,
}

pub fn in_turn(
    buffer: &mut [u8],
    library: impl Fn(&mut [u8]),
    tuned: impl Fn(&mut [u8]),
) -> Nanoseconds {
    let one_call = [batch(buffer, 1, &library), batch(buffer, 1, &tuned)];
    let [library_calls, tuned_calls] = one_call.map(calls);
    let (mut of_library, mut of_tuned) = (Vec::new(), Vec::new());
    for _ in 0..batches(one_call) {
        of_library.push(batch(buffer, library_calls, &library));
        of_tuned.push(batch(buffer, tuned_calls, &tuned));
    }
    Nanoseconds {
        library: median(of_library),
        tuned: median(of_tuned),
    }
}

/// The median of one call of what has no other way beside it.
pub fn alone(call: impl Fn()) -> f64 {
    let call = |_: &mut [u8]| call();
    let one_call = batch(&mut [], 1, &call);
    let batches = 0..batches([one_call; 2]);
    let each = batches.map(|_| batch(&mut [], calls(one_call), &call));
    median(each.collect())
}

fn calls(of_one: f64) -> usize {
    (BATCH / of_one).ceil() as usize
}

fn batches([library, tuned]: [f64; 2]) -> usize {
    let slower = library.max(tuned).max(BATCH);
    ((ALL_BATCHES / slower) as usize).clamp(FEWEST, MOST)
}

/// The nanoseconds of a call. Clearing the buffer is not counted.
fn batch(buffer: &mut [u8], calls: usize, call: &impl Fn(&mut [u8])) -> f64 {
    buffer.fill(0);
    let begin = Instant::now();
    for _ in 0..calls {
        call(buffer);
    }
    begin.elapsed().as_nanos() as f64 / calls as f64
}

pub fn median(mut numbers: Vec<f64>) -> f64 {
    numbers.sort_by(f64::total_cmp);
    numbers[numbers.len() / 2]
}
