//! The time of a call on the library and in Rust, measured in turn.

use std::array::from_fn;
use std::hint::black_box;
use std::time::{Duration, Instant};

use crate::table::Call;

/// How long a batch of calls takes at least.
const BATCH: Duration = Duration::from_micros(100);

/// How long a row is measured, and the fewest and most turns in it. In a turn
/// each side has a batch.
const ROW: Duration = Duration::from_secs(2);
const FEWEST: usize = 24;
const MOST: usize = 4_000;

/// Nanoseconds of a call on each side, and for each side the median, over the
/// turns, of the library's time divided by the side's.
pub struct Times<const N: usize> {
    pub sides: [f64; N],
    pub medians: [f64; N],
}

/// Measures the sides in batches, each turn in another order, so that what else
/// the machine does hits all alike. Where the stack begins is changed from turn to
/// turn, since the time of a copy depends on it: the time of a call is the mean
/// over these places of the quickest batch at each.
pub fn times<I, const N: usize>(inputs: &mut I, calls: [Call<I>; N]) -> Times<N> {
    let places = places::<I>();
    let batches = calls.map(|call| calls_in_batch(inputs, call));
    let begin = Instant::now();
    let mut quickest = [[f64::INFINITY; N]; PLACES];
    let mut turns: Vec<[f64; N]> = Vec::new();
    while turns.len() < FEWEST || (turns.len() < MOST && begin.elapsed() < ROW) {
        let place = turns.len() % PLACES;
        let mut turn = [0.0; N];
        for side in order::<N>(turns.len() / PLACES) {
            turn[side] = places[place](inputs, calls[side], batches[side]);
            quickest[place][side] = turn[side].min(quickest[place][side]);
        }
        turns.push(turn);
    }
    let mean = |side: usize| quickest.iter().map(|sides| sides[side]).sum::<f64>();
    Times {
        sides: from_fn(|side| mean(side) / PLACES as f64),
        medians: from_fn(|side| median(turns.iter().map(|turn| turn[0] / turn[side]))),
    }
}

/// The order in which the sides have their batches: each side begins in turn, and
/// the others follow it upwards or downwards.
fn order<const N: usize>(turn: usize) -> [usize; N] {
    let begin = turn / 2 % N;
    from_fn(|place| (begin + if turn % 2 == 0 { place } else { N - 1 - place }) % N)
}

/// The median of some numbers.
fn median(numbers: impl Iterator<Item = f64>) -> f64 {
    let mut numbers: Vec<f64> = numbers.collect();
    numbers.sort_by(f64::total_cmp);
    numbers[numbers.len() / 2]
}

/// How many calls fill a batch.
fn calls_in_batch<I>(inputs: &mut I, call: Call<I>) -> u32 {
    let mut calls = 1;
    while batch(inputs, call, calls) * f64::from(calls) < BATCH.as_nanos() as f64 {
        calls *= 2;
    }
    calls
}

/// How many places of the stack the batches have.
const PLACES: usize = 4;

/// A batch at some place of the stack.
type Batch<I> = fn(&mut I, Call<I>, u32) -> f64;

/// Nanoseconds of a call in a batch, at four places of the stack within a line
/// of the cache.
fn places<I>() -> [Batch<I>; PLACES] {
    [below::<I, 16>, below::<I, 32>, below::<I, 48>, below::<I, 64>]
}

/// A batch below so many more bytes of the stack.
#[inline(never)]
fn below<I, const BYTES: usize>(inputs: &mut I, call: Call<I>, calls: u32) -> f64 {
    let mut above = [0u8; BYTES];
    black_box(&mut above);
    batch(inputs, call, calls)
}

/// Nanoseconds of a call in a batch.
#[inline(never)]
fn batch<I>(inputs: &mut I, call: Call<I>, calls: u32) -> f64 {
    let begin = Instant::now();
    for _ in 0..calls {
        call(inputs);
    }
    begin.elapsed().as_nanos() as f64 / f64::from(calls)
}
