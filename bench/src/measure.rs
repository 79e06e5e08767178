//! Times of repeated calls, in rounds in which the sides take turns. It is the processor's time for this thread, so
//! that what else runs on the machine is not counted. Where on the stack a state lies makes a difference to copies of
//! it, up to 40 in a hundred, and a program does not choose it: so each round starts at another place of a page.

use std::ffi::{c_int, c_long};
use std::hint::black_box;

/// C's `struct timespec`.
#[repr(C)]
#[derive(Default)]
struct Time {
    seconds: c_long,
    nanoseconds: c_long,
}

extern "C" {
    fn clock_gettime(clock: c_int, time: *mut Time) -> c_int;
}

/// Linux's CLOCK_THREAD_CPUTIME_ID.
const THREAD_TIME: c_int = 3;

/// The processor's time for this thread so far, in nanoseconds.
fn now() -> f64 {
    let mut time = Time::default();
    let failed = unsafe { clock_gettime(THREAD_TIME, &mut time) };
    assert!(failed == 0, "there is no clock for a thread's time");
    time.seconds as f64 * 1e9 + time.nanoseconds as f64
}

/// One side of a row: repeats its call so many times and gives the sum of the answers.
pub type Run<'a> = Box<dyn FnMut(u32) -> u64 + 'a>;

/// How the rounds are made.
#[derive(Clone, Copy)]
pub struct Rounds {
    /// Their number: each goes one call deeper. Fifty steps of eighty bytes go through a page and all its alignments.
    pub count: usize,
    /// How long the calls of one side go on in a round, in nanoseconds.
    pub span: f64,
}

/// What one call takes on a side, in nanoseconds: in the middle one of the rounds, and in the shortest.
#[derive(Clone, Copy)]
pub struct Taken {
    pub middle: f64,
    pub least: f64,
}

/// Nanoseconds and the sum of one run.
fn timed(run: &mut Run, times: u32) -> (f64, u64) {
    let start = now();
    let sum = run(times);
    (now() - start, sum)
}

/// The same, so many calls deeper in the stack.
#[inline(never)]
fn timed_at(depth: usize, run: &mut Run, times: u32) -> (f64, u64) {
    let room = black_box([0u8; 48]);
    let taken = if depth == 0 { timed(run, times) } else { timed_at(depth - 1, run, times) };
    black_box(&room);
    taken
}

/// By how many bytes a call deeper changes the place of what is timed.
pub fn step() -> u64 {
    let mut place: Run = Box::new(|_| {
        let here = 0u8;
        black_box(&here) as *const u8 as u64
    });
    timed_at(0, &mut place, 0).1 - timed_at(1, &mut place, 0).1
}

/// The least time of some runs.
fn least(run: &mut Run, times: u32) -> f64 {
    (0..5).map(|_| timed(run, times).0).fold(f64::INFINITY, f64::min)
}

/// How many times the call is repeated so that a run lasts the span: twice as often until it lasts a tenth of it.
fn times_for(run: &mut Run, span: f64) -> u32 {
    let before = least(run, 0);
    let mut times = 1;
    loop {
        let lasted = least(run, times) - before;
        if lasted >= span / 10.0 || times >= 1 << 28 {
            return (f64::from(times) * span / lasted.max(span / 20.0)).max(1.0) as u32;
        }
        times *= 2;
    }
}

/// What a call takes on each side, where a run of one time makes `each` calls. What a side does before its calls is
/// timed by itself, and the least of that is taken off. The sums of all sides are compared in each round.
pub fn compare(name: &str, rounds: Rounds, each: usize, sides: &mut [Run]) -> Vec<Taken> {
    let times = sides.iter_mut().map(|run| times_for(run, rounds.span)).min().unwrap_or(1);
    let mut before = vec![f64::INFINITY; sides.len()];
    let mut lasted = vec![Vec::new(); sides.len()];
    for depth in 0..rounds.count {
        let mut sums = Vec::new();
        for ((run, before), lasted) in sides.iter_mut().zip(&mut before).zip(&mut lasted) {
            *before = before.min(timed_at(depth, run, 0).0);
            let (ns, sum) = timed_at(depth, run, times);
            lasted.push(ns);
            sums.push(sum);
        }
        assert!(sums.iter().all(|sum| *sum == sums[0]), "{name}: the sides answer differently: {sums:x?}");
    }
    let calls = f64::from(times) * each as f64;
    lasted.into_iter().zip(before).map(|(rounds, before)| taken_in(rounds, before, calls)).collect()
}

fn taken_in(mut rounds: Vec<f64>, before: f64, calls: f64) -> Taken {
    rounds.sort_by(f64::total_cmp);
    Taken { middle: (rounds[rounds.len() / 2] - before) / calls, least: (rounds[0] - before) / calls }
}
