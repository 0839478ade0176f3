//! Timing two ways of doing the same work.
//!
//! A round times the one and right behind it the other, in the same process and on the same
//! input: the library and the fast implementation, or two calls of the library. Times are
//! medians over the rounds, and so is the ratio, which is taken within each round. Both are
//! called once before the first round, so that their pages are mapped. Each has an output of
//! its own, which is not cleared between calls; what a call clears or allocates is part of
//! its time.

use std::fmt::Debug;
use std::hint::black_box;

/// The rounds of each measurement, an odd number.
pub const ROUNDS: usize = 31;

/// The clock of the processor time of the calling thread, in which other work on the
/// machine has no part.
const THREAD_CPU_TIME: i32 = 3;

/// A time of the C library.
#[repr(C)]
struct Timespec {
    seconds: i64,
    nanoseconds: i64,
}

extern "C" {
    fn clock_gettime(clock: i32, time: *mut Timespec) -> i32;
}

/// How much a round does: the calls of each of the two, and the units of work of one call, by
/// which times are divided.
#[derive(Clone, Copy)]
pub struct Effort {
    pub calls: usize,
    pub units: usize,
}

/// Nanoseconds a unit of the first and of the second of two, and the first's divided by the
/// second's.
pub struct Figures {
    pub first: f64,
    pub second: f64,
    pub ratio: f64,
}

/// Times two ways of doing the same work, whose answers must be the same.
pub fn compare<R: PartialEq + Debug>(
    effort: Effort,
    mut first: impl FnMut() -> R,
    mut second: impl FnMut() -> R,
) -> Figures {
    assert_eq!(first(), second());
    let rounds = [(); ROUNDS].map(|()| [time(effort, &mut first), time(effort, &mut second)]);
    Figures {
        first: median(rounds.map(|[first, _]| first)),
        second: median(rounds.map(|[_, second]| second)),
        ratio: median(rounds.map(|[first, second]| first / second)),
    }
}

/// Gives the nanoseconds a unit of the calls of one of the two in a round.
fn time<R>(Effort { calls, units }: Effort, call: &mut impl FnMut() -> R) -> f64 {
    let start = now();
    for _ in 0..calls {
        black_box(call());
    }
    (now() - start) as f64 / (calls * units) as f64
}

/// Gives the processor time of this thread in nanoseconds.
fn now() -> i64 {
    let mut time = Timespec {
        seconds: 0,
        nanoseconds: 0,
    };
    // SAFETY: the pointer is to a time that is lent to the call alone.
    let failed = unsafe { clock_gettime(THREAD_CPU_TIME, &mut time) };
    assert_eq!(failed, 0, "the thread has a clock");
    time.seconds * 1_000_000_000 + time.nanoseconds
}

/// Gives the middle one of the rounds' figures.
fn median(mut figures: [f64; ROUNDS]) -> f64 {
    figures.sort_by(f64::total_cmp);
    figures[ROUNDS / 2]
}
