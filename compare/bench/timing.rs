//! The least time of a call. The sides of one line take turns, so that what else the machine does meets all of them.

use std::{hint::black_box, time::Duration};

/// A run takes about so long, or is one call.
const RUN: Duration = Duration::from_millis(2);

/// Every side has one run, and more as long as they do not take too long together.
const MOST_RUNS: u32 = 25;
const ENOUGH: Duration = Duration::from_millis(500);

/// One of the sides: makes so many calls, and tells how long these took.
pub type Side<'a> = Box<dyn FnMut(u64) -> Duration + 'a>;

/// Calls that can follow one another.
pub fn calls<'a, R>(mut call: impl FnMut() -> R + 'a) -> Side<'a> {
    Box::new(move |count| {
        let start = now();
        for _ in 0..count {
            black_box(call());
        }
        now() - start
    })
}

/// Calls that use up what is made for them: making it, and dropping what comes back, takes no part of the time.
pub fn prepared<'a, T, R>(
    mut make: impl FnMut() -> T + 'a,
    mut call: impl FnMut(&mut T) -> R + 'a,
) -> Side<'a> {
    Box::new(move |count| {
        let mut total = Duration::ZERO;
        for _ in 0..count {
            let mut made = make();
            let start = now();
            let answer = black_box(call(&mut made));
            total += now() - start;
            drop((answer, made));
        }
        total
    })
}

/// The processor time that this thread has had, as Linux counts it. What other processes take in between is not in it.
fn now() -> Duration {
    #[repr(C)]
    struct Time {
        seconds: i64,
        nanoseconds: i64,
    }
    extern "C" {
        fn clock_gettime(clock: i32, time: &mut Time) -> i32;
    }
    const OF_THE_THREAD: i32 = 3;
    let mut time = Time {
        seconds: 0,
        nanoseconds: 0,
    };
    // SAFETY: this is the C library's function and its struct on 64-bit Linux, and `time` is lent for writing
    let returned = unsafe { clock_gettime(OF_THE_THREAD, &mut time) };
    assert_eq!(returned, 0, "the processor time of the thread");
    Duration::new(time.seconds as u64, time.nanoseconds as u32)
}

/// The nanoseconds of one call, the least of the runs, of each side.
pub fn least<const N: usize>(mut sides: [Side; N]) -> [f64; N] {
    let first = sides.each_mut().map(first_run);
    let mut least = first.map(|(count, took)| took.as_nanos() as f64 / count as f64);
    let mut spent = first.map(|(_, took)| took);
    for _ in 1..MOST_RUNS {
        for at in 0..N {
            if spent[at] < ENOUGH {
                let count = first[at].0;
                let took = sides[at](count);
                spent[at] += took;
                least[at] = least[at].min(took.as_nanos() as f64 / count as f64);
            }
        }
    }
    least
}

/// How many calls make a run, and the time of the first. The calls that find this out make memory and caches warm.
fn first_run(side: &mut Side) -> (u64, Duration) {
    let mut count = 1;
    loop {
        let took = side(count);
        if took >= RUN || count >= 1 << 24 {
            return (count, took);
        }
        let more = RUN.as_nanos() as u64 / took.as_nanos().max(1) as u64;
        count *= more.clamp(2, 16);
    }
}
