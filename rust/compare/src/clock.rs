//! Processor time: how long a call takes, whatever else runs on the machine.

use std::time::Duration;

/// How a time is taken: the shortest of so many rounds, each of about a length.
#[derive(Clone, Copy)]
pub struct Rounds {
    pub number: usize,
    pub length: Duration,
}

/// A few long rounds, for times.
const LONG: Rounds = Rounds { number: 7, length: Duration::from_millis(20) };

/// Many short rounds, for what one call takes more than another.
pub const SHORT: Rounds = Rounds { number: 400, length: Duration::from_millis(2) };

/// The processor's time for this process so far: other work on the machine doesn't count.
fn processor_time() -> Duration {
    #[repr(C)]
    struct TimeSpec {
        seconds: i64,
        nanoseconds: i64,
    }
    unsafe extern "C" {
        fn clock_gettime(clock: i32, time: *mut TimeSpec) -> i32;
    }
    const PROCESS_CLOCK: i32 = 2;
    let mut time = TimeSpec { seconds: 0, nanoseconds: 0 };
    // SAFETY: the C library writes one value of this layout (64-bit Linux) where it is told
    let failed = unsafe { clock_gettime(PROCESS_CLOCK, &raw mut time) };
    assert_eq!(failed, 0, "no clock");
    Duration::new(time.seconds as u64, time.nanoseconds as u32)
}

/// How many calls make a round of a length.
fn calls_in_a_round(call: &mut dyn FnMut(), length: Duration) -> u32 {
    let begin = processor_time();
    call();
    let once = (processor_time() - begin).max(Duration::from_nanos(50));
    (length.as_nanos() / once.as_nanos()).clamp(1, 100_000) as u32
}

/// The shortest time of some rounds of each, taken by turns, in nanoseconds.
pub fn best_of_rounds<const N: usize>(rounds: Rounds, mut all: [&mut dyn FnMut(); N]) -> [f64; N] {
    let calls = all.each_mut().map(|call| calls_in_a_round(*call, rounds.length));
    let mut best = [f64::INFINITY; N];
    for _ in 0..rounds.number {
        for (which, call) in all.iter_mut().enumerate() {
            let begin = processor_time();
            (0..calls[which]).for_each(|_| call());
            let time = (processor_time() - begin).as_nanos() as f64 / f64::from(calls[which]);
            best[which] = best[which].min(time);
        }
    }
    best
}

pub fn best_of<const N: usize>(all: [&mut dyn FnMut(); N]) -> [f64; N] {
    best_of_rounds(LONG, all)
}

pub fn best(mut call: impl FnMut()) -> f64 {
    best_of([&mut call])[0]
}
