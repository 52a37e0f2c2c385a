//! Times of the processor, the best of several turns.

use std::hint::black_box;
use std::time::Duration;

use compare::builds::call_copy;

/// The declaration of the C library's clocks on x86-64 Linux.
mod c {
    /// The clock of the processor time that a thread has taken.
    pub const THREAD: i32 = 3;

    #[repr(C)]
    pub struct Time {
        pub seconds: i64,
        pub nanoseconds: i64,
    }

    extern "C" {
        pub fn clock_gettime(clock: i32, time: *mut Time) -> i32;
    }
}

/// The processor time that this thread has taken.
fn taken() -> Duration {
    let mut time = c::Time {
        seconds: 0,
        nanoseconds: 0,
    };
    // SAFETY: the pointer is that of a time as C has it, which the function sets.
    let answer = unsafe { c::clock_gettime(c::THREAD, &mut time) };
    assert_eq!(answer, 0, "the thread's clock");
    Duration::new(time.seconds as u64, time.nanoseconds as u32)
}

/// What a function answers, and the processor time that it takes, in which other
/// programs have no part. Reading the clock takes part of a microsecond.
pub fn worked<T>(run: impl FnOnce() -> T) -> (T, Duration) {
    let start = taken();
    let answer = black_box(run());
    (answer, taken() - start)
}

/// The best time of each contender over so many turns. In every other turn they come in
/// the reverse order, so that none always follows the same one; after two turns the next
/// copy of each build is called, so that no place of its machine code tells.
pub fn best<T: Copy>(
    turns: usize,
    contenders: &[T],
    mut run: impl FnMut(T) -> Duration,
) -> Vec<Duration> {
    let mut best = vec![Duration::MAX; contenders.len()];
    for turn in 0..turns {
        call_copy(turn / 2);
        for place in 0..contenders.len() {
            let who = match turn % 2 {
                0 => place,
                _ => contenders.len() - 1 - place,
            };
            best[who] = best[who].min(run(contenders[who]));
        }
    }
    best
}

/// Nanoseconds for each of so many.
pub fn nanoseconds(times: &[Duration], count: usize) -> Vec<f64> {
    let each = |time: &Duration| time.as_secs_f64() * 1e9 / count as f64;
    times.iter().map(each).collect()
}

/// Microseconds for each of so many.
pub fn microseconds(times: &[Duration], count: usize) -> Vec<f64> {
    nanoseconds(times, 1000 * count)
}
