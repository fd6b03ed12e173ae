//! Times, and a limit on them.

use std::sync::mpsc::{self, RecvTimeoutError};
use std::thread;
use std::time::Duration;

/// The searches recurse, in the Rust once for each split.
pub const STACK: usize = 64 << 20;

const SHORT: Duration = Duration::from_millis(10);
const LONG: Duration = Duration::from_secs(2);
const SHORT_RUNS_TAKE: Duration = Duration::from_millis(400);
const MOST_RUNS: u128 = 2000;

/// The result of the work, unless it takes longer than the cap.
pub fn capped<T: Send + 'static>(
    cap: Duration,
    work: impl FnOnce() -> T + Send + 'static,
) -> Option<T> {
    let (sender, receiver) = mpsc::channel();
    let run = move || {
        // Nobody listens any more when the cap has passed.
        let _ = sender.send(work());
    };
    let spawned = thread::Builder::new().stack_size(STACK).spawn(run);
    spawned.expect("a thread");
    match receiver.recv_timeout(cap) {
        Ok(result) => Some(result),
        Err(RecvTimeoutError::Timeout) => None,
        Err(RecvTimeoutError::Disconnected) => panic!("the work failed"),
    }
}

/// The median of many short runs, the best of a few longer ones, or the only long one.
pub fn typical_seconds<T>(mut work: impl FnMut() -> T) -> (f64, T) {
    let (first, mut result) = timed(&mut work);
    let short = first < SHORT;
    let runs = match first {
        _ if short => (SHORT_RUNS_TAKE.as_nanos() / first.as_nanos().max(1)).min(MOST_RUNS),
        _ if first < LONG => 5,
        _ => 1,
    };
    let mut times = vec![first];
    for _ in 1..runs {
        let (time, again) = timed(&mut work);
        times.push(time);
        result = again;
    }
    times.sort();
    let chosen = if short {
        times[times.len() / 2]
    } else {
        times[0]
    };
    (chosen.as_secs_f64(), result)
}

fn timed<T>(work: &mut impl FnMut() -> T) -> (Duration, T) {
    let start = processor_time();
    let result = work();
    (processor_time() - start, result)
}

#[repr(C)]
struct Timespec {
    seconds: i64,
    nanoseconds: i64,
}

unsafe extern "C" {
    fn clock_gettime(clock: i32, time: *mut Timespec) -> i32;
}

/// The thread's own time, so that other programs on the machine do not count.
fn processor_time() -> Duration {
    const THREAD_CPUTIME: i32 = 3;
    let mut time = Timespec {
        seconds: 0,
        nanoseconds: 0,
    };
    // SAFETY: the struct is C's `timespec` on x86-64 Linux.
    let failed = unsafe { clock_gettime(THREAD_CPUTIME, &mut time) };
    assert_eq!(failed, 0);
    Duration::new(time.seconds as u64, time.nanoseconds as u32)
}
