//! Processor time of this thread: what others do on the machine does not count.

use std::time::Duration;

/// As Linux numbers it.
const THREAD_CPUTIME: i32 = 3;

#[repr(C)]
struct Timespec {
    seconds: i64,
    nanoseconds: i64,
}

fn processor_time() -> Duration {
    extern "C" {
        fn clock_gettime(clock: i32, time: *mut Timespec) -> i32;
    }
    let mut time = Timespec { seconds: 0, nanoseconds: 0 };
    // Safety: the struct is the C library's on 64-bit Linux, and is lent for the call alone.
    let answer = unsafe { clock_gettime(THREAD_CPUTIME, &mut time) };
    assert_eq!(answer, 0, "there is a clock of the thread's processor time");
    Duration::new(time.seconds as u64, time.nanoseconds as u32)
}

/// What is measured and nothing else: a profiler may look at this function alone. It is a call of its own, so that what it
/// gives is made though it is only dropped.
#[inline(never)]
fn measured<T>(work: impl FnOnce() -> T) -> T {
    work()
}

/// The time that work takes, without that of dropping what it gives.
pub fn timed<T>(work: impl FnOnce() -> T) -> Duration {
    let begin = processor_time();
    let given = measured(work);
    let end = processor_time();
    drop(given);
    end - begin
}
