//! The time that this thread has worked. What other programs take of a processor does not count, so that a busy machine disturbs less.

/// As C has it on 64-bit Linux.
#[repr(C)]
struct Time {
    seconds: i64,
    nanoseconds: i64,
}

const THREAD_CPU_TIME: i32 = 3;

unsafe extern "C" {
    fn clock_gettime(clock: i32, time: *mut Time) -> i32;
}

/// Nanoseconds of the processor that this thread has used.
pub fn nanoseconds() -> u64 {
    let mut time = Time { seconds: 0, nanoseconds: 0 };
    let status = unsafe { clock_gettime(THREAD_CPU_TIME, &mut time) };
    assert_eq!(status, 0, "this system has no clock of a thread's time");
    time.seconds as u64 * 1_000_000_000 + time.nanoseconds as u64
}
