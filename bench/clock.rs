//! The processor time of this thread. Other programs on the machine lengthen it far less than the time on the wall.

#[repr(C)]
struct TimeSpecification {
    seconds: i64,
    nanoseconds: i64,
}

/// Linux's number for the clock of the calling thread.
const THREAD_CLOCK: i32 = 3;

extern "C" {
    fn clock_gettime(clock: i32, time: *mut TimeSpecification) -> i32;
}

pub fn nanoseconds() -> u64 {
    let mut time = TimeSpecification { seconds: 0, nanoseconds: 0 };
    // Safe: the call writes to the one place that it is given.
    let status = unsafe { clock_gettime(THREAD_CLOCK, &mut time) };
    assert_eq!(status, 0);
    time.seconds as u64 * 1_000_000_000 + time.nanoseconds as u64
}
