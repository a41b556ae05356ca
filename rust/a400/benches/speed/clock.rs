// The processor time of this thread, which other load does not count into.

use std::time::Duration;

#[repr(C)]
struct Time {
    seconds: i64,
    nanoseconds: i64,
}

extern "C" {
    fn clock_gettime(clock: i32, time: *mut Time) -> i32;
}

// The number of that clock on Linux.
const THREAD: i32 = 3;

pub fn processor_time() -> Duration {
    let mut time = Time { seconds: 0, nanoseconds: 0 };
    // SAFETY: the pointer is to a time of our own.
    assert_eq!(unsafe { clock_gettime(THREAD, &mut time) }, 0);
    Duration::new(time.seconds as u64, time.nanoseconds as u32)
}
