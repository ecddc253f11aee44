//! The processor time of this process. A clock on the wall would count the other
//! processes of a busy machine too.

use std::time::Duration;

/// Linux, 64-bit: seconds and nanoseconds.
#[repr(C)]
struct Timespec {
    seconds: i64,
    nanoseconds: i64,
}

const PROCESS_TIME: i32 = 2;

extern "C" {
    fn clock_gettime(clock: i32, time: *mut Timespec) -> i32;
}

fn now() -> Duration {
    let mut time = Timespec {
        seconds: 0,
        nanoseconds: 0,
    };
    // SAFETY: the call writes one Timespec, and is lent one.
    let failed = unsafe { clock_gettime(PROCESS_TIME, &mut time) };
    assert_eq!(failed, 0, "there is a clock for processor time");
    Duration::new(time.seconds as u64, time.nanoseconds as u32)
}

/// The processor time that some work takes.
pub fn time(work: impl FnOnce()) -> Duration {
    let start = now();
    work();
    now() - start
}
