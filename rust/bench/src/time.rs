//! Measuring: processor time, and the middle of some measurements.

use std::ffi::{c_int, c_long};

/// The middle of some measurements, and the least and the most.
pub struct Spread {
    low: f64,
    middle: f64,
    high: f64,
}

impl Spread {
    pub fn of(mut all: Vec<f64>) -> Spread {
        all.sort_by(f64::total_cmp);
        Spread { low: all[0], middle: all[all.len() / 2], high: all[all.len() - 1] }
    }

    /// With its least and most behind it.
    pub fn text(&self, digits: usize) -> String {
        format!("{:.*} ({:.*} to {:.*})", digits, self.middle, digits, self.low, digits, self.high)
    }
}

#[repr(C)]
struct Timespec {
    seconds: i64,
    nanoseconds: c_long,
}

extern "C" {
    fn clock_gettime(clock: c_int, time: *mut Timespec) -> c_int;
}

/// This thread's processor time: what else the machine does is not counted.
fn now() -> f64 {
    const THREAD_CPU_TIME: c_int = 3;
    let mut time = Timespec { seconds: 0, nanoseconds: 0 };
    // SAFETY: the time is this function's own.
    assert_eq!(unsafe { clock_gettime(THREAD_CPU_TIME, &mut time) }, 0);
    time.seconds as f64 + time.nanoseconds as f64 / 1e9
}

/// The processor time that the work takes.
pub fn seconds(work: impl FnOnce()) -> f64 {
    let begun = now();
    work();
    now() - begun
}
