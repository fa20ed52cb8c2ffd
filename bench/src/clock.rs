//! Processor time in nanoseconds, so that other work on the machine counts as little as it can. The structs are those of C on x86-64 Linux.

#[repr(C)]
struct Timespec {
    seconds: i64,
    nanoseconds: i64,
}

#[repr(C)]
struct Timeval {
    seconds: i64,
    microseconds: i64,
}

#[repr(C)]
struct Usage {
    user: Timeval,
    system: Timeval,
    others: [i64; 14],
}

extern "C" {
    fn clock_gettime(clock: i32, time: *mut Timespec) -> i32;
    fn getrusage(who: i32, usage: *mut Usage) -> i32;
}

const CLOCK_THREAD_CPUTIME_ID: i32 = 3;
const RUSAGE_CHILDREN: i32 = -1;

/// What this thread has taken.
pub fn this_thread() -> f64 {
    let mut time = Timespec { seconds: 0, nanoseconds: 0 };
    // SAFETY: the struct outlives the call, which writes no more than it.
    let status = unsafe { clock_gettime(CLOCK_THREAD_CPUTIME_ID, &mut time) };
    assert_eq!(status, 0);
    time.seconds as f64 * 1e9 + time.nanoseconds as f64
}

/// What all programs have taken that this one started and waited for.
pub fn children() -> f64 {
    let zero = || Timeval { seconds: 0, microseconds: 0 };
    let mut usage = Usage { user: zero(), system: zero(), others: [0; 14] };
    // SAFETY: as above.
    let status = unsafe { getrusage(RUSAGE_CHILDREN, &mut usage) };
    assert_eq!(status, 0);
    let nanoseconds = |time: Timeval| time.seconds as f64 * 1e9 + time.microseconds as f64 * 1e3;
    nanoseconds(usage.user) + nanoseconds(usage.system)
}
