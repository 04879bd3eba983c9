//! Processor time, for the benchmarks.

#[repr(C)]
struct TimeSpec {
    seconds: i64,
    nanoseconds: i64,
}

extern "C" {
    fn clock_gettime(clock: i32, time: *mut TimeSpec) -> i32;
}

/// The processor time of this thread, in nanoseconds: a loaded machine hardly shows in it.
pub fn thread_time() -> f64 {
    const CLOCK_THREAD_CPUTIME_ID: i32 = 3;
    let mut t = TimeSpec { seconds: 0, nanoseconds: 0 };
    // The kernel fills in one record, which is ours.
    unsafe { clock_gettime(CLOCK_THREAD_CPUTIME_ID, &mut t) };
    t.seconds as f64 * 1e9 + t.nanoseconds as f64
}

/// The shortest of several runs, in nanoseconds.
pub fn best(runs: usize, mut run: impl FnMut()) -> f64 {
    (0..runs)
        .map(|_| {
            let start = thread_time();
            run();
            thread_time() - start
        })
        .fold(f64::INFINITY, f64::min)
}
