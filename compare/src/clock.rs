//! The processor time of this thread: what others run on the machine does not count.

/// The seconds and nanoseconds of a clock of the C library.
#[repr(C)]
struct Moment {
    seconds: i64,
    nanoseconds: i64,
}

extern "C" {
    fn clock_gettime(clock: i32, moment: *mut Moment) -> i32;
}

/// The seconds that this thread has run so far.
pub fn seconds() -> f64 {
    const THREAD_CPU_TIME: i32 = 3;
    let mut moment = Moment { seconds: 0, nanoseconds: 0 };
    // The call writes one moment.
    let status = unsafe { clock_gettime(THREAD_CPU_TIME, &mut moment) };
    assert_eq!(status, 0, "the system has a clock for threads");
    moment.seconds as f64 + moment.nanoseconds as f64 * 1e-9
}

/// The best of three times of each work, the works in turn.
pub fn best<const N: usize>(mut works: [&mut dyn FnMut(); N]) -> [f64; N] {
    let mut times = [f64::INFINITY; N];
    for _ in 0..3 {
        for (place, work) in works.iter_mut().enumerate() {
            let start = seconds();
            work();
            times[place] = times[place].min(seconds() - start);
        }
    }
    times
}

/// The mean time of a round in seconds, over enough rounds to fill the time given.
pub fn mean(fill: f64, mut round: impl FnMut()) -> f64 {
    let start = seconds();
    let mut rounds = 0u32;
    while seconds() - start < fill {
        round();
        rounds += 1;
    }
    (seconds() - start) / f64::from(rounds)
}
