// Times of calls, by the processor's clock for this thread, so that other programs count little.
#[repr(C)]
struct Moment {
    seconds: i64,
    nanoseconds: i64,
}

unsafe extern "C" {
    fn clock_gettime(clock: i32, at: *mut Moment) -> i32;
}

/// Linux's number for the clock of a thread's processor time.
const THREAD_CLOCK: i32 = 3;

pub fn now() -> f64 {
    let mut at = Moment { seconds: 0, nanoseconds: 0 };
    unsafe { clock_gettime(THREAD_CLOCK, &mut at) };
    at.seconds as f64 * 1e6 + at.nanoseconds as f64 * 1e-3
}

pub fn median(mut times: Vec<f64>) -> f64 {
    times.sort_by(f64::total_cmp);
    times[times.len() / 2]
}

/// How often each call is made at least and at most, and how many microseconds of them are enough.
pub struct Effort {
    pub least: usize,
    pub most: usize,
    pub enough: f64,
}

pub const USUAL: Effort = Effort { least: 5, most: 61, enough: 80_000.0 };

/// The medians of the calls' times in microseconds; the calls take turns.
pub fn medians(effort: &Effort, calls: &mut [&mut dyn FnMut()]) -> Vec<f64> {
    let mut times = vec![Vec::new(); calls.len()];
    let start = now();
    for turn in 0..effort.most {
        if turn >= effort.least && now() - start > effort.enough {
            break;
        }
        for (call, times) in calls.iter_mut().zip(&mut times) {
            let before = now();
            call();
            times.push(now() - before);
        }
    }
    times.into_iter().map(median).collect()
}
