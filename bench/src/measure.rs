//! Times of two functions on one input, each the median of several samples taken by turns. A time
//! is processor time of the thread, so that other work on the machine does not count.

/// A sample lasts at least so many nanoseconds.
const SAMPLE: f64 = 4e6;

/// The processor time of this thread, in nanoseconds: `clock_gettime(CLOCK_THREAD_CPUTIME_ID, ..)`.
fn now() -> f64 {
    unsafe extern "C" {
        fn clock_gettime(clock: i32, time: *mut [i64; 2]) -> i32;
    }
    const THREAD_TIME: i32 = 3;
    let mut time = [0; 2];
    let status = unsafe { clock_gettime(THREAD_TIME, &mut time) };
    assert_eq!(status, 0, "there is a clock for threads");
    time[0] as f64 * 1e9 + time[1] as f64
}

fn sample(call: &mut dyn FnMut(), calls: u32) -> f64 {
    let start = now();
    for _ in 0..calls {
        call();
    }
    now() - start
}

/// The number of calls that fill a sample.
fn calls_for(call: &mut dyn FnMut()) -> u32 {
    let mut calls = 1;
    while sample(call, calls) < SAMPLE {
        calls *= 2;
    }
    calls
}

fn median(mut times: Vec<f64>) -> f64 {
    times.sort_by(f64::total_cmp);
    times[times.len() / 2]
}

/// The median times of one call of each, in nanoseconds.
pub fn medians(samples: usize, calls: [&mut dyn FnMut(); 2]) -> [f64; 2] {
    let [first, second] = calls;
    let numbers = [calls_for(first), calls_for(second)];
    let mut times = [Vec::new(), Vec::new()];
    for _ in 0..samples {
        times[0].push(sample(first, numbers[0]) / f64::from(numbers[0]));
        times[1].push(sample(second, numbers[1]) / f64::from(numbers[1]));
    }
    times.map(median)
}

/// A time in a unit that reads well.
pub fn shown(nanoseconds: f64) -> String {
    match nanoseconds {
        t if t < 1e3 => format!("{t:.0} ns"),
        t if t < 1e6 => format!("{:.2} µs", t / 1e3),
        t => format!("{:.2} ms", t / 1e6),
    }
}
