//! Timing: the median of repeated measurements, taken in turn so that noise meets all alike. The
//! clock is the thread's processor time, which leaves out the time that other programs get.

use std::ffi::{c_int, c_long};

/// How long one measurement lasts at least, in seconds; short work is done many times in it.
const SPAN: f64 = 0.002;

/// A piece of work that can be done again and again.
pub type Work<'a> = Box<dyn FnMut() + 'a>;

/// The median seconds that each piece of work takes once, of so many measurements of each.
pub fn median_seconds<const N: usize>(works: &mut [Work; N], repeats: usize) -> [f64; N] {
    let times = works.each_mut().map(times_in_span);
    let mut measured = [(); N].map(|()| Vec::with_capacity(repeats));
    for _ in 0..repeats {
        for (index, work) in works.iter_mut().enumerate() {
            // Once unmeasured: the work before it has left the caches to itself.
            work();
            measured[index].push(seconds(work, times[index]) / f64::from(times[index]));
        }
    }
    measured.map(median)
}

/// How often the work is done in one measurement. It is first done once unmeasured.
fn times_in_span(work: &mut Work) -> u32 {
    work();
    let mut times = 1;
    loop {
        let taken = seconds(work, times);
        if taken >= SPAN / 2.0 {
            return (f64::from(times) * SPAN / taken).ceil() as u32;
        }
        times *= 2;
    }
}

fn seconds(work: &mut Work, times: u32) -> f64 {
    let start = processor_seconds();
    for _ in 0..times {
        work();
    }
    processor_seconds() - start
}

/// The C library's timespec, on 64-bit Linux.
#[repr(C)]
struct Time {
    seconds: i64,
    nanoseconds: c_long,
}

extern "C" {
    fn clock_gettime(clock: c_int, time: *mut Time) -> c_int;
}

const THREAD_PROCESSOR_TIME: c_int = 3;

/// The processor time of this thread so far.
fn processor_seconds() -> f64 {
    let mut time = Time {
        seconds: 0,
        nanoseconds: 0,
    };
    let status = unsafe { clock_gettime(THREAD_PROCESSOR_TIME, &mut time) };
    assert_eq!(status, 0, "the clock cannot be read");
    time.seconds as f64 + time.nanoseconds as f64 / 1e9
}

fn median(mut values: Vec<f64>) -> f64 {
    values.sort_by(f64::total_cmp);
    values[values.len() / 2]
}
