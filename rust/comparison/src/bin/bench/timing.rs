//! Times of two calls, measured in turn.
//!
//! It is the thread's time on the processor that counts: other programs would lengthen the samples of long calls only, and so change
//! the ratios.

use std::fmt;
use std::time::Duration;

/// The C library's record of a time.
#[repr(C)]
#[derive(Default)]
struct Timespec {
    seconds: i64,
    nanos: i64,
}

/// Linux's number of the clock that goes on only while the calling thread runs.
const THREAD_CLOCK: i32 = 3;

extern "C" {
    fn clock_gettime(clock: i32, time: *mut Timespec) -> i32;
}

/// How long this thread has run.
fn running() -> Duration {
    let mut time = Timespec::default();
    // SAFETY: the pointer is to a record of the form that the 64-bit C library fills in.
    let failed = unsafe { clock_gettime(THREAD_CLOCK, &mut time) };
    assert_eq!(failed, 0, "no clock for the thread");
    Duration::new(time.seconds as u64, time.nanos as u32)
}

/// How long to measure.
pub struct Manner {
    pub samples: usize,
    pub least_micros: u64,
}

pub const FULL: Manner = Manner {
    samples: 301,
    least_micros: 100,
};

pub const QUICK: Manner = Manner {
    samples: 31,
    least_micros: 50,
};

/// Medians in nanoseconds.
pub struct Pair {
    proved: f64,
    baseline: f64,
}

impl Pair {
    pub fn ratio(&self) -> f64 {
        self.proved / self.baseline
    }

    pub fn in_short(&self) -> String {
        format!(
            "{} / {} = {:.2}",
            time(self.proved),
            time(self.baseline),
            self.ratio()
        )
    }
}

impl fmt::Display for Pair {
    fn fmt(&self, f: &mut fmt::Formatter) -> fmt::Result {
        let (proved, baseline) = (time(self.proved), time(self.baseline));
        write!(f, "{proved} | {baseline} | {:.2}", self.ratio())
    }
}

/// A time in microseconds, to three figures.
fn time(nanos: f64) -> String {
    let micros = nanos / 1000.0;
    let places = match micros {
        _ if micros < 1.0 => 3,
        _ if micros < 10.0 => 2,
        _ if micros < 100.0 => 1,
        _ => 0,
    };
    format!("{micros:.places$} µs")
}

/// Measures both in turn, so that whatever slows the machine meets both.
pub fn measure(manner: &Manner, mut proved: impl FnMut(), mut baseline: impl FnMut()) -> Pair {
    let least = Duration::from_micros(manner.least_micros);
    let (one, other) = (batch(least, &mut proved), batch(least, &mut baseline));
    let mut samples = [Vec::new(), Vec::new()];
    for at in 0..manner.samples {
        let mut both = || {
            samples[0].push(sample(one, &mut proved));
            samples[1].push(sample(other, &mut baseline));
        };
        deeper(at % DEPTHS, &mut both);
    }
    let [proved, baseline] = samples.map(median);
    Pair { proved, baseline }
}

/// So many depths of the stack, which part a page of memory evenly.
const DEPTHS: usize = 16;

/// Runs so many steps deeper in the stack. Where the lists of a call lie within a page moves its time, by a tenth at times, and would be
/// another place in each run of the program.
#[inline(never)]
fn deeper(steps: usize, run: &mut dyn FnMut()) {
    let mut step = [0_u8; 4096 / DEPTHS];
    // SAFETY: the pointer is to a byte of this array. Writing it so keeps the array on the stack.
    unsafe { std::ptr::write_volatile(&mut step[steps], 1) };
    match steps {
        0 => run(),
        _ => deeper(steps - 1, run),
    }
    // SAFETY: the same. Reading it so keeps the array until here.
    unsafe { std::ptr::read_volatile(&step[steps]) };
}

/// How many calls take so long.
fn batch(least: Duration, call: &mut impl FnMut()) -> u32 {
    let mut calls = 1;
    loop {
        let begin = running();
        (0..calls).for_each(|_| call());
        if running() - begin >= least {
            return calls;
        }
        calls *= 2;
    }
}

/// Nanoseconds of one call in a batch.
fn sample(calls: u32, call: &mut impl FnMut()) -> f64 {
    let begin = running();
    (0..calls).for_each(|_| call());
    (running() - begin).as_nanos() as f64 / f64::from(calls)
}

fn median(mut samples: Vec<f64>) -> f64 {
    samples.sort_by(f64::total_cmp);
    samples[samples.len() / 2]
}
