//! Processor time, in batches of calls.

use std::os::raw::c_long;

/// Batches of each thing that is timed.
pub const ROUNDS: usize = 25;
/// How long a batch takes at least, in nanoseconds, unless a single call takes longer.
pub const BATCH: f64 = 10e6;

extern "C" {
    /// The processor time of this process, in microseconds: the C library's, which Lua's `os.clock` reads too.
    fn clock() -> c_long;
}

fn processor_time() -> f64 {
    // Safety: it takes nothing and gives a number.
    unsafe { clock() as f64 * 1e3 }
}

/// The nanoseconds that `count` calls take.
pub fn time_batch(count: usize, mut call: impl FnMut()) -> f64 {
    let begin = processor_time();
    for _ in 0..count {
        call();
    }
    processor_time() - begin
}

/// How many calls make a batch: doubled until they take a tenth of its time.
pub fn calls_in_batch(mut batch: impl FnMut(usize) -> f64) -> usize {
    let mut count = 1;
    loop {
        let time = batch(count);
        if time >= BATCH / 10.0 {
            return (count as f64 * BATCH / time).ceil() as usize;
        }
        count *= 2;
    }
}

/// The nanoseconds a call, one number for each batch, the least first.
#[derive(Default)]
pub struct Times(Vec<f64>);

impl Times {
    pub fn push(&mut self, time: f64) {
        let at = self.0.partition_point(|&other| other < time);
        self.0.insert(at, time);
    }

    pub fn best(&self) -> f64 {
        self.0[0]
    }

    pub fn median(&self) -> f64 {
        self.0[self.0.len() / 2]
    }
}
