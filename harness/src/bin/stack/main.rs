//! What goes deepest, on a thread with a stack of 256 KiB: `recognise` to the greatest depth that can be asked for, and `compile` on the texts that nest
//! deepest or hold the most. Each must end there with its answer; and how much of a stack it takes is measured.

mod painted;
mod recursions;
mod texts;

use std::process::exit;
use std::thread;

const STACK: usize = 256 * 1024;

fn main() {
    if let Err(what) = recursions::run().and_then(|()| texts::run()) {
        println!("NOT OK: {what}");
        exit(1);
    }
}

/// What the work gives on the small stack, and how many bytes of stack it takes.
fn on_small_stack<T: Send>(work: impl Fn() -> T + Sync) -> (T, usize) {
    let given = thread::scope(|scope| {
        let started = thread::Builder::new().stack_size(STACK).spawn_scoped(scope, &work).expect("a thread can be started");
        started.join().expect("the thread ends")
    });
    let taken = painted::taken_by(|| drop(work()));
    (given, taken)
}

/// Bytes as KiB, up to the next whole one.
fn kib(bytes: usize) -> usize {
    (bytes + 1023) / 1024
}
