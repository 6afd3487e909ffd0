//! A stack whose use can be seen: it is painted before a thread runs on it, and looked at afterwards.

use std::os::raw::{c_int, c_ulong, c_void};
use std::ptr::null_mut;

const PAINT: u8 = 0xA5;
const PAGES: usize = 256;

/// A stack begins and ends with a page.
#[derive(Clone)]
#[repr(align(4096))]
struct Page([u8; 4096]);

/// The C library's attributes of a thread: at least as long as they are on any processor.
#[repr(C, align(16))]
struct Attributes([u8; 128]);

extern "C" {
    fn pthread_attr_init(attributes: *mut Attributes) -> c_int;
    fn pthread_attr_setstack(attributes: *mut Attributes, stack: *mut c_void, size: usize) -> c_int;
    fn pthread_attr_destroy(attributes: *mut Attributes) -> c_int;
    fn pthread_create(thread: *mut c_ulong, attributes: *const Attributes, start: extern "C" fn(*mut c_void) -> *mut c_void, given: *mut c_void) -> c_int;
    fn pthread_join(thread: c_ulong, result: *mut *mut c_void) -> c_int;
}

/// How many bytes of stack the work takes, beside what every thread does.
pub fn taken_by(work: impl Fn() + Sync) -> usize {
    deepest(work) - deepest(|| ())
}

/// How many bytes from the top of the stack of its thread the work writes to.
fn deepest<F: Fn() + Sync>(work: F) -> usize {
    let mut stack = vec![Page([PAINT; 4096]); PAGES];
    let size = stack.len() * 4096;
    let mut attributes = Attributes([0; 128]);
    let mut thread: c_ulong = 0;
    let given: *const F = &work;
    // Safety: the stack, the attributes and the work outlive the thread, which is joined here, and nothing else touches the stack until then.
    let failures = unsafe {
        [
            pthread_attr_init(&mut attributes),
            pthread_attr_setstack(&mut attributes, stack.as_mut_ptr().cast(), size),
            pthread_create(&mut thread, &attributes, start::<F>, given as *mut c_void),
            pthread_join(thread, null_mut()),
            pthread_attr_destroy(&mut attributes),
        ]
    };
    assert_eq!(failures, [0; 5], "a thread can be started on a stack of its own");
    size - stack.iter().flat_map(|page| &page.0).take_while(|&&byte| byte == PAINT).count()
}

extern "C" fn start<F: Fn() + Sync>(given: *mut c_void) -> *mut c_void {
    // Safety: it is the work, which outlives the thread.
    let work = unsafe { &*(given as *const F) };
    work();
    null_mut()
}
