//! How much stack some work takes: it is run by a thread on pages that hold zeros before.

use crate::guard::{pages_of_zeros, Zeros};
use std::ffi::{c_int, c_void};
use std::ptr::null_mut;

extern "C" {
    fn pthread_attr_init(attributes: *mut Attributes) -> c_int;
    fn pthread_attr_setstack(attributes: *mut Attributes, stack: *mut c_void, bytes: usize) -> c_int;
    fn pthread_create(thread: *mut usize, attributes: *const Attributes, start: extern "C" fn(*mut c_void) -> *mut c_void, given: *mut c_void) -> c_int;
    fn pthread_join(thread: usize, result: *mut *mut c_void) -> c_int;
}

/// As large as on Linux on x86-64.
type Attributes = [u64; 7];

const MOST: usize = 1 << 24;

/// What the work gives, and the bytes of stack that it used, with those of the thread itself.
fn on_zeros<T>(work: &mut dyn FnMut() -> T) -> (T, usize) {
    struct Task<'a, T>(&'a mut dyn FnMut() -> T, Option<T>);
    extern "C" fn start<T>(task: *mut c_void) -> *mut c_void {
        let task = unsafe { &mut *task.cast::<Task<T>>() };
        task.1 = Some(task.0());
        null_mut()
    }
    let stack: Zeros = pages_of_zeros(MOST);
    let mut task = Task(work, None);
    let (mut attributes, mut thread) = ([0; 7], 0);
    let done = unsafe {
        pthread_attr_init(&mut attributes) == 0
            && pthread_attr_setstack(&mut attributes, stack.first().cast(), MOST) == 0
            && pthread_create(&mut thread, &attributes, start::<T>, (&raw mut task).cast()) == 0
            && pthread_join(thread, null_mut()) == 0
    };
    match task.1 {
        Some(result) if done => (result, stack.touched()),
        _ => crate::fail("there is no thread to measure a stack with"),
    }
}

/// What the work gives, and the bytes of stack that it used.
pub fn with_stack<T>(work: &mut dyn FnMut() -> T) -> (T, usize) {
    let (_, empty) = on_zeros(&mut || ());
    let (result, used) = on_zeros(work);
    (result, used.saturating_sub(empty))
}
