// How much of the stack a call uses: it runs in a thread whose stack is painted beforehand, and the
// paint that is gone afterwards tells how deep it went.

use std::alloc::{alloc, dealloc, handle_alloc_error, Layout};
use std::ffi::c_void;
use std::hint::black_box;
use std::ptr::{null, null_mut};

/// What the system keeps of a thread that is to be started; larger than it is anywhere.
#[repr(C, align(16))]
struct Attributes([u8; 256]);

#[rustfmt::skip]
extern "C" {
    fn pthread_attr_init(attributes: *mut Attributes) -> i32;
    fn pthread_attr_setstack(attributes: *mut Attributes, stack: *mut c_void, size: usize) -> i32;
    fn pthread_attr_destroy(attributes: *mut Attributes) -> i32;
    fn pthread_create(thread: *mut usize, attributes: *const Attributes, start: extern "C" fn(*mut c_void) -> *mut c_void, argument: *mut c_void) -> i32;
    fn pthread_join(thread: usize, value: *mut *mut c_void) -> i32;
    fn mprotect(start: *mut c_void, size: usize, protection: i32) -> i32;
}

/// Protections of memory: none may touch it, or it may be read and written.
const UNTOUCHABLE: i32 = 0;
const TOUCHABLE: i32 = 3;

/// The size of a stack, and of the guard at its low end.
const STACK: usize = 64 << 20;
const GUARD: usize = 64 << 10;

/// The paint.
const PAINT: u8 = 0xa5;

/// A call that a thread runs, and where the thread's stack stands when it does.
struct Task<'a> {
    call: &'a mut dyn FnMut(),
    entry: *const u8,
}

/// The bytes of stack that a call uses.
pub fn used_by(mut call: impl FnMut()) -> usize {
    let layout = Layout::from_size_align(STACK, GUARD).expect("a size and an alignment");
    let stack = unsafe { alloc(layout) };
    if stack.is_null() {
        handle_alloc_error(layout);
    }
    unsafe {
        stack.write_bytes(PAINT, STACK);
        let entry = run_on(stack, &mut call);
        let above_guard = std::slice::from_raw_parts(stack.add(GUARD), STACK - GUARD);
        let painted = above_guard.iter().take_while(|byte| **byte == PAINT).count();
        let deepest = stack.add(GUARD + painted);
        dealloc(stack, layout);
        (entry as usize).saturating_sub(deepest as usize)
    }
}

/// Runs a call in a thread of its own on a stack, waits for its end, and answers where the stack
/// stood before the call. One that would go deeper than the stack meets the guard.
unsafe fn run_on(stack: *mut u8, call: &mut dyn FnMut()) -> *const u8 {
    let mut attributes = Attributes([0; 256]);
    let mut thread = 0;
    let mut task = Task { call, entry: null() };
    let argument: *mut Task = &mut task;
    unsafe {
        demand(mprotect(stack.cast(), GUARD, UNTOUCHABLE));
        demand(pthread_attr_init(&mut attributes));
        demand(pthread_attr_setstack(&mut attributes, stack.add(GUARD).cast(), STACK - GUARD));
        demand(pthread_create(&mut thread, &attributes, start, argument.cast()));
        demand(pthread_join(thread, null_mut()));
        demand(pthread_attr_destroy(&mut attributes));
        demand(mprotect(stack.cast(), GUARD, TOUCHABLE));
    }
    task.entry
}

/// What the thread runs: it notes where its stack stands, and makes the call.
extern "C" fn start(task: *mut c_void) -> *mut c_void {
    let task = unsafe { &mut *task.cast::<Task>() };
    let here = 0;
    task.entry = black_box(&here);
    (task.call)();
    null_mut()
}

/// Stops the program if the system refuses something.
fn demand(status: i32) {
    assert_eq!(status, 0, "the system gives no thread with a stack of its own");
}
