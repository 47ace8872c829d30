//! How much stack a call uses. The call runs in a thread whose stack is memory of ours, painted with one byte before;
//! the lowest byte that has changed afterwards says how deep the thread went. A thread that does nothing is measured
//! the same way, and what it used (the thread's own start) is taken off.

use std::alloc::{alloc, dealloc, Layout};
use std::ffi::c_void;
use std::ptr::{null_mut, write_bytes};

const STACK_BYTES: usize = 1 << 20;
const PAINT: u8 = 0xA5;

/// Room for a `pthread_attr_t`, which has 56 bytes with the GNU C library.
#[repr(C, align(16))]
struct Attributes([u64; 32]);

extern "C" {
    fn pthread_attr_init(attributes: *mut Attributes) -> i32;
    fn pthread_attr_setstack(attributes: *mut Attributes, stack: *mut c_void, bytes: usize) -> i32;
    fn pthread_attr_destroy(attributes: *mut Attributes) -> i32;
    fn pthread_create(
        thread: *mut usize,
        attributes: *const Attributes,
        start: extern "C" fn(*mut c_void) -> *mut c_void,
        argument: *mut c_void,
    ) -> i32;
    fn pthread_join(thread: usize, result: *mut *mut c_void) -> i32;
}

/// What the new thread runs: a plain function and what it works on.
struct Work<'w, T> {
    call: fn(&mut T),
    on: &'w mut T,
}

extern "C" fn run_work<T>(work: *mut c_void) -> *mut c_void {
    // Safe: `painted_depth` hands over a pointer to a `Work<T>` that lives until the thread has ended.
    let work = unsafe { &mut *(work as *mut Work<T>) };
    (work.call)(work.on);
    null_mut()
}

/// How many bytes of stack the call needs, the thread's own taken off.
pub fn depth<T>(call: fn(&mut T), on: &mut T) -> usize {
    painted_depth(call, on) - painted_depth(|_| {}, on)
}

fn painted_depth<T>(call: fn(&mut T), on: &mut T) -> usize {
    let layout = Layout::from_size_align(STACK_BYTES, 4096).expect("4096 is a power of two");
    let mut work = Work { call, on };
    // Safe: the stack is ours, is painted before the thread starts, and is read and given back after it has ended.
    unsafe {
        let stack = alloc(layout);
        assert!(!stack.is_null());
        write_bytes(stack, PAINT, STACK_BYTES);
        run_on(stack, run_work::<T>, &mut work as *mut Work<T> as *mut c_void);
        let untouched = (0..STACK_BYTES).take_while(|place| *stack.add(*place) == PAINT).count();
        dealloc(stack, layout);
        STACK_BYTES - untouched
    }
}

/// Runs a function in a thread with this stack and waits for its end.
unsafe fn run_on(stack: *mut u8, start: extern "C" fn(*mut c_void) -> *mut c_void, argument: *mut c_void) {
    let mut attributes = Attributes([0; 32]);
    let mut thread = 0;
    assert_eq!(pthread_attr_init(&mut attributes), 0);
    assert_eq!(pthread_attr_setstack(&mut attributes, stack as *mut c_void, STACK_BYTES), 0);
    assert_eq!(pthread_create(&mut thread, &attributes, start, argument), 0);
    assert_eq!(pthread_join(thread, null_mut()), 0);
    assert_eq!(pthread_attr_destroy(&mut attributes), 0);
}
