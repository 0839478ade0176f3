//! The stack that a call takes, seen from outside: the call runs on a thread whose stack is
//! painted memory, and the bytes that have lost their paint were used.

use std::alloc::{alloc, dealloc, handle_alloc_error, Layout};
use std::ffi::{c_int, c_void};
use std::hint::black_box;
use std::ptr::null_mut;
use std::slice;

/// The bytes of a painted stack, about twice as many as any call takes.
const STACK_BYTES: usize = 1 << 16;

/// The alignment of a painted stack, which is that of a page.
const ALIGNMENT: usize = 1 << 12;

/// The byte that a stack holds before a call.
const PAINT: u8 = 0xA5;

/// The attributes of a thread, with room for those of the C library, which have 56 bytes.
#[repr(C, align(16))]
struct Attributes([u8; 64]);

// The threads of the C library, which take the memory of their stacks from the caller.
extern "C" {
    fn pthread_attr_init(attributes: *mut Attributes) -> c_int;

    fn pthread_attr_setstack(attributes: *mut Attributes, stack: *mut u8, bytes: usize) -> c_int;

    fn pthread_attr_destroy(attributes: *mut Attributes) -> c_int;

    fn pthread_create(
        thread: *mut usize,
        attributes: *const Attributes,
        start: extern "C" fn(*mut c_void) -> *mut c_void,
        argument: *mut c_void,
    ) -> c_int;

    fn pthread_join(thread: usize, result: *mut *mut c_void) -> c_int;
}

/// Memory that is the stack of a thread.
struct Stack(*mut u8);

impl Stack {
    /// Gives the size and the alignment of the memory.
    fn layout() -> Layout {
        Layout::from_size_align(STACK_BYTES, ALIGNMENT).expect("the alignment is a power of two")
    }

    /// Takes memory and paints it.
    fn painted() -> Self {
        // SAFETY: the size is not 0.
        let bytes = unsafe { alloc(Self::layout()) };
        if bytes.is_null() {
            handle_alloc_error(Self::layout());
        }
        // SAFETY: the memory has so many bytes.
        unsafe { bytes.write_bytes(PAINT, STACK_BYTES) };
        Stack(bytes)
    }

    /// Gives the lowest address whose byte has lost its paint: a stack grows downwards.
    fn lowest_used(&self) -> usize {
        // SAFETY: the memory has so many bytes, all of them were painted, and the thread has ended.
        let bytes = unsafe { slice::from_raw_parts(self.0, STACK_BYTES) };
        let painted = bytes.iter().take_while(|&&byte| byte == PAINT).count();
        assert_ne!(painted, 0, "the call takes more than a painted stack has");
        self.0 as usize + painted
    }
}

impl Drop for Stack {
    fn drop(&mut self) {
        // SAFETY: the memory was taken with this layout.
        unsafe { dealloc(self.0, Self::layout()) };
    }
}

/// A call for a thread to make, and an address in the frame that makes it.
struct Task<F> {
    call: Option<F>,
    caller: usize,
}

/// Notes where the stack stands and makes a task's call. A panic ends the program.
extern "C" fn run<F: FnOnce()>(task: *mut c_void) -> *mut c_void {
    // SAFETY: the thread that started this one lends it the task, and waits for its end.
    let task = unsafe { &mut *task.cast::<Task<F>>() };
    let here = 0_u8;
    task.caller = black_box(&raw const here) as usize;
    if let Some(call) = task.call.take() {
        call();
    }
    null_mut()
}

/// Asserts that a call of the C library has succeeded.
fn succeeded(result: c_int) {
    assert_eq!(result, 0, "a thread takes the painted stack");
}

/// Makes a task's call on a stack.
fn run_on<F: FnOnce() + Send>(stack: &Stack, task: &mut Task<F>) {
    let mut attributes = Attributes([0; 64]);
    let mut thread = 0;
    let task = (&raw mut *task).cast();
    // SAFETY: the attributes have the room that the C library asks for, and stack and task live
    // until the thread has ended.
    unsafe {
        succeeded(pthread_attr_init(&mut attributes));
        succeeded(pthread_attr_setstack(&mut attributes, stack.0, STACK_BYTES));
        succeeded(pthread_create(&mut thread, &attributes, run::<F>, task));
        succeeded(pthread_join(thread, null_mut()));
        succeeded(pthread_attr_destroy(&mut attributes));
    }
}

/// Gives the bytes of stack that a call takes, with at most some hundred that its caller has.
pub fn taken(call: impl FnOnce() + Send) -> usize {
    let stack = Stack::painted();
    let mut task = Task {
        call: Some(call),
        caller: 0,
    };
    run_on(&stack, &mut task);
    task.caller - stack.lowest_used()
}
