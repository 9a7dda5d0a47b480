//! How much of its stack a call uses.

use std::hint::black_box;
use std::{mem, ptr};

/// Far more than any entry uses.
const STACK: usize = 1 << 20;

/// What the stack is filled with before the call.
const PAINT: u64 = 0xa5a5_5a5a_c3c3_3c3c;

/// A call on a thread of its own, and where the thread's stack stands as it begins.
struct Work<'a> {
    call: &'a mut dyn FnMut(),
    top: usize,
}

/// The bytes of stack that a call uses: from where the stack stands before it, on a thread that has a
/// painted stack of its own, down to the lowest word that is no longer as painted.
pub fn stack_used(call: &mut dyn FnMut()) -> usize {
    let mut stack = vec![PAINT; STACK / 8];
    let mut work = Work { call, top: 0 };
    run_on(&mut stack, &mut work);
    let kept = stack.iter().take_while(|&&word| word == PAINT).count();
    work.top - stack[kept..].as_ptr().addr()
}

fn run_on(stack: &mut [u64], work: &mut Work) {
    let mut attributes = Attributes([0; 8]);
    let mut thread = 0;
    // The stack and the work live until the thread has ended, and nobody else uses them meanwhile.
    unsafe {
        let made = pthread_attr_init(&mut attributes);
        let set = pthread_attr_setstack(
            &mut attributes,
            stack.as_mut_ptr().cast(),
            mem::size_of_val(stack),
        );
        let begun = pthread_create(&mut thread, &attributes, begin, ptr::from_mut(work).cast());
        assert_eq!([made, set, begun], [0; 3]);
        assert_eq!(pthread_join(thread, ptr::null_mut()), 0);
    }
}

extern "C" fn begin(work: *mut u8) -> *mut u8 {
    let here = 0u64;
    let work: &mut Work = unsafe { &mut *work.cast() };
    work.top = ptr::from_ref(black_box(&here)).addr();
    (work.call)();
    ptr::null_mut()
}

// What <pthread.h> has on Linux; the attributes are at most 64 bytes there.
#[repr(C, align(16))]
struct Attributes([u64; 8]);

extern "C" {
    fn pthread_attr_init(attributes: *mut Attributes) -> i32;
    fn pthread_attr_setstack(attributes: *mut Attributes, stack: *mut u8, size: usize) -> i32;
    fn pthread_create(
        thread: *mut usize,
        attributes: *const Attributes,
        begin: extern "C" fn(*mut u8) -> *mut u8,
        work: *mut u8,
    ) -> i32;
    fn pthread_join(thread: usize, result: *mut *mut u8) -> i32;
}
