//! How much stack a call takes: it runs on a stack of our own, which is painted before and looked at behind.

use std::alloc::{alloc, dealloc, Layout};
use std::ffi::c_void;
use std::hint::black_box;
use std::ptr::null_mut;

extern "C" {
    fn pthread_attr_init(attributes: *mut Attributes) -> i32;
    fn pthread_attr_setstack(attributes: *mut Attributes, stack: *mut c_void, size: usize) -> i32;
    fn pthread_attr_destroy(attributes: *mut Attributes) -> i32;
    fn pthread_create(
        thread: *mut usize,
        attributes: *const Attributes,
        run: extern "C" fn(*mut c_void) -> *mut c_void,
        argument: *mut c_void,
    ) -> i32;
    fn pthread_join(thread: usize, result: *mut *mut c_void) -> i32;
}

/// glibc's `pthread_attr_t`, which is 56 bytes long, and more.
type Attributes = [u64; 16];

const SIZE: usize = 1 << 20;
const PAINT: u8 = 0xA5;

struct Call<'c> {
    run: &'c mut dyn FnMut(),
    /// An address of the frame that makes the call.
    caller: usize,
}

#[inline(never)]
extern "C" fn on_the_stack(argument: *mut c_void) -> *mut c_void {
    let mark = 0u8;
    // Safety: `stack_of` lends its call until the thread has ended.
    let call = unsafe { &mut *argument.cast::<Call>() };
    call.caller = black_box(&mark) as *const u8 as usize;
    (call.run)();
    null_mut()
}

/// The bytes of stack between the caller of `run` and the lowest byte that `run` changed.
pub fn stack_of(run: &mut dyn FnMut()) -> usize {
    let layout = Layout::from_size_align(SIZE, 4096).unwrap();
    let mut call = Call { run, caller: 0 };
    // Safety: the stack is ours alone while no thread runs on it, and it outlives the one that does.
    unsafe {
        let stack = alloc(layout);
        assert!(!stack.is_null());
        stack.write_bytes(PAINT, SIZE);
        let mut attributes = [0; 16];
        let mut thread = 0;
        assert_eq!(pthread_attr_init(&mut attributes), 0);
        assert_eq!(pthread_attr_setstack(&mut attributes, stack.cast(), SIZE), 0);
        assert_eq!(pthread_create(&mut thread, &attributes, on_the_stack, (&mut call as *mut Call).cast()), 0);
        assert_eq!(pthread_join(thread, null_mut()), 0);
        pthread_attr_destroy(&mut attributes);
        let untouched = std::slice::from_raw_parts(stack, SIZE).iter().take_while(|&&byte| byte == PAINT).count();
        let used = call.caller - (stack as usize + untouched);
        dealloc(stack, layout);
        used
    }
}
