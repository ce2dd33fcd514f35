//! How much stack a call takes: it runs on a thread whose stack is a region painted with a pattern, and then the lowest byte that
//! has another value is sought.

use std::alloc::{alloc, dealloc, Layout};
use std::ptr::null_mut;

const REGION: usize = 16 << 20;
const PATTERN: u8 = 0xa5;

/// `pthread_attr_t`, which has 56 bytes on x86-64 Linux.
#[repr(C)]
struct Attributes([u64; 7]);

extern "C" {
    fn pthread_attr_init(attributes: *mut Attributes) -> i32;
    fn pthread_attr_setstack(attributes: *mut Attributes, region: *mut u8, length: usize) -> i32;
    fn pthread_create(
        thread: *mut usize,
        attributes: *const Attributes,
        start: extern "C" fn(*mut u8) -> *mut u8,
        task: *mut u8,
    ) -> i32;
    fn pthread_join(thread: usize, result: *mut *mut u8) -> i32;
}

/// A call, the region that it runs on, and the bytes that it took of it.
struct Task<'a> {
    call: &'a mut dyn FnMut(),
    region: *mut u8,
    used: usize,
}

/// Runs the call and measures from this function's frame down, before the thread ends and takes stack itself.
extern "C" fn start(task: *mut u8) -> *mut u8 {
    let task = unsafe { &mut *task.cast::<Task>() };
    (task.call)();
    let top = &raw const task as usize;
    let region = unsafe { std::slice::from_raw_parts(task.region, top - task.region as usize) };
    let untouched = region.iter().take_while(|&&byte| byte == PATTERN).count();
    task.used = region.len() - untouched;
    null_mut()
}

/// The bytes of stack that a call takes.
pub fn used(call: &mut dyn FnMut()) -> usize {
    let layout = Layout::from_size_align(REGION, 4096).expect("a layout");
    let mut attributes = Attributes([0; 7]);
    let mut thread = 0;
    unsafe {
        let region = alloc(layout);
        region.write_bytes(PATTERN, REGION);
        let mut task = Task { call, region, used: 0 };
        assert_eq!(pthread_attr_init(&mut attributes), 0);
        assert_eq!(pthread_attr_setstack(&mut attributes, region, REGION), 0);
        assert_eq!(pthread_create(&mut thread, &attributes, start, (&raw mut task).cast()), 0);
        assert_eq!(pthread_join(thread, &mut null_mut()), 0);
        dealloc(region, layout);
        task.used
    }
}
