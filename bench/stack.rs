//! How much stack a call needs, by a thread whose stack is painted before and looked at after the call.

use std::ffi::c_void;

extern "C" {
    fn pthread_attr_init(attributes: *mut c_void) -> i32;
    fn pthread_attr_setstack(attributes: *mut c_void, lowest: *mut c_void, size: usize) -> i32;
    fn pthread_create(thread: *mut usize, attributes: *const c_void, start: extern "C" fn(*mut c_void) -> *mut c_void, given: *mut c_void) -> i32;
    fn pthread_join(thread: usize, returned: *mut *mut c_void) -> i32;
}

const STACK: usize = 4 << 20;
const PAGE: usize = 4_096;
const PAINT: u8 = 0xa5;

/// What the thread is given and gives back.
struct Call<'a> {
    call: &'a mut dyn FnMut(),
    lowest: *const u8,
    depth: usize,
}

/// Makes the call; the depth is the distance from here to the lowest byte that is not as painted.
extern "C" fn run(given: *mut c_void) -> *mut c_void {
    let given = unsafe { &mut *(given as *mut Call) };
    let here = 0u8;
    let here = std::hint::black_box(&here) as *const u8;
    (given.call)();
    let mut lowest = given.lowest;
    while unsafe { lowest.read_volatile() } == PAINT {
        lowest = lowest.wrapping_add(1);
    }
    given.depth = here as usize - lowest as usize;
    std::ptr::null_mut()
}

/// The stack that a call has needed, in bytes, with its arguments and return address.
pub fn depth(call: &mut dyn FnMut()) -> usize {
    let mut memory = vec![PAINT; STACK + PAGE];
    let lowest = unsafe { memory.as_mut_ptr().add(memory.as_ptr().align_offset(PAGE)) };
    let mut given = Call { call, lowest, depth: 0 };
    let (mut attributes, mut thread) = ([0u64; 16], 0);
    let attributes = attributes.as_mut_ptr() as *mut c_void;
    let done = unsafe {
        pthread_attr_init(attributes) == 0
            && pthread_attr_setstack(attributes, lowest as *mut c_void, STACK) == 0
            && pthread_create(&mut thread, attributes, run, &mut given as *mut Call as *mut c_void) == 0
            && pthread_join(thread, std::ptr::null_mut()) == 0
    };
    assert!(done, "no thread with a stack of its own");
    given.depth
}
