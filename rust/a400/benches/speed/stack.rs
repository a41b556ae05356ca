// How deep a stack was used: a thread runs on memory of its own, fills what
// lies below its frames with a pattern, does a job, and sees how far down the
// pattern is gone.

use std::alloc::{alloc, dealloc, Layout};
use std::ffi::c_void;

const SIZE: usize = 1 << 20;
// What is left alone below the measuring function, and what its job has above.
const MARGIN: usize = 4096;
const PATTERN: u64 = 0xa5c3_5a3c_96e1_1e69;

// Room enough for a pthread_attr_t on Linux.
#[repr(C, align(16))]
struct Attributes([u64; 16]);

extern "C" {
    fn pthread_attr_init(attributes: *mut Attributes) -> i32;
    fn pthread_attr_setstack(attributes: *mut Attributes, low: *mut c_void, size: usize) -> i32;
    fn pthread_create(
        thread: *mut usize,
        attributes: *const Attributes,
        start: extern "C" fn(*mut c_void) -> *mut c_void,
        argument: *mut c_void,
    ) -> i32;
    fn pthread_join(thread: usize, value: *mut *mut c_void) -> i32;
}

struct Job {
    low: *mut u64,
    work: Box<dyn FnOnce() + Send>,
    depth: usize,
}

// The bytes of stack from a fixed place down to the deepest point that `work`
// reached. The same place holds for every work.
pub fn deepest(work: impl FnOnce() + Send + 'static) -> usize {
    let layout = Layout::from_size_align(SIZE, 1 << 16).expect("a layout");
    // SAFETY: the memory is this function's own, and is the stack of one thread
    // that has ended when it is freed.
    unsafe {
        let low = alloc(layout).cast::<u64>();
        assert!(!low.is_null());
        let mut job = Job { low, work: Box::new(work), depth: 0 };
        let mut attributes = Attributes([0; 16]);
        let mut thread = 0;
        assert_eq!(pthread_attr_init(&mut attributes), 0);
        assert_eq!(pthread_attr_setstack(&mut attributes, low.cast(), SIZE), 0);
        assert_eq!(pthread_create(&mut thread, &attributes, start, (&mut job as *mut Job).cast()), 0);
        assert_eq!(pthread_join(thread, std::ptr::null_mut()), 0);
        dealloc(low.cast(), layout);
        job.depth
    }
}

extern "C" fn start(job: *mut c_void) -> *mut c_void {
    // SAFETY: `deepest` waits for this thread and leaves the job alone.
    let job = unsafe { &mut *job.cast::<Job>() };
    let work = std::mem::replace(&mut job.work, Box::new(|| ()));
    job.depth = measure(job.low, work);
    std::ptr::null_mut()
}

#[inline(never)]
fn measure(low: *mut u64, work: Box<dyn FnOnce() + Send>) -> usize {
    let here = 0u64;
    let top = (&raw const here) as usize;
    let words = (top - MARGIN - low as usize) / 8;
    // SAFETY: these words are of the thread's own stack, below all its frames.
    for place in 0..words {
        unsafe { low.add(place).write_volatile(PATTERN) };
    }
    below_the_margin(work);
    let mut untouched = 0;
    // SAFETY: as above.
    while untouched < words && unsafe { low.add(untouched).read_volatile() } == PATTERN {
        untouched += 1;
    }
    8 * (words - untouched)
}

// Takes up the margin, so that all of the work's stack has the pattern.
#[inline(never)]
fn below_the_margin(work: Box<dyn FnOnce() + Send>) {
    let room = [0u8; 2 * MARGIN];
    std::hint::black_box(&room);
    work();
    std::hint::black_box(&room);
}
