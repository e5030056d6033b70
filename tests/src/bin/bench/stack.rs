//! How much stack a call uses: it runs on a thread whose stack was painted,
//! and the deepest byte that is no longer painted is looked for.

use std::arch::asm;
use std::ffi::{c_int, c_void};
use std::ptr;

const SIZE: usize = 256 * 1024;
const PAINT: u8 = 0xa5;
/// What is left unpainted below the frame that makes the call, for the painter itself.
const OWN: usize = 64;

/// A stack, aligned as a page.
#[repr(C, align(4096))]
struct Stack([u8; SIZE]);

/// glibc's `pthread_attr_t` has 56 bytes.
#[repr(C, align(8))]
struct Attributes([u8; 64]);

extern "C" {
    fn pthread_attr_init(a: *mut Attributes) -> c_int;
    fn pthread_attr_setstack(a: *mut Attributes, low: *mut c_void, size: usize) -> c_int;
    fn pthread_create(
        thread: *mut usize,
        a: *const Attributes,
        run: extern "C" fn(*mut c_void) -> *mut c_void,
        with: *mut c_void,
    ) -> c_int;
    fn pthread_join(thread: usize, result: *mut *mut c_void) -> c_int;
}

struct Job<'a> {
    low: *mut u8,
    call: &'a mut dyn FnMut(),
    used: usize,
}

/// The bytes of stack down to the deepest one that the call wrote to, from the
/// frame that makes it; 64 where it is fewer.
pub fn used(call: &mut dyn FnMut()) -> usize {
    let mut stack = Box::new(Stack([0; SIZE]));
    let low = stack.0.as_mut_ptr();
    let mut job = Job { low, call, used: 0 };
    let mut attributes = Attributes([0; 64]);
    let mut thread = 0;
    let with = ptr::from_mut(&mut job).cast();
    unsafe {
        assert_eq!(pthread_attr_init(&mut attributes), 0);
        let stack = pthread_attr_setstack(&mut attributes, low.cast(), SIZE);
        assert_eq!(stack, 0, "a stack of its own");
        assert_eq!(pthread_create(&mut thread, &attributes, run, with), 0);
        assert_eq!(pthread_join(thread, ptr::null_mut()), 0);
    }
    job.used
}

/// Paints what is below this frame, makes the call, and looks for the deepest
/// byte that has changed.
extern "C" fn run(with: *mut c_void) -> *mut c_void {
    let job = unsafe { &mut *with.cast::<Job>() };
    let here: usize;
    unsafe { asm!("mov {}, rsp", out(reg) here) };
    let below = here - OWN - job.low as usize;
    unsafe { ptr::write_bytes(job.low, PAINT, below) };
    (job.call)();
    let painted = |at: &usize| unsafe { job.low.add(*at).read_volatile() } == PAINT;
    let untouched = (0..below).take_while(painted).count();
    job.used = here - job.low as usize - untouched;
    ptr::null_mut()
}
