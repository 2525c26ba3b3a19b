// How deep a call goes. A thread of a known stack fills all of it that is free with one word, makes the call, and looks how far down the word is gone.

use std::hint::black_box;
use std::ptr::{read_volatile, write_volatile};

/// The least stack that a product gives a thread.
pub const SIZE: usize = 512 * 1024;
const WORD: u64 = 0x5a5a_a5a5_3c3c_c3c3;

#[repr(C, align(8))]
struct Attributes([u8; 64]);

extern "C" {
    fn pthread_self() -> usize;
    fn pthread_getattr_np(thread: usize, attributes: *mut Attributes) -> i32;
    fn pthread_attr_getstack(attributes: *const Attributes, address: *mut usize, size: *mut usize) -> i32;
    fn pthread_attr_getguardsize(attributes: *const Attributes, size: *mut usize) -> i32;
    fn pthread_attr_destroy(attributes: *mut Attributes) -> i32;
}

/// The lowest address of this thread's stack, whether or not its guard is counted in.
fn lowest() -> usize {
    let (mut attributes, mut address, mut size, mut guard) = (Attributes([0; 64]), 0, 0, 0);
    unsafe {
        assert_eq!(pthread_getattr_np(pthread_self(), &mut attributes), 0);
        assert_eq!(pthread_attr_getstack(&attributes, &mut address, &mut size), 0);
        assert_eq!(pthread_attr_getguardsize(&attributes, &mut guard), 0);
        pthread_attr_destroy(&mut attributes);
    }
    address + guard
}

/// Fills the stack from `low` up to near this function's own frame.
#[inline(never)]
fn fill(low: usize) {
    let here = 0u64;
    let end = (black_box(&here) as *const u64 as usize) - 1024;
    let mut at = low;
    while at < end {
        unsafe { write_volatile(at as *mut u64, WORD) };
        at += 8;
    }
}

/// The first address from `low` on whose word is gone.
#[inline(never)]
fn touched(low: usize) -> usize {
    let mut at = low;
    while unsafe { read_volatile(at as *const u64) } == WORD {
        at += 8;
    }
    at
}

/// Runs it in a thread of `SIZE`; one that needs more ends the program.
pub fn within<R: Send + 'static>(run: impl FnOnce() -> R + Send + 'static) -> R {
    std::thread::Builder::new().stack_size(SIZE).spawn(run).unwrap().join().unwrap()
}

/// How many bytes of stack a call takes, its arguments and its answer among them, in a thread of `SIZE`.
pub fn depth(call: impl FnOnce() + Send + 'static) -> usize {
    within(move || {
        let low = lowest();
        let here = 0u64;
        let base = black_box(&here) as *const u64 as usize;
        fill(low);
        call();
        base - touched(low)
    })
}
