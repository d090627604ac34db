//! Buffers between closed pages and guard bytes, and a last word where the core faults or hangs.
//! Uses libc's own calls; together with the archive's module this is the only unsafe code here.
#![allow(unsafe_code)]

use std::ffi::{c_int, c_uint, c_void};
use std::ops::Range;
use std::sync::atomic::{AtomicU8, AtomicUsize, Ordering};

unsafe extern "C" {
    fn mmap(at: *mut c_void, length: usize, access: c_int, flags: c_int, file: c_int, from: i64) -> *mut c_void;
    fn mprotect(at: *mut c_void, length: usize, access: c_int) -> c_int;
    fn signal(number: c_int, handler: extern "C" fn(c_int)) -> *mut c_void;
    fn alarm(seconds: c_uint) -> c_uint;
    fn write(file: c_int, bytes: *const c_void, count: usize) -> isize;
    fn _exit(status: c_int) -> !;
}

const PAGE: usize = 4096;
const GUARD: usize = 64;
const CLOSED: c_int = 0;
const OPEN: c_int = 3;
const PRIVATE_ANONYMOUS: c_int = 0x22;

/// Where a buffer stands in its fence.
#[derive(Clone, Copy, PartialEq, Eq, Debug)]
pub enum Placement {
    /// A closed page before it, guard bytes behind.
    Front,
    /// Guard bytes before it, a closed page behind.
    Back,
    /// Guard bytes on both sides, at a place that is odd, or for numbers aligned for nothing wider.
    Between,
}

impl Placement {
    pub const ALL: [Placement; 3] = [Placement::Front, Placement::Back, Placement::Between];
}

/// Open pages between two closed ones.
pub struct Fence {
    open: &'static mut [u8],
}

fn guard(at: usize) -> u8 {
    (at as u8).wrapping_mul(37) ^ 0xa5
}

impl Fence {
    /// A fence for buffers of at most this many bytes.
    pub fn new(room: usize) -> Fence {
        let open = (room + 2 * GUARD + size_of::<i32>()).next_multiple_of(PAGE);
        // A mapping of its own that is never given back: no other reference to it can be.
        let open = unsafe {
            let all = mmap(std::ptr::null_mut(), open + 2 * PAGE, CLOSED, PRIVATE_ANONYMOUS, -1, 0);
            assert!(all as isize != -1, "no memory for a fence");
            let first = all.byte_add(PAGE);
            assert!(mprotect(first, open, OPEN) == 0, "no memory for a fence");
            std::slice::from_raw_parts_mut(first.cast::<u8>(), open)
        };
        Fence { open }
    }

    /// Puts a buffer's bytes in place, with guard bytes on the open sides. Gives its range.
    pub fn put(&mut self, bytes: &[u8], placement: Placement) -> Range<usize> {
        self.put_aligned(bytes, placement, 1)
    }

    /// Puts a list of numbers in place, in the same way.
    pub fn put_numbers(&mut self, numbers: &[i32], placement: Placement) -> Range<usize> {
        let bytes: Vec<u8> = numbers.iter().flat_map(|number| number.to_ne_bytes()).collect();
        self.put_aligned(&bytes, placement, size_of::<i32>())
    }

    /// The place between two guards is the worst that the alignment allows.
    fn put_aligned(&mut self, bytes: &[u8], placement: Placement, alignment: usize) -> Range<usize> {
        let first = match placement {
            Placement::Front => 0,
            Placement::Back => self.open.len() - bytes.len(),
            Placement::Between => GUARD + alignment,
        };
        let range = first..first + bytes.len();
        for at in self.guards(&range) {
            self.open[at] = guard(at);
        }
        self.open[range.clone()].copy_from_slice(bytes);
        range
    }

    fn guards(&self, range: &Range<usize>) -> impl Iterator<Item = usize> + use<> {
        let before = range.start.saturating_sub(GUARD)..range.start;
        let behind = range.end..(range.end + GUARD).min(self.open.len());
        before.chain(behind)
    }

    pub fn lent(&mut self, range: &Range<usize>) -> &mut [u8] {
        &mut self.open[range.clone()]
    }

    /// A list that was put as numbers.
    pub fn lent_numbers(&mut self, range: &Range<usize>) -> &mut [i32] {
        // Any four bytes are a number, and a list that was put so is aligned.
        let (before, numbers, behind) = unsafe { self.open[range.clone()].align_to_mut::<i32>() };
        assert!(before.is_empty() && behind.is_empty(), "a list stands where its numbers can");
        numbers
    }

    /// The guard bytes are as they were put.
    pub fn intact(&self, range: &Range<usize>) -> bool {
        self.guards(range).all(|at| self.open[at] == guard(at))
    }
}

static LAST_WORD: [AtomicU8; 512] = [const { AtomicU8::new(0) }; 512];
static LAST_WORD_LENGTH: AtomicUsize = AtomicUsize::new(0);

extern "C" fn say_last_word(_: c_int) {
    // Only what a handler may do: loads, write and _exit.
    unsafe {
        for byte in &LAST_WORD[..LAST_WORD_LENGTH.load(Ordering::Relaxed)] {
            let byte = byte.load(Ordering::Relaxed);
            write(1, (&raw const byte).cast(), 1);
        }
        _exit(1)
    }
}

/// What is printed where the process faults, or hangs for so many seconds from now.
pub fn set_last_word(text: &str, seconds: u32) {
    let bytes = &text.as_bytes()[..text.len().min(LAST_WORD.len())];
    for (place, &byte) in LAST_WORD.iter().zip(bytes) {
        place.store(byte, Ordering::Relaxed);
    }
    LAST_WORD_LENGTH.store(bytes.len(), Ordering::Relaxed);
    unsafe { alarm(seconds) };
}

/// Has faults and hangs say the last word instead of dying without one.
pub fn watch() {
    const ILL: c_int = 4;
    const ABRT: c_int = 6;
    const BUS: c_int = 7;
    const FPE: c_int = 8;
    const SEGV: c_int = 11;
    const ALRM: c_int = 14;
    for number in [ILL, ABRT, BUS, FPE, SEGV, ALRM] {
        unsafe { signal(number, say_last_word) };
    }
}
