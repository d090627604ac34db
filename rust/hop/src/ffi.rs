//! The calls of include/hop.h on slices: the only unsafe code of the crate. Uses the archive.
//! A slice is valid for its length, aligned as its numbers are and lent for the call's own time, and what is lent as
//! `&mut` cannot overlap anything else that is lent: that is all that the header asks of a caller.
#![allow(unsafe_code)]

#[repr(C)]
pub struct Answer {
    pub code: u32,
    pub value: u32,
}

#[repr(C)]
pub struct Ran {
    pub code: u32,
    pub passes: u32,
    pub deliveries: u32,
}

#[repr(C)]
pub struct Way {
    pub code: u32,
    pub distance: u32,
    pub downstream: u32,
}

#[repr(C)]
pub struct Read {
    pub code: u32,
    pub kind: u32,
    pub first: u32,
    pub second: u32,
}

#[repr(C)]
pub struct Why {
    pub code: u32,
    pub kind: u32,
    pub count: u32,
}

unsafe extern "C" {
    fn hop_size(n: usize) -> usize;
    fn hop_make(state: *mut u8, len: usize, n: usize) -> u32;
    fn hop_check(state: *const u8, len: usize) -> u32;
    fn hop_up(state: *mut u8, len: usize, a: usize, b: usize) -> u32;
    fn hop_down(state: *mut u8, len: usize, a: usize, b: usize) -> u32;
    fn hop_notice(state: *mut u8, len: usize, noticing: usize, other: usize) -> u32;
    fn hop_deliver(state: *mut u8, len: usize, from: usize, to: usize) -> u32;
    fn hop_pass(state: *mut u8, len: usize) -> Answer;
    fn hop_run(state: *mut u8, len: usize, allowance: u8) -> Ran;
    fn hop_route(state: *const u8, len: usize, node: usize, destination: usize) -> Way;
    fn hop_queue_length(state: *const u8, len: usize, from: usize, to: usize) -> Answer;
    fn hop_total_queued(state: *const u8, len: usize) -> Answer;
    fn hop_worth(
        state: *const u8,
        len: usize,
        trial: *mut u8,
        trial_len: usize,
        lines: *mut i32,
        lines_len: usize,
    ) -> Answer;
    fn hop_why(state: *const u8, len: usize, node: usize, destination: usize, list: *mut u8, list_len: usize) -> Why;
    fn hop_status(state: *const u8, len: usize, node: usize, out: *mut u8, out_len: usize) -> Answer;
    fn hop_write_event(kind: u32, first: u16, second: u16, out: *mut u8, out_len: usize) -> Answer;
    fn hop_read_event(bytes: *const u8, len: usize, place: *mut usize) -> Read;
}

pub fn size(n: usize) -> usize {
    unsafe { hop_size(n) }
}

pub fn make(state: &mut [u8], n: usize) -> u32 {
    unsafe { hop_make(state.as_mut_ptr(), state.len(), n) }
}

pub fn check(state: &[u8]) -> u32 {
    unsafe { hop_check(state.as_ptr(), state.len()) }
}

pub fn up(state: &mut [u8], a: usize, b: usize) -> u32 {
    unsafe { hop_up(state.as_mut_ptr(), state.len(), a, b) }
}

pub fn down(state: &mut [u8], a: usize, b: usize) -> u32 {
    unsafe { hop_down(state.as_mut_ptr(), state.len(), a, b) }
}

pub fn notice(state: &mut [u8], noticing: usize, other: usize) -> u32 {
    unsafe { hop_notice(state.as_mut_ptr(), state.len(), noticing, other) }
}

pub fn deliver(state: &mut [u8], from: usize, to: usize) -> u32 {
    unsafe { hop_deliver(state.as_mut_ptr(), state.len(), from, to) }
}

pub fn pass(state: &mut [u8]) -> Answer {
    unsafe { hop_pass(state.as_mut_ptr(), state.len()) }
}

pub fn run(state: &mut [u8], allowance: u8) -> Ran {
    unsafe { hop_run(state.as_mut_ptr(), state.len(), allowance) }
}

pub fn route(state: &[u8], node: usize, destination: usize) -> Way {
    unsafe { hop_route(state.as_ptr(), state.len(), node, destination) }
}

pub fn queue_length(state: &[u8], from: usize, to: usize) -> Answer {
    unsafe { hop_queue_length(state.as_ptr(), state.len(), from, to) }
}

pub fn total_queued(state: &[u8]) -> Answer {
    unsafe { hop_total_queued(state.as_ptr(), state.len()) }
}

pub fn worth(state: &[u8], trial: &mut [u8], lines: &mut [i32]) -> Answer {
    unsafe { hop_worth(state.as_ptr(), state.len(), trial.as_mut_ptr(), trial.len(), lines.as_mut_ptr(), lines.len()) }
}

pub fn why(state: &[u8], node: usize, destination: usize, list: &mut [u8]) -> Why {
    unsafe { hop_why(state.as_ptr(), state.len(), node, destination, list.as_mut_ptr(), list.len()) }
}

pub fn status(state: &[u8], node: usize, out: &mut [u8]) -> Answer {
    unsafe { hop_status(state.as_ptr(), state.len(), node, out.as_mut_ptr(), out.len()) }
}

pub fn write_event(kind: u32, first: u16, second: u16, out: &mut [u8]) -> Answer {
    unsafe { hop_write_event(kind, first, second, out.as_mut_ptr(), out.len()) }
}

pub fn read_event(bytes: &[u8], place: &mut usize) -> Read {
    unsafe { hop_read_event(bytes.as_ptr(), bytes.len(), place) }
}
