//! What a core is asked: the calls of include/hop.h on slices, with their answers as they come. Uses nothing.
//! The answers are whole, so that 'zero in every other answer' of a refusal can be seen.

/// A number, and one answer.
#[repr(C)]
#[derive(Clone, Copy, PartialEq, Eq, Debug, Default)]
pub struct Answer {
    pub code: u32,
    pub value: u32,
}

/// What a run did.
#[repr(C)]
#[derive(Clone, Copy, PartialEq, Eq, Debug, Default)]
pub struct Ran {
    pub code: u32,
    pub passes: u32,
    pub deliveries: u32,
}

/// A way to a destination: its hops, and the neighbour to send through.
#[repr(C)]
#[derive(Clone, Copy, PartialEq, Eq, Debug, Default)]
pub struct Way {
    pub code: u32,
    pub distance: u32,
    pub downstream: u32,
}

/// An event that was read; kind 0 is the plain end, or a refusal.
#[repr(C)]
#[derive(Clone, Copy, PartialEq, Eq, Debug, Default)]
pub struct Read {
    pub code: u32,
    pub kind: u32,
    pub first: u32,
    pub second: u32,
}

/// A reason: kind 1 is a path and 2 a set, and so many bytes of the list are it.
#[repr(C)]
#[derive(Clone, Copy, PartialEq, Eq, Debug, Default)]
pub struct Reason {
    pub code: u32,
    pub kind: u32,
    pub count: u32,
}

/// A core: the one in the archive, or another that is held against the second implementation.
pub trait Engine {
    fn size(&self, n: usize) -> usize;
    fn make(&self, state: &mut [u8], n: usize) -> u32;
    fn check(&self, state: &[u8]) -> u32;
    fn up(&self, state: &mut [u8], a: usize, b: usize) -> u32;
    fn down(&self, state: &mut [u8], a: usize, b: usize) -> u32;
    fn notice(&self, state: &mut [u8], noticing: usize, other: usize) -> u32;
    fn deliver(&self, state: &mut [u8], from: usize, to: usize) -> u32;
    fn pass(&self, state: &mut [u8]) -> Answer;
    fn run(&self, state: &mut [u8], allowance: u8) -> Ran;
    fn route(&self, state: &[u8], node: usize, destination: usize) -> Way;
    fn queue_length(&self, state: &[u8], from: usize, to: usize) -> Answer;
    fn total_queued(&self, state: &[u8]) -> Answer;
    fn status(&self, state: &[u8], node: usize, out: &mut [u8]) -> Answer;
    fn write_event(&self, kind: u32, first: u16, second: u16, out: &mut [u8]) -> Answer;
    fn read_event(&self, bytes: &[u8], place: &mut usize) -> Read;
    fn worth(&self, state: &[u8], trial: &mut [u8], lines: &mut [i32]) -> Answer;
    fn why(&self, state: &[u8], node: usize, destination: usize, list: &mut [u8]) -> Reason;
}
