//! What the archive's numbers say: done, or a refusal. Uses the foreign calls' answers and the refusals.

use crate::ffi;
use crate::refusal::Refusal;

pub fn done(code: u32) -> Result<(), Refusal> {
    match code {
        0 => Ok(()),
        code => Err(Refusal::of_number(code).expect("the archive gives the numbers that this crate knows")),
    }
}

pub fn answered(answer: ffi::Answer) -> Result<usize, Refusal> {
    done(answer.code)?;
    Ok(answer.value as usize)
}
