//! The documents' numbers and the sizes, through the core. Uses the list of numbers.

use crate::compare::ground::Ground;
use crate::engine::Engine;
use crate::numbers::{NUMBERS, same};
use crate::second::Second;

pub fn numbers(ground: &mut Ground) -> Result<u64, String> {
    for (name, check) in NUMBERS {
        check(ground.core).map_err(|what| format!("{name}: {what}"))?;
    }
    Ok(NUMBERS.len() as u64)
}

pub fn sizes(ground: &mut Ground) -> Result<u64, String> {
    let far = [255, 256, 257, 296, 65_535, 65_536, 65_537, 65_576, 1 << 32, (1 << 32) + 1, usize::MAX - 1, usize::MAX];
    let mut count = 0;
    for n in (0..200).chain(far) {
        same(&format!("size of {n}"), ground.core.size(n), Second.size(n))?;
        count += 1;
    }
    Ok(count)
}
