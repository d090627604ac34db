//! Every call with every class of number. Uses the ground.

use crate::compare::call::Call;
use crate::compare::damage;
use crate::compare::ground::Ground;
use crate::compare::random::Random;
use crate::compare::states::{self, at_rest_with_ends, pairs};
use crate::second::stored::{Blocks, stored};

/// Numbers at the edges of n and of every width that a caller's number could be cut to.
pub fn classes(n: usize) -> Vec<usize> {
    let mut classes = vec![0, 1, n - 1, n, n + 1, 39, 40, 41, 127, 128, 254, 255, 256, 257, 256 + n, 511];
    classes.extend([65_535, 65_536, 65_537, 65_536 + n - 1, (1 << 31) - 1, 1 << 31, (1 << 32) - 1, 1 << 32]);
    classes.extend([(1 << 32) + 1, (1 << 32) + n - 1, isize::MAX as usize, 1 << 63, usize::MAX - 1, usize::MAX]);
    classes
}

/// All pairs of them, on a sound state of each small node count, and on one in which of each link one end is up.
pub fn every_pair(ground: &mut Ground) -> Result<u64, String> {
    let mut count = 0;
    for n in 1..=4 {
        let random = &mut Random::of_case(0, "every-pair", n as u64);
        for state in [states::any(random, n), at_rest_with_ends(n, &pairs(n))] {
            let bytes = stored(&state);
            let classes = classes(n);
            for &first in &classes {
                let mut calls = vec![Call::Make { n: first }];
                calls.extend([13, 14].map(|room| Call::Status { node: first, room }));
                calls.extend(classes.iter().flat_map(|&second| Call::with_two(first, second)));
                for call in &calls {
                    ground.agree(&bytes, call)?;
                }
                count += calls.len() as u64;
            }
        }
    }
    Ok(count)
}

pub fn arguments(ground: &mut Ground, random: &mut Random) -> Result<(), String> {
    let n = random.node_count();
    let state = states::any(random, n);
    let mut bytes = stored(&state);
    // The numbers are judged after the state: damaged, each of these calls is refused all the same with 3.
    if random.chance(15) {
        let mut blocks = Blocks::read(&bytes);
        damage::bytes(random, &mut blocks, 1);
        bytes = blocks.write();
    }
    let classes = classes(n);
    for _ in 0..(1 + 400 / (n * n)).min(30) {
        let (mut first, mut second) = (*random.pick(&classes), *random.pick(&classes));
        match random.below(4) {
            0 => first = random.below(n),
            1 => second = random.below(n),
            2 => second = first,
            _ => {}
        }
        for call in Call::all(first, second) {
            ground.agree(&bytes, &call)?;
        }
    }
    Ok(())
}
