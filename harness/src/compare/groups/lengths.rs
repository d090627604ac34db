//! Buffers of every length, and making a state in them. Uses the ground.

use crate::compare::call::Call;
use crate::compare::ground::Ground;
use crate::compare::random::Random;
use crate::compare::states;
use crate::second::stored::{size, stored};

pub fn make(ground: &mut Ground, random: &mut Random) -> Result<(), String> {
    let n = random.node_count();
    let exact = size(n);
    let long = exact + random.between(1, 900);
    for length in [0, 1, random.below(exact), exact - 1, exact, exact + 1, long] {
        // Making reads no byte, so that any may stand there: random ones, or a sound state of another size.
        let mut buffer = random.bytes(length);
        if let Some(first) = buffer.first_mut() {
            *first = *random.pick(&[*first, 0, 1, n as u8, 40, 41, 128, 255]);
        }
        if random.chance(30) {
            let other = random.node_count();
            for (place, byte) in buffer.iter_mut().zip(stored(&states::any(random, other))) {
                *place = byte;
            }
        }
        ground.agree(&buffer, &Call::Make { n })?;
        for bad in [0, 41, 255, 256 + n, 65_536 + n, (1 << 32) + n, usize::MAX] {
            ground.agree(&buffer, &Call::Make { n: bad })?;
        }
        let smaller = random.between(1, n);
        ground.agree(&buffer, &Call::Make { n: smaller })?;
    }
    Ok(())
}

pub fn lengths(ground: &mut Ground, random: &mut Random) -> Result<(), String> {
    let n = random.node_count();
    let mut bytes = stored(&states::any(random, n));
    let exact = bytes.len();
    let more = random.between(1, 900);
    bytes.extend(random.bytes(more));
    let some = random.below(exact);
    for length in [0, 1, 2, some, exact - 1, exact, exact + 1, bytes.len()] {
        let mut buffer = bytes[..length.min(bytes.len())].to_vec();
        let (first, second) = (random.below(n + 2), random.below(n + 2));
        let calls = Call::all(first, second);
        for _ in 0..4 {
            let call = random.pick(&calls);
            ground.agree(&buffer, call)?;
        }
        ground.agree(&buffer, &Call::Check)?;
        // Another first byte: not a node count, or one that the buffer is too short or long enough for.
        if let Some(byte) = buffer.first_mut() {
            *byte = *random.pick(&[0, 1, 2, n as u8 - 1, n as u8 + 1, 40, 41, 128, n as u8 + 128, 255]);
            ground.agree(&buffer, &Call::Check)?;
            ground.agree(&buffer, random.pick(&calls))?;
        }
    }
    Ok(())
}
