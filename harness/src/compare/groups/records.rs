//! Records: reading any bytes, writing every kind. Uses the ground and the second's records.

use crate::compare::ground::{Ground, hex};
use crate::compare::random::Random;
use crate::second::records::{Event, record};

const KINDS: [u16; 6] = [15, 16, 17, 18, 19, 20];

fn number(random: &mut Random) -> u16 {
    match random.below(4) {
        0 => random.below(45) as u16,
        1 => *random.pick(&[0, 1, 39, 40, 41, 255, 256, 257, 32_767, 32_768, 65_535]),
        _ => random.word() as u16,
    }
}

pub fn event(random: &mut Random) -> Event {
    let kind = *random.pick(&KINDS);
    Event::of(u32::from(kind), number(random), number(random)).expect("a known kind")
}

pub fn kinds(ground: &mut Ground) -> Result<u64, String> {
    let far =
        [255, 256, 271, 276, 65_535, 65_551, 65_552, 65_556, (1 << 31) + 15, (1 << 31) + 20, u32::MAX - 1, u32::MAX];
    let mut count = 0;
    for kind in (0..40).chain(far) {
        for room in 0..12 {
            for (first, second) in [(0, 0), (1, 2), (0xabcd, 0x1234), (65_535, 65_535)] {
                ground.agree_write(kind, first, second, room)?;
                count += 1;
            }
        }
    }
    Ok(count)
}

/// Every front of a record: each kind near the known ones with each length near theirs, cut at every byte.
pub fn fronts(ground: &mut Ground) -> Result<u64, String> {
    let lengths = (0..12_u16).chain([256, 258, 260, 262, 512, 1024, 1536, 65_534, 65_535]);
    let mut count = 0;
    for length in lengths {
        for kind in (0..30_u16).chain([255, 256, 271, 276, 3840, 4096, 4864, 5120, 65_535]) {
            let whole = [length, kind, 0x0201, 0x0403, 0x0605].map(u16::to_le_bytes).concat();
            for end in 0..=whole.len() {
                ground.agree_read(&whole[..end], 0)?;
                count += 1;
            }
        }
    }
    Ok(count)
}

pub fn write(ground: &mut Ground, random: &mut Random) -> Result<(), String> {
    let event = event(random);
    let (record, numbers) = (event.record(), event.numbers());
    let given = |at: usize, random: &mut Random| numbers.get(at).copied().unwrap_or_else(|| number(random));
    let (first, second) = (given(0, random), given(1, random));
    let room = record.len() + *random.pick(&[0, 0, 1, 9]);
    ground.agree_write(u32::from(event.kind()), first, second, room)?;
    let before = random.below(5);
    let bytes = [random.bytes(before), record.clone()].concat();
    let (read, place) = ground.agree_read(&bytes, before)?;
    if place != bytes.len() || read.kind != u32::from(event.kind()) {
        return Err(format!("{event:?} was not read back from {}", hex(&bytes)));
    }
    Ok(())
}

/// A run of records, some of them damaged, or any bytes with some that look like a record's front.
pub fn script(random: &mut Random) -> Vec<u8> {
    let mut bytes = Vec::new();
    for _ in 0..random.below(8) {
        match random.below(10) {
            0 => {
                let count = random.below(6);
                bytes.extend(random.bytes(count));
            }
            1 => bytes.extend(record(*random.pick(&[0, 1, 14, 21, 255, 276, 3840]), &[1, 2])),
            2 => {
                let length = *random.pick(&[0_u16, 1, 2, 3, 4, 5, 6, 7, 8, 256, 260, 65_535]);
                bytes.extend([length, *random.pick(&KINDS), 1, 2].map(u16::to_le_bytes).concat());
            }
            _ => bytes.extend(event(random).record()),
        }
    }
    if random.chance(30) {
        bytes.truncate(random.below(bytes.len() + 1));
    }
    if random.chance(30) && !bytes.is_empty() {
        let at = random.below(bytes.len());
        bytes[at] = random.byte();
    }
    bytes
}

pub fn read(ground: &mut Ground, random: &mut Random) -> Result<(), String> {
    let bytes = script(random);
    // One after another as a reader goes, then at every place and past the end.
    let mut place = 0;
    loop {
        let (read, next) = ground.agree_read(&bytes, place)?;
        if read.kind == 0 {
            break;
        }
        place = next;
    }
    let past = [bytes.len() + 1, bytes.len() + 2, bytes.len() + 65_536, 1 << 32, usize::MAX - 3, usize::MAX];
    for place in (0..=bytes.len()).chain(past) {
        ground.agree_read(&bytes, place)?;
    }
    Ok(())
}
