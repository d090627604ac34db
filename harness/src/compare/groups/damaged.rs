//! Stored states that are not sound, or only look so. Uses the damages and the ground.

use super::runs::behind;
use crate::compare::call::Call;
use crate::compare::damage::{self, DAMAGES, LONE};
use crate::compare::ground::{Ground, outcome};
use crate::compare::random::Random;
use crate::compare::states;
use crate::second::rule::State;
use crate::second::sound::broken;
use crate::second::stored::{Blocks, size, stored};

/// The check, and two more calls: each of them judges the state for itself. Where the check refuses it, so do a route, a
/// queue length, the total and a notice: for these the second implementation need not read it again.
pub fn judged(ground: &mut Ground, random: &mut Random, buffer: &[u8]) -> Result<(), String> {
    let should = outcome(buffer, &Call::Check);
    ground.hold(buffer, &Call::Check, &should)?;
    let n = usize::from(buffer[0]).max(1);
    let (x, y) = (random.below(n), random.below(n));
    if should.answers[0] != 0 {
        ground.hold(buffer, &Call::Route { node: x, destination: y }, &should)?;
        ground.hold(buffer, &Call::QueueLength { from: x, to: y }, &should)?;
        ground.hold(buffer, &Call::TotalQueued, &should)?;
        ground.hold(buffer, &Call::Notice { noticing: x, other: y }, &should)?;
    }
    let calls = Call::all(x, y);
    for _ in 0..2 {
        ground.agree(buffer, random.pick(&calls))?;
    }
    Ok(())
}

/// A state's bytes with others behind them; often damaged, at times cut or with another first byte.
pub fn spoiled(random: &mut Random, state: &State) -> Vec<u8> {
    let mut blocks = Blocks::of(state);
    match random.below(5) {
        0 => damage::bytes(random, &mut blocks, 1),
        1 => _ = random.pick(DAMAGES)(random, &mut blocks),
        _ => {}
    }
    let mut bytes = [blocks.write(), behind(random)].concat();
    match random.below(10) {
        0 => bytes.truncate(random.below(bytes.len())),
        1 => bytes[0] = *random.pick(&[0, 41, 128, 255]),
        _ => {}
    }
    bytes
}

pub fn bytes(ground: &mut Ground, random: &mut Random) -> Result<(), String> {
    let n = random.node_count();
    let whole = Blocks::of(&states::any(random, n));
    for _ in 0..(1 + 200 / (n * n)).min(20) {
        let mut blocks = whole.clone();
        let count = *random.pick(&[1, 1, 1, 2, 5]);
        damage::bytes(random, &mut blocks, count);
        judged(ground, random, &blocks.write())?;
    }
    Ok(())
}

pub fn stretches(ground: &mut Ground, random: &mut Random) -> Result<(), String> {
    let n = random.node_count();
    let mut buffer = stored(&states::any(random, n));
    damage::stretch(random, &mut buffer);
    judged(ground, random, &buffer)
}

pub fn random_bytes(ground: &mut Ground, random: &mut Random) -> Result<(), String> {
    let n = random.node_count();
    let length = match random.below(3) {
        0 => random.between(1, 400),
        1 => size(n),
        _ => size(n) + random.below(100),
    };
    let mut buffer = match random.below(3) {
        0 => vec![random.byte(); length],
        1 => (0..length).map(|_| random.below(n + 1) as u8).collect(),
        _ => random.bytes(length),
    };
    if random.chance(80) {
        buffer[0] = n as u8;
    }
    judged(ground, random, &buffer)
}

/// Of each node count a site with many ends up alone, and every way to break what is asked of them.
pub fn lone_ends(ground: &mut Ground) -> Result<u64, String> {
    let mut count = 0;
    for n in 2..=40 {
        let random = &mut Random::of_case(0, "damaged-ends", n as u64);
        let whole = Blocks::of(&states::with_lone_ends(random, n));
        for damage in LONE.iter().chain(LONE) {
            let mut blocks = whole.clone();
            let Some(clause) = damage(random, &mut blocks) else { continue };
            if !broken(&blocks).contains(&clause) {
                return Err(format!("n = {n}: a damage did not break {clause:?}"));
            }
            ground.refuse(&blocks.write(), &Call::Check, 3).map_err(|what| format!("n = {n}: {what}"))?;
            count += 1;
        }
    }
    Ok(count)
}

pub fn clauses(ground: &mut Ground, random: &mut Random) -> Result<(), String> {
    let n = random.node_count();
    let whole = Blocks::of(&states::any(random, n));
    // All ways to break a small state, some for a large one.
    let share = if n <= 8 { 100 } else { 15 };
    for damage in DAMAGES {
        let mut blocks = whole.clone();
        if !random.chance(share) {
            continue;
        }
        let Some(clause) = damage(random, &mut blocks) else { continue };
        if !broken(&blocks).contains(&clause) {
            return Err(format!("a damage did not break {clause:?}: {blocks:?}"));
        }
        judged(ground, random, &blocks.write())?;
    }
    Ok(())
}
