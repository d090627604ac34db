//! Coming to rest: passes in their own order and deliveries in any. Uses the rule, the bounds and the ground.

use crate::compare::bounds;
use crate::compare::call::Call;
use crate::compare::ground::Ground;
use crate::compare::random::Random;
use crate::compare::states;
use crate::second::rule::State;
use crate::second::stored::stored;

/// Passes from a sound state until it is at rest, the core's beside the rule's.
pub fn to_rest(ground: &mut Ground, random: &mut Random) -> Result<(), String> {
    let n = random.node_count();
    let start = states::any(random, n);
    let mut state = start.clone();
    let (mut passes, mut deliveries) = (0, 0);
    bounds::waiting(&state)?;
    while state.total_queued() > 0 {
        let mut after = state.clone();
        let delivered = after.pass();
        if delivered != state.total_queued() {
            return Err(format!("a pass delivered {delivered} of {}", state.total_queued()));
        }
        ground.follow(&Call::Pass, [0, delivered as u32, 0], &state, &after, &[])?;
        state = after;
        passes += 1;
        deliveries += delivered;
        bounds::waiting(&state)?;
        bounds::run(n, passes, deliveries)?;
    }
    bounds::right_at_rest(&state)?;
    let counts = [0, passes as u32, deliveries as u32];
    for allowance in [u8::try_from(passes).expect("at most 40"), 255] {
        ground.follow(&Call::Run { allowance }, counts, &start, &state, &[])?;
    }
    Ok(())
}

/// How the next queue of a pass is chosen.
#[derive(Clone, Copy)]
enum Choice {
    Any,
    Backward,
    Bursts,
    LeastServed,
}

/// Passes in which every queue gives up what it held when the pass began, in any order and mixed.
pub fn any_order(ground: &mut Ground, random: &mut Random) -> Result<(), String> {
    // Every delivery is compared, so the states are kept small; now and then the rule goes alone in a large one.
    let alone = random.chance(2);
    let n = if alone { random.between(13, 40) } else { random.between(1, 9) };
    let mut state = states::any(random, n);
    let choice = *random.pick(&[Choice::Any, Choice::Backward, Choice::Bursts, Choice::LeastServed]);
    let (mut passes, mut deliveries) = (0, 0);
    while state.total_queued() > 0 {
        passes += 1;
        let mut owed: Vec<(usize, usize, usize)> =
            states::filled(&state).into_iter().map(|(w, u)| (w, u, state.queues[w][u].len())).collect();
        while !owed.is_empty() {
            let at = choose(random, choice, &owed);
            let (from, to, left) = owed[at];
            if left == 1 {
                owed.remove(at);
            } else {
                owed[at].2 -= 1;
            }
            deliver(ground, &mut state, from, to, alone)?;
            deliveries += 1;
            bounds::waiting(&state)?;
        }
        bounds::run(n, passes, deliveries)?;
    }
    bounds::right_at_rest(&state)?;
    ground.agree(&stored(&state), &Call::Check)?;
    Ok(())
}

fn choose(random: &mut Random, choice: Choice, owed: &[(usize, usize, usize)]) -> usize {
    match choice {
        Choice::Bursts if random.chance(80) => 0,
        Choice::Any | Choice::Bursts => random.below(owed.len()),
        Choice::Backward => owed.len() - 1,
        Choice::LeastServed => (0..owed.len()).max_by_key(|&at| owed[at].2).expect("one is owed"),
    }
}

fn deliver(ground: &mut Ground, state: &mut State, from: usize, to: usize, alone: bool) -> Result<(), String> {
    if alone {
        state.deliver(from, to);
        return Ok(());
    }
    let mut after = state.clone();
    after.deliver(from, to);
    ground.follow(&Call::Deliver { from, to }, [0, 0, 0], state, &after, &[])?;
    *state = after;
    Ok(())
}
