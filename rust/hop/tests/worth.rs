//! What each link is worth, through the safe crate: the known numbers, refusals, what stays untouched, and every line
//! against a trial that is made by hand. Uses the crate as its users do.

use hop::{Refusal, State, Worth};

type Done = Result<(), Refusal>;

fn at_rest(n: usize, links: &[(usize, usize)]) -> Result<State<Vec<u8>>, Refusal> {
    let mut state = State::new(n)?;
    for &(a, b) in links {
        state.up(a, b)?;
    }
    state.run(255)?;
    Ok(state)
}

/// A list as the core writes it, with what it held before behind the lines.
fn list_of(state: &State<Vec<u8>>, mut list: Vec<i32>) -> Result<Vec<i32>, Refusal> {
    let mut trial = vec![0; state.as_bytes().len()];
    state.write_worth(&mut trial, &mut list)?;
    Ok(list)
}

/// The line of a pair by the crate's other calls, on a copy.
fn tried(state: &State<Vec<u8>>, n: usize, a: usize, b: usize) -> Result<Worth, Refusal> {
    let mut trial = state.clone();
    match state.route(a, b)?.distance {
        1 => trial.down(a, b)?,
        _ => trial.up(a, b)?,
    }
    let ran = trial.run(255)?;
    assert_eq!(trial.total_queued()?, 0);
    let mut line = Worth { a, b, passes: ran.passes, deliveries: ran.deliveries, lost: 0, gained: 0, change: 0 };
    for (u, v) in (0..n).flat_map(|u| (0..n).map(move |v| (u, v))) {
        let (before, after) = (state.route(u, v)?.distance, trial.route(u, v)?.distance);
        match (before < n, after < n) {
            (true, true) => line.change += after as i32 - before as i32,
            (true, false) => line.lost += 1,
            (false, true) => line.gained += 1,
            (false, false) => {}
        }
    }
    Ok(line)
}

#[test]
fn known_numbers() -> Done {
    let line = at_rest(3, &[(0, 1), (1, 2)])?;
    let list = [0, 1, 2, 2, 4, 0, 0, 0, 2, 2, 9, 0, 0, -2, 1, 2, 2, 2, 4, 0, 0];
    assert_eq!(list_of(&line, vec![77; 21])?, list);
    assert_eq!(list_of(&at_rest(2, &[])?, vec![77; 7])?, [0, 1, 2, 5, 0, 2, 0]);
    assert_eq!(list_of(&at_rest(2, &[(0, 1)])?, vec![77; 7])?, [0, 1, 0, 0, 2, 0, 0]);
    Ok(())
}

#[test]
fn lines_are_the_lists_numbers_by_name() -> Done {
    let state = at_rest(3, &[(0, 1), (1, 2)])?;
    let cut = Worth { a: 0, b: 1, passes: 2, deliveries: 2, lost: 4, gained: 0, change: 0 };
    let added = Worth { a: 0, b: 2, passes: 2, deliveries: 9, lost: 0, gained: 0, change: -2 };
    assert_eq!(state.worth()?, [cut, added, Worth { a: 1, b: 2, ..cut }]);
    let (mut trial, mut list) = (vec![0; 118], vec![0; 21]);
    let mut lines = state.write_worth(&mut trial, &mut list)?;
    assert_eq!((lines.len(), lines.next(), lines.len()), (3, Some(cut), 2));
    assert_eq!(lines.by_ref().count(), 2);
    assert_eq!(lines.next(), None);
    Ok(())
}

#[test]
fn every_line_is_a_trial_by_hand() -> Done {
    // A triangle, a square, the one link between them, and a node that has none.
    let links = [(0, 1), (0, 2), (1, 2), (2, 3), (3, 4), (4, 5), (5, 6), (3, 6)];
    let state = at_rest(8, &links)?;
    let lines = state.worth()?;
    assert_eq!(lines.len(), 28);
    let pairs = (0..8).flat_map(|a| (a + 1..8).map(move |b| (a, b)));
    for (line, (a, b)) in lines.into_iter().zip(pairs) {
        assert_eq!(line, tried(&state, 8, a, b)?);
        assert_eq!(line.is_up(), links.contains(&(a, b)), "{line:?}");
        if line.is_up() {
            assert!(line.gained == 0 && line.change >= 0, "{line:?}");
        } else {
            assert!(line.lost == 0 && line.change <= 0, "{line:?}");
        }
        let told = [line.lost > 0, line.gained > 0, line.change != 0];
        assert_eq!(told.iter().filter(|&&not_zero| not_zero).count(), 1, "{line:?}");
    }
    Ok(())
}

#[test]
fn the_state_stays_and_the_trial_is_its_copy() -> Done {
    let state = at_rest(4, &[(0, 1), (1, 2), (0, 2), (2, 3)])?;
    // The state stands in a longer buffer that is lent for reading; trial and list are longer than needed too.
    let mut bytes = state.into_inner();
    bytes.extend([0xee; 5]);
    let before = bytes.clone();
    let (mut trial, mut list) = (vec![0xdd; 257 + 9], vec![-1_234_567; 42 + 3]);
    let lines = State::over(&bytes[..]).write_worth(&mut trial, &mut list)?;
    assert_eq!(lines.len(), 6);
    assert_eq!(bytes, before);
    assert_eq!(trial[..257], before[..257]);
    assert_eq!(trial[257..], [0xdd; 9]);
    assert!(list[..42].iter().all(|&number| number != -1_234_567));
    assert_eq!(list[42..], [-1_234_567; 3]);
    assert_eq!(State::over(&bytes[..]).worth()?.len(), 6);
    assert_eq!(State::over(&trial[..]).check(), Ok(()));
    Ok(())
}

/// Refused as said, with trial and list as they were.
fn refused(bytes: &[u8], trial: usize, list: usize) -> Refusal {
    let (mut trial, mut list) = (vec![0xdd; trial], vec![-77; list]);
    let refusal = State::over(bytes).write_worth(&mut trial, &mut list).unwrap_err();
    assert!(trial.iter().all(|&byte| byte == 0xdd) && list.iter().all(|&number| number == -77));
    refusal
}

#[test]
fn short_trial_and_short_list() -> Done {
    let bytes = at_rest(3, &[(0, 1), (1, 2)])?.into_inner();
    for (trial, list) in [(117, 21), (118, 20), (117, 20), (0, 21), (118, 0), (0, 0)] {
        assert_eq!(refused(&bytes, trial, list), Refusal::ShortBuffer);
    }
    assert_eq!(State::over(&bytes[..]).write_worth(&mut [0; 118], &mut [0; 21])?.len(), 3);
    Ok(())
}

#[test]
fn not_at_rest_is_judged_after_sound_and_before_short() -> Done {
    let mut state = State::new(3)?;
    state.up(0, 1)?;
    assert_eq!(state.worth().unwrap_err(), Refusal::NotAtRest);
    assert_eq!(state.worth().unwrap_err().number(), 12);
    assert_eq!(refused(state.as_bytes(), 118, 21), Refusal::NotAtRest);
    assert_eq!(refused(state.as_bytes(), 0, 0), Refusal::NotAtRest);
    // One entry that waits is enough.
    while state.total_queued()? > 1 {
        let from = if state.queue_length(0, 1)? > 0 { 0 } else { 1 };
        state.deliver(from, 1 - from)?;
    }
    assert_eq!(state.worth().unwrap_err(), Refusal::NotAtRest);
    let mut bytes = state.into_inner();
    bytes[1] = 1;
    assert_eq!(refused(&bytes, 0, 0), Refusal::NotSound);
    assert_eq!(State::over(&bytes[..]).worth(), Err(Refusal::NotSound));
    assert_eq!(refused(&bytes[..117], 118, 21), Refusal::ShortBuffer);
    assert_eq!(State::over(&bytes[..117]).worth(), Err(Refusal::ShortBuffer));
    bytes[0] = 41;
    assert_eq!(refused(&bytes[..1], 0, 0), Refusal::NodeCount);
    assert_eq!(State::over(&bytes[..1]).worth(), Err(Refusal::NodeCount));
    assert_eq!(refused(&[], 8, 0), Refusal::ShortBuffer);
    assert_eq!(State::over([]).worth(), Err(Refusal::ShortBuffer));
    Ok(())
}

#[test]
fn a_pair_with_one_end_up_has_no_line() -> Done {
    // A triangle, a square and the one link between them. Two links are lost by one end.
    let links = [(0, 1), (0, 2), (1, 2), (2, 3), (3, 4), (4, 5), (5, 6), (3, 6)];
    let mut state = at_rest(7, &links)?;
    let mut left: Vec<_> = (0..7).flat_map(|a| (a + 1..7).map(move |b| (a, b))).collect();
    for (noticing, other) in [(4, 3), (0, 1)] {
        state.notice(noticing, other)?;
        assert_eq!(refused(state.as_bytes(), 0, 0), Refusal::NotAtRest);
        state.run(255)?;
        left.retain(|&pair| pair != (other.min(noticing), other.max(noticing)));
        // Every other pair has its line, which goes by the tables, and the list takes seven numbers for each and no more.
        let lines = state.worth()?;
        assert!(lines.iter().map(|line| (line.a, line.b)).eq(left.iter().copied()));
        for line in &lines {
            assert_eq!(*line, tried(&state, 7, line.a, line.b)?);
        }
        assert_eq!(list_of(&state, vec![-77; 7 * left.len()])?.len(), 7 * left.len());
        assert_eq!(refused(state.as_bytes(), state.as_bytes().len(), 7 * left.len() - 1), Refusal::ShortBuffer);
        let longest = list_of(&state, vec![-77; Worth::list_size(7).expect("7 is a node count")])?;
        assert!(longest[7 * left.len()..].iter().all(|&number| number == -77));
        let mut trial = vec![0; state.as_bytes().len()];
        state.write_worth(&mut trial, &mut [0; Worth::LONGEST_LIST])?;
        assert_eq!(trial, state.as_bytes());
    }
    Ok(())
}

#[test]
fn lines_beside_a_link_with_one_end_up_go_by_the_tables() -> Done {
    // A triangle in which 0 notices the loss of 1. Without 0-2 both routes of 0 are lost, and 2 goes to 0 by way of 1,
    // which goes over the dead link. Without 1-2 nobody reaches 1, which goes to 2 over the dead link.
    let mut state = at_rest(3, &[(0, 1), (0, 2), (1, 2)])?;
    state.notice(0, 1)?;
    state.run(255)?;
    assert_eq!(list_of(&state, vec![77; 15])?, [0, 2, 1, 1, 2, 0, 1, 1, 2, 2, 2, 2, 0, 1, 77]);
    // A triangle of which 2 alone has noticed that its links are lost. What it said of the two others is written over, by
    // hand: each of them then counts on 2 for the other, and 0-1 is missed by nobody.
    let mut state = at_rest(3, &[(0, 1), (0, 2), (1, 2)])?;
    for node in [0, 1] {
        state.notice(2, node)?;
    }
    state.run(255)?;
    assert_eq!(state.worth()?, [Worth { a: 0, b: 1, passes: 0, deliveries: 0, lost: 0, gained: 0, change: 2 }]);
    assert!(state.worth()?[0].is_up());
    let mut bytes = state.into_inner();
    for view in [35, 43] {
        assert_eq!(std::mem::replace(&mut bytes[view], 0), 1);
    }
    let line = State::over(&bytes[..]).worth()?[0];
    assert_eq!(((line.a, line.b), (line.lost, line.gained, line.change), line.is_up()), ((0, 1), (0, 0, 0), false));
    // Two nodes, one end up: no pair is left, and no number is needed.
    let mut two = at_rest(2, &[(0, 1)])?;
    two.notice(1, 0)?;
    assert_eq!((two.worth()?, list_of(&two, Vec::new())?), (vec![], vec![]));
    Ok(())
}

#[test]
fn one_node_has_no_lines_and_is_copied() -> Done {
    let state = State::new(1)?;
    assert_eq!(state.worth()?, []);
    let (mut trial, mut list) = ([0xdd; 9], [-77]);
    assert_eq!(state.write_worth(&mut trial, &mut list)?.len(), 0);
    assert_eq!((trial, list), ([1, 0, 0, 0, 1, 0, 0, 0, 0xdd], [-77]));
    assert_eq!(state.write_worth(&mut trial[..8], &mut [])?.len(), 0);
    assert_eq!(refused(state.as_bytes(), 7, 1), Refusal::ShortBuffer);
    Ok(())
}

#[test]
fn forty_nodes_have_780_lines() -> Done {
    let state = State::new(40)?;
    let (mut trial, mut list) = (vec![0; 198_401], vec![0; Worth::LONGEST_LIST]);
    assert_eq!((Worth::list_size(40), list.len()), (Some(5_460), 5_460));
    let lines = state.write_worth(&mut trial, &mut list)?;
    assert_eq!(lines.len(), 780);
    let pairs = (0..40).flat_map(|a| (a + 1..40).map(move |b| (a, b)));
    assert!(lines.clone().map(|line| (line.a, line.b)).eq(pairs));
    // With no link up, any link joins its two ends and nobody else.
    assert!(lines.clone().all(|line| (line.lost, line.gained, line.change) == (0, 2, 0) && !line.is_up()));
    assert_eq!(refused(state.as_bytes(), 198_401, 5_459), Refusal::ShortBuffer);
    assert_eq!(refused(state.as_bytes(), 198_400, 5_460), Refusal::ShortBuffer);
    Ok(())
}
