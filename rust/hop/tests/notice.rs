//! Links whose two ends do not notice together, through the safe crate: what one end's notice does to every byte, what
//! it does not, refusals, coming to rest with such links, and what routes are worth meanwhile. Uses the crate as its
//! users do.

use hop::{Event, Refusal, State, Way};

type Done = Result<(), Refusal>;
type Owned = State<Vec<u8>>;

fn at_rest(n: usize, links: &[(usize, usize)]) -> Result<Owned, Refusal> {
    let mut state = State::new(n)?;
    for &(a, b) in links {
        state.up(a, b)?;
    }
    state.run(255)?;
    Ok(state)
}

fn ring(n: usize) -> Vec<(usize, usize)> {
    (0..n).map(|k| (k, (k + 1) % n)).collect()
}

/// The state after an event.
fn after(state: &Owned, event: impl FnOnce(&mut Owned) -> Done) -> Result<Owned, Refusal> {
    let mut next = state.clone();
    event(&mut next)?;
    next.check()?;
    Ok(next)
}

/// Refused as said, and no byte has changed.
fn refused(state: &Owned, event: impl FnOnce(&mut Owned) -> Done) -> Refusal {
    let mut next = state.clone();
    let refusal = event(&mut next).unwrap_err();
    assert_eq!(next.as_bytes(), state.as_bytes());
    refusal
}

/// The pairs whose two ends differ, by the link bytes: a's own end of its link to b stands at 1 + a·n + b.
fn one_ended(state: &Owned) -> Vec<(usize, usize)> {
    let (bytes, n) = (state.as_bytes(), usize::from(state.as_bytes()[0]));
    let pairs = (0..n).flat_map(|a| (a + 1..n).map(move |b| (a, b)));
    pairs.filter(|&(a, b)| bytes[1 + a * n + b] != bytes[1 + b * n + a]).collect()
}

/// All routes of a state, node by node.
fn routes(state: &Owned) -> Result<Vec<Way>, Refusal> {
    let n = usize::from(state.as_bytes()[0]);
    (0..n).flat_map(|u| (0..n).map(move |v| (u, v))).map(|(u, v)| state.route(u, v)).collect()
}

#[test]
fn a_notice_byte_for_byte() -> Done {
    // Two nodes at rest, and 1 notices: its end, its route, its downstream and its views of both from 0.
    let rest = at_rest(2, &[(0, 1)])?;
    let noticed = after(&rest, |s| s.notice(1, 0))?;
    let mut bytes = rest.as_bytes().to_vec();
    assert_eq!(bytes[..21], [2, 0, 1, 1, 0, 0, 1, 1, 0, 0, 1, 0, 1, 2, 2, 1, 0, 0, 1, 2, 2]);
    for (at, byte) in [(3, 0), (7, 2), (11, 255), (17, 2), (18, 2)] {
        bytes[at] = byte;
    }
    assert_eq!(noticed.as_bytes(), bytes);
    assert_eq!(one_ended(&noticed), [(0, 1)]);
    // The other end's notice, and so link down, leave the fresh state.
    let fresh = State::new(2)?;
    assert_eq!(after(&noticed, |s| s.notice(0, 1))?.as_bytes(), fresh.as_bytes());
    assert_eq!(after(&noticed, |s| s.down(0, 1))?.as_bytes(), fresh.as_bytes());
    assert_eq!(after(&noticed, |s| s.down(1, 0))?.as_bytes(), fresh.as_bytes());
    Ok(())
}

#[test]
fn both_queues_are_emptied_and_only_one_end_recomputes() -> Done {
    // All wait. 1 had no route yet, and 0 neither: nothing is left of the link but 0's end.
    let up = after(&State::new(2)?, |s| s.up(0, 1))?;
    let noticed = after(&up, |s| s.notice(1, 0))?;
    assert_eq!((noticed.queue_length(0, 1)?, noticed.queue_length(1, 0)?, noticed.total_queued()?), (0, 0, 0));
    let mut bytes = State::new(2)?.into_inner();
    bytes[2] = 1;
    assert_eq!(noticed.as_bytes(), bytes);

    // The line 0-1-2 at rest, and 1 notices the loss of 2: it has no route there, and tells 0, and not 2.
    let line = after(&at_rest(3, &[(0, 1), (1, 2)])?, |s| s.notice(1, 2))?;
    assert_eq!((line.queue_length(1, 0)?, line.total_queued()?), (1, 1));
    assert_eq!(line.route(1, 2)?, Way { distance: 3, downstream: None });
    assert_eq!(line.route(2, 1)?, Way { distance: 1, downstream: Some(1) });
    assert_eq!(line.route(2, 0)?, Way { distance: 2, downstream: Some(1) });

    // With 3 behind 2 it tells of both, ascending. The destinations that wait from 1 to 0 stand at 145.
    let line = after(&at_rest(4, &[(0, 1), (1, 2), (2, 3)])?, |s| s.notice(1, 2))?;
    assert_eq!((line.queue_length(1, 0)?, &line.as_bytes()[145..149]), (2, &[2, 3, 0, 0][..]));
    Ok(())
}

#[test]
fn what_the_end_still_up_sends_is_dropped_for_that_link_only() -> Done {
    let mut line = after(&at_rest(3, &[(0, 1), (1, 2)])?, |s| s.notice(1, 2))?;
    line.run(255)?;
    // 0-2 comes up, and 2 hears from 0 that 0 is one hop away: it tells 0 of it in place, and 1 not at all.
    line.up(0, 2)?;
    line.deliver(0, 2)?;
    assert_eq!(line.route(2, 0)?, Way { distance: 1, downstream: Some(0) });
    assert_eq!((line.queue_length(2, 0)?, line.queue_length(2, 1)?, line.queue_length(1, 2)?), (3, 0, 0));
    // At rest 2 still goes by what it last heard from 1. After its notice it goes by way of 0.
    line.run(255)?;
    assert_eq!(line.route(2, 1)?, Way { distance: 1, downstream: Some(1) });
    line.notice(2, 1)?;
    assert_eq!(line.route(2, 1)?, Way { distance: 2, downstream: Some(0) });
    Ok(())
}

#[test]
fn link_down_gives_the_notices_that_are_missing() -> Done {
    // At rest, after a link came up, and in the middle of a run.
    let rest = at_rest(6, &ring(6))?;
    let full = after(&rest, |s| s.up(0, 3))?;
    let busy = after(&full, |s| s.pass().map(drop))?;
    for state in [rest, full, busy] {
        for (a, b) in [(0, 1), (5, 0), (3, 2)] {
            let down = after(&state, |s| s.down(a, b))?;
            let first = after(&state, |s| s.notice(a, b))?;
            assert_eq!(one_ended(&first), [(a.min(b), a.max(b))]);
            assert_eq!(after(&first, |s| s.notice(b, a))?.as_bytes(), down.as_bytes());
            assert_eq!(after(&first, |s| s.down(b, a))?.as_bytes(), down.as_bytes());
            let other = after(&state, |s| s.notice(b, a))?;
            assert_eq!(after(&other, |s| s.down(a, b))?.as_bytes(), down.as_bytes());
            assert_eq!(one_ended(&down), []);
        }
    }
    Ok(())
}

#[test]
fn refusals_of_a_notice_in_their_order() -> Done {
    let line = at_rest(4, &[(0, 1), (1, 2)])?;
    assert_eq!(refused(&line, |s| s.notice(4, 0)), Refusal::NoSuchNode);
    assert_eq!(refused(&line, |s| s.notice(0, 65_536)), Refusal::NoSuchNode);
    assert_eq!(refused(&line, |s| s.notice(usize::MAX, usize::MAX)), Refusal::NoSuchNode);
    assert_eq!(refused(&line, |s| s.notice(3, 3)), Refusal::OneNode);
    // Never up; and already given, by a notice or by link down.
    assert_eq!(refused(&line, |s| s.notice(0, 3)), Refusal::LinkIsDown);
    let noticed = after(&line, |s| s.notice(1, 0))?;
    assert_eq!(refused(&noticed, |s| s.notice(1, 0)), Refusal::LinkIsDown);
    let down = after(&line, |s| s.down(0, 1))?;
    assert_eq!([(0, 1), (1, 0)].map(|(a, b)| refused(&down, |s| s.notice(a, b))), [Refusal::LinkIsDown; 2]);
    // The state's own before all of these.
    let mut bytes = line.into_inner();
    bytes[1] = 1;
    assert_eq!(refused(&State::over(bytes.clone()), |s| s.notice(9, 9)), Refusal::NotSound);
    assert_eq!(refused(&State::over(bytes[..256].to_vec()), |s| s.notice(9, 9)), Refusal::ShortBuffer);
    bytes[0] = 0;
    assert_eq!(refused(&State::over(bytes), |s| s.notice(9, 9)), Refusal::NodeCount);
    assert_eq!(refused(&State::over(Vec::new()), |s| s.notice(9, 9)), Refusal::ShortBuffer);
    Ok(())
}

#[test]
fn a_link_with_one_end_up_takes_no_delivery_and_does_not_come_up() -> Done {
    let up = after(&State::new(3)?, |s| s.up(0, 1))?;
    for (a, b) in [(0, 1), (1, 0)] {
        let noticed = after(&up, |s| s.notice(a, b))?;
        assert_eq!([(0, 1), (1, 0)].map(|(a, b)| refused(&noticed, |s| s.up(a, b))), [Refusal::OneEndIsUp; 2]);
        assert_eq!([(0, 1), (1, 0)].map(|(a, b)| refused(&noticed, |s| s.deliver(a, b))), [Refusal::LinkIsDown; 2]);
        // Numbers come first; and with both ends down it comes up again, and only then is there no link to take down.
        assert_eq!(refused(&noticed, |s| s.up(0, 3)), Refusal::NoSuchNode);
        let down = after(&noticed, |s| s.down(a, b))?;
        assert_eq!(refused(&down, |s| s.down(a, b)), Refusal::LinkIsDown);
        assert_eq!(after(&down, |s| s.up(a, b))?.as_bytes(), up.as_bytes());
    }
    // With both ends up it is 6.
    assert_eq!(refused(&up, |s| s.up(1, 0)), Refusal::LinkIsUp);
    let refusal = refused(&after(&up, |s| s.notice(0, 1))?, |s| s.up(0, 1));
    assert_eq!((refusal.number(), refusal.to_string()), (13, "one end of a link is still up".to_string()));
    Ok(())
}

#[test]
fn rest_comes_with_one_ended_links_and_routes_are_right_without_them() -> Done {
    // A ring of eight with two links across, and each of its links lost by one end, from rest and while all is queued.
    let links: Vec<_> = ring(8).into_iter().chain([(0, 4), (2, 6)]).collect();
    let mut queued = State::new(8)?;
    for &(a, b) in &links {
        queued.up(a, b)?;
    }
    for state in [at_rest(8, &links)?, queued] {
        for &(a, b) in &links {
            let mut lost = after(&state, |s| s.notice(a, b))?;
            assert!(lost.total_queued()? <= 8 * 8 * 7 && lost.run(8)?.passes <= 8);
            assert_eq!((lost.total_queued()?, one_ended(&lost)), (0, vec![(a.min(b), a.max(b))]));
            // Meanwhile a second link is lost, by a neighbour of the end that is still up.
            let mut lost = after(&lost, |s| s.notice((b + 1) % 8, b))?;
            lost.run(8)?;
            assert_eq!(lost.total_queued()?, 0);
            // The missing notices: right again, as in a state that never had the two links.
            for (low, high) in one_ended(&lost) {
                lost.down(low, high)?;
            }
            lost.run(8)?;
            let gone = |(x, y)| [(a, b), ((b + 1) % 8, b)].iter().any(|&(c, d)| (x, y) == (c, d) || (x, y) == (d, c));
            let left: Vec<_> = links.iter().copied().filter(|&link| !gone(link)).collect();
            assert_eq!(routes(&lost)?, routes(&at_rest(8, &left)?)?);
        }
    }
    Ok(())
}

#[test]
fn at_rest_a_route_may_lead_over_the_dead_link_and_round_in_a_circle() -> Done {
    // The triangle 0, 1, 2 with 3 at 0, and 4 apart. 0 notices the loss of 1; then 0-3 goes at both ends.
    let mut state = at_rest(5, &[(0, 1), (0, 2), (0, 3), (1, 2)])?;
    state.notice(0, 1)?;
    state.run(255)?;
    state.down(0, 3)?;
    state.run(255)?;
    assert_eq!(state.total_queued()?, 0);
    // Nothing waits and 3 has no link, and yet: 1 goes by what 0 once said of 3, 2 by what 1 says, and 0 by what 2 says.
    let way = |distance, downstream| Ok(Way { distance, downstream });
    assert_eq!([1, 2, 0].map(|u| state.route(u, 3)), [way(2, Some(0)), way(3, Some(1)), way(4, Some(2))]);
    // The notice that was missing, and rest: there is no route.
    state.notice(1, 0)?;
    state.run(255)?;
    assert_eq!([0, 1, 2].map(|u| state.route(u, 3)), [way(5, None); 3]);
    Ok(())
}

#[test]
fn soundness_with_one_end_up() -> Done {
    // 0's end alone is up: it may have heard anything up to n, if its table agrees.
    let bytes = after(&at_rest(2, &[(0, 1)])?, |s| s.notice(1, 0))?.into_inner();
    let with = |changes: &[(usize, u8)]| {
        let mut bytes = bytes.clone();
        for &(at, byte) in changes {
            bytes[at] = byte;
        }
        State::over(bytes).check()
    };
    // Views of 0 from 1 stand at 15 and 16, those of 1 from 0 at 17 and 18.
    assert_eq!(with(&[(15, 0)]), Ok(()));
    assert_eq!(with(&[(15, 2)]), Ok(()));
    assert_eq!(with(&[(15, 3)]), Err(Refusal::NotSound));
    assert_eq!(with(&[(16, 1), (6, 2), (10, 255)]), Ok(()));
    assert_eq!(with(&[(16, 1)]), Err(Refusal::NotSound));
    // The noticed end has heard nothing.
    assert_eq!(with(&[(17, 1)]), Err(Refusal::NotSound));
    // Nothing waits in either direction; lengths stand at 22 and 23. Nor does a link byte hold anything but 0 and 1.
    assert_eq!(with(&[(22, 1)]), Err(Refusal::NotSound));
    assert_eq!(with(&[(23, 1), (29, 1)]), Err(Refusal::NotSound));
    assert_eq!(with(&[(3, 2)]), Err(Refusal::NotSound));
    assert_eq!(with(&[(4, 1)]), Err(Refusal::NotSound));
    Ok(())
}

#[test]
fn a_notice_as_an_event() -> Done {
    let event = Event::Notice { noticing: 1, other: 0 };
    let mut record = [0; Event::LONGEST];
    assert_eq!((event.kind(), event.write(&mut record)?), (20, 8));
    assert_eq!(record, [6, 0, 20, 0, 1, 0, 0, 0]);
    let up = after(&State::new(2)?, |s| s.up(0, 1))?;
    let noticed = after(&up, |s| s.apply(event))?;
    assert_eq!(noticed.as_bytes(), after(&up, |s| s.notice(1, 0))?.as_bytes());
    assert_eq!(refused(&noticed, |s| s.apply(event)), Refusal::LinkIsDown);
    // Record 17 gives the notice that is missing.
    let down = after(&noticed, |s| s.apply(Event::Down { a: 1, b: 0 }))?;
    assert_eq!(down.as_bytes(), State::new(2)?.as_bytes());
    Ok(())
}
