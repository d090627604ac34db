//! Why a node reaches a destination in so many hops or not at all, through the safe crate: the known numbers, refusals in
//! their order, what stays untouched, every pair of several sites checked against its links, and wrong reasons, which
//! the check refuses. Uses the crate as its users do.

use hop::{MOST_NODES, Reason, Refusal, State, Way};

type Done = Result<(), Refusal>;
type Links<'a> = &'a [(usize, usize)];

/// The line 0-1-2, and 3 apart.
const LINE: (usize, Links) = (4, &[(0, 1), (1, 2)]);

fn at_rest((n, links): (usize, Links)) -> Result<State<Vec<u8>>, Refusal> {
    let mut state = State::new(n)?;
    for &(a, b) in links {
        state.up(a, b)?;
    }
    state.run(255)?;
    Ok(state)
}

/// Whether the links show a reason, and whether it holds, by a site's links.
fn checked((n, links): (usize, Links), node: usize, destination: usize, why: Reason) -> (bool, bool) {
    let up = |a, b| {
        assert!(a < b && b < n, "asked for {a}, {b}");
        links.contains(&(a, b))
    };
    (why.links_show(node, destination, n, up), why.holds(node, destination, n, up))
}

const HOLDS: (bool, bool) = (true, true);
const SHOWN_ONLY: (bool, bool) = (true, false);
const WRONG: (bool, bool) = (false, false);

#[test]
fn known_numbers() -> Done {
    let state = at_rest(LINE)?;
    let mut list = [0; MOST_NODES];
    assert_eq!(state.why(0, 2, &mut list)?, Reason::Path(&[0, 1, 2]));
    assert_eq!(state.why(2, 0, &mut list)?, Reason::Path(&[2, 1, 0]));
    assert_eq!(state.why(1, 1, &mut list)?, Reason::Path(&[1]));
    assert_eq!(state.why(3, 3, &mut list)?, Reason::Path(&[3]));
    assert_eq!(state.why(2, 3, &mut list)?, Reason::Set(&[0, 1, 2]));
    assert_eq!(state.why(3, 0, &mut list)?, Reason::Set(&[3]));
    // Of two shortest paths the one along the downstreams, the lowest-numbered neighbours.
    let square = at_rest((4, &[(0, 1), (0, 2), (1, 3), (2, 3)]))?;
    assert_eq!(square.why(0, 3, &mut list)?, Reason::Path(&[0, 1, 3]));
    assert_eq!(square.why(3, 0, &mut list)?, Reason::Path(&[3, 1, 0]));
    assert_eq!(State::new(1)?.why(0, 0, &mut list)?, Reason::Path(&[0]));
    Ok(())
}

/// Every pair of a site: the reason holds by the links, there is a set only where there is no route, and each node of a
/// path sends to the next, with as many hops to go as nodes stand behind it.
fn every_pair(site: (usize, Links)) -> Done {
    let state = at_rest(site)?;
    let mut list = vec![0; site.0];
    for (node, destination) in (0..site.0).flat_map(|u| (0..site.0).map(move |v| (u, v))) {
        let why = state.why(node, destination, &mut list)?;
        assert_eq!(checked(site, node, destination, why), HOLDS, "{node} to {destination}: {why:?}");
        let Reason::Path(path) = why else {
            let none = Way { distance: site.0, downstream: None };
            assert_eq!(state.route(node, destination)?, none, "{node} to {destination}: {why:?}");
            continue;
        };
        // The last is the destination, whose way to itself is no hop and itself.
        let last = path.len() - 1;
        for (k, &here) in path.iter().enumerate() {
            let way = Way { distance: last - k, downstream: Some(path[last.min(k + 1)].into()) };
            assert_eq!(state.route(here.into(), destination)?, way, "{node} to {destination}: {why:?}");
        }
    }
    Ok(())
}

/// Two parts that are woven into each other by their numbers, and two nodes that have no link.
const WOVEN: (usize, Links) = (9, &[(0, 2), (2, 4), (4, 6), (0, 6), (1, 3), (3, 5), (1, 5)]);

#[test]
fn every_pair_of_several_sites_holds() -> Done {
    every_pair((1, &[]))?;
    every_pair((2, &[]))?;
    every_pair((2, &[(0, 1)]))?;
    every_pair(LINE)?;
    every_pair(WOVEN)?;
    // A triangle, a square, the one link between them, and a node that has none.
    every_pair((8, &[(0, 1), (0, 2), (1, 2), (2, 3), (3, 4), (4, 5), (5, 6), (3, 6)]))?;
    // A ring with a star inside.
    every_pair((7, &[(0, 1), (1, 2), (2, 3), (3, 4), (4, 5), (0, 5), (0, 6), (2, 6), (4, 6)]))
}

#[test]
fn every_pair_holds_after_links_go() -> Done {
    let ring: Vec<_> = (0..7).map(|k| (k, k + 1)).chain([(0, 7)]).collect();
    let mut state = at_rest((8, &ring))?;
    let mut left = ring.clone();
    let mut list = [0; 8];
    // The ring becomes a line, then two lines, then three.
    for (a, b) in [(0, 7), (3, 4), (5, 6)] {
        state.down(a, b)?;
        state.run(255)?;
        left.retain(|&link| link != (a, b));
        for (node, destination) in (0..8).flat_map(|u| (0..8).map(move |v| (u, v))) {
            let why = state.why(node, destination, &mut list)?;
            assert_eq!(checked((8, &left), node, destination, why), HOLDS, "{node} to {destination}: {why:?}");
        }
    }
    assert_eq!(state.why(5, 0, &mut list)?, Reason::Set(&[4, 5]));
    Ok(())
}

/// Where there is no route the two sets, asked both ways, have no node in common; and of all links that are down those
/// between the one and the other bring the route back, and no others.
fn two_parts(site: (usize, Links)) -> Done {
    let state = at_rest(site)?;
    let n = site.0;
    let (mut list, mut other_list) = (vec![0; n], vec![0; n]);
    for (node, destination) in (0..n).flat_map(|u| (0..n).map(move |v| (u, v))) {
        let Reason::Set(set) = state.why(node, destination, &mut list)? else { continue };
        let Reason::Set(other) = state.why(destination, node, &mut other_list)? else {
            panic!("{destination} reaches {node}, and not the other way");
        };
        assert!(!set.iter().any(|x| other.contains(x)), "{set:?} and {other:?}");
        for (a, b) in (0..n).flat_map(|a| (a + 1..n).map(move |b| (a, b))).filter(|link| !site.1.contains(link)) {
            let mut joined = state.clone();
            joined.up(a, b)?;
            joined.run(255)?;
            let (a, b) = (a as u8, b as u8);
            let between = set.contains(&a) && other.contains(&b) || set.contains(&b) && other.contains(&a);
            assert_eq!(joined.route(node, destination)?.distance < n, between, "{a}-{b} for {node} to {destination}");
        }
    }
    Ok(())
}

#[test]
fn a_link_between_the_two_sets_and_no_other_brings_the_route_back() -> Done {
    two_parts((2, &[]))?;
    two_parts(LINE)?;
    two_parts(WOVEN)
}

#[test]
fn the_longest_path_and_the_largest_set() -> Done {
    // A line of 40 has a path of all its nodes, and a list of n bytes just holds it.
    let line: Vec<_> = (0..39).map(|k| (k, k + 1)).collect();
    let state = at_rest((40, &line))?;
    let all: Vec<u8> = (0..40).collect();
    let mut list = [0xdd; MOST_NODES];
    assert_eq!(state.why(0, 39, &mut list)?, Reason::Path(&all));
    assert_eq!(checked((40, &line), 0, 39, Reason::Path(&all)), HOLDS);
    assert_eq!(refused(state.as_bytes(), 0, 39, 39), Refusal::ShortBuffer);
    // Without the last link the set is all but one, from one side, and that one from the other.
    let state = at_rest((40, &line[..38]))?;
    assert_eq!(state.why(0, 39, &mut list[..39])?, Reason::Set(&all[..39]));
    assert_eq!(checked((40, &line[..38]), 0, 39, Reason::Set(&all[..39])), HOLDS);
    assert_eq!(state.why(39, 0, &mut list[..1])?, Reason::Set(&[39]));
    assert_eq!(refused(state.as_bytes(), 0, 39, 38), Refusal::ShortBuffer);
    Ok(())
}

#[test]
fn the_state_stays_and_what_stands_behind_the_reason_too() -> Done {
    // The state stands in a longer buffer that is lent for reading; the list is longer than needed too.
    let mut bytes = at_rest(LINE)?.into_inner();
    bytes.extend([0xee; 5]);
    let before = bytes.clone();
    let mut list = [0xdd; 6];
    assert_eq!(State::over(&bytes[..]).why(2, 0, &mut list)?, Reason::Path(&[2, 1, 0]));
    assert_eq!(list, [2, 1, 0, 0xdd, 0xdd, 0xdd]);
    assert_eq!(State::over(&bytes[..]).why(3, 1, &mut list)?, Reason::Set(&[3]));
    assert_eq!(list, [3, 1, 0, 0xdd, 0xdd, 0xdd]);
    assert_eq!(bytes, before);
    Ok(())
}

/// Refused as said, with the list as it was.
fn refused(bytes: &[u8], node: usize, destination: usize, list: usize) -> Refusal {
    let mut list = vec![0xdd; list];
    let refusal = State::over(bytes).why(node, destination, &mut list).unwrap_err();
    assert!(list.iter().all(|&byte| byte == 0xdd));
    refusal
}

#[test]
fn short_lists() -> Done {
    let bytes = at_rest(LINE)?.into_inner();
    let fits = |node, destination, list| State::over(&bytes[..]).why(node, destination, &mut vec![0; list]).is_ok();
    // A path of three, a set of three, a node with itself and a set of one: a byte less does not do.
    for (node, destination, count) in [(0, 2, 3), (2, 3, 3), (1, 1, 1), (3, 0, 1)] {
        assert!(fits(node, destination, count), "{node} to {destination}");
        for short in 0..count {
            assert_eq!(refused(&bytes, node, destination, short), Refusal::ShortBuffer, "{node} to {destination}");
        }
    }
    Ok(())
}

#[test]
fn refusals_in_their_order() -> Done {
    let (n, links) = LINE;
    let mut state = State::new(n)?;
    for &(a, b) in links {
        state.up(a, b)?;
    }
    // Numbers before rest, rest before the list.
    assert_eq!(refused(state.as_bytes(), 4, 0, 0), Refusal::NoSuchNode);
    assert_eq!(refused(state.as_bytes(), 0, 4, 0), Refusal::NoSuchNode);
    assert_eq!(refused(state.as_bytes(), usize::MAX, 65_536, 40), Refusal::NoSuchNode);
    assert_eq!(refused(state.as_bytes(), 0, 2, 40), Refusal::NotAtRest);
    assert_eq!(refused(state.as_bytes(), 0, 2, 0), Refusal::NotAtRest);
    assert_eq!(refused(state.as_bytes(), 0, 2, 0).number(), 12);
    // Nor is a node with itself answered, or one far from what waits.
    assert_eq!(refused(state.as_bytes(), 3, 3, 40), Refusal::NotAtRest);
    // One entry that waits is enough.
    let pairs = [(0, 1), (1, 0), (1, 2), (2, 1)];
    while state.total_queued()? > 1 {
        for (from, to) in pairs {
            if state.queue_length(from, to)? > 0 && state.total_queued()? > 1 {
                state.deliver(from, to)?;
            }
        }
    }
    assert_eq!(refused(state.as_bytes(), 0, 2, 40), Refusal::NotAtRest);
    // The state's own before all of these.
    let mut bytes = state.into_inner();
    bytes[1] = 1;
    assert_eq!(refused(&bytes, 4, 4, 0), Refusal::NotSound);
    assert_eq!(refused(&bytes[..256], 4, 4, 0), Refusal::ShortBuffer);
    bytes[0] = 41;
    assert_eq!(refused(&bytes, 4, 4, 0), Refusal::NodeCount);
    assert_eq!(refused(&bytes[..1], 4, 4, 0), Refusal::NodeCount);
    assert_eq!(refused(&[], 4, 4, 0), Refusal::ShortBuffer);
    // At rest a number that names no node is judged before the list.
    let rest = at_rest(LINE)?;
    assert_eq!(refused(rest.as_bytes(), 4, 3, 0), Refusal::NoSuchNode);
    assert_eq!(refused(rest.as_bytes(), 3, 4, 0), Refusal::NoSuchNode);
    assert_eq!(refused(rest.as_bytes(), 0, 2, 2), Refusal::ShortBuffer);
    Ok(())
}

#[test]
fn a_link_with_one_end_up_anywhere_is_refused_after_rest_and_before_the_list() -> Done {
    // The line 0-1-2, 3 apart, and the line 4-5, of which 5 notices the loss.
    let mut state = at_rest((6, &[(0, 1), (1, 2), (4, 5)]))?;
    state.notice(5, 4)?;
    assert_eq!(state.total_queued()?, 0);
    for (node, destination) in (0..6).flat_map(|u| (0..6).map(move |v| (u, v))) {
        assert_eq!(refused(state.as_bytes(), node, destination, 6), Refusal::OneEndIsUp);
    }
    assert_eq!(refused(state.as_bytes(), 0, 2, 0), Refusal::OneEndIsUp);
    assert_eq!(refused(state.as_bytes(), 0, 2, 0).number(), 13);
    assert_eq!(refused(state.as_bytes(), 0, 6, 0), Refusal::NoSuchNode);
    let mut busy = state.clone();
    busy.up(2, 3)?;
    assert_eq!(refused(busy.as_bytes(), 0, 2, 0), Refusal::NotAtRest);
    busy.run(255)?;
    assert_eq!(refused(busy.as_bytes(), 0, 2, 6), Refusal::OneEndIsUp);
    // The other end notices: reasons are given again.
    let mut list = [0; 6];
    state.notice(4, 5)?;
    assert_eq!(state.why(0, 2, &mut list)?, Reason::Path(&[0, 1, 2]));
    assert_eq!(state.why(4, 5, &mut list)?, Reason::Set(&[4]));
    Ok(())
}

/// The line 0-1-2-3 and the link 1-3; the line 4-5; 6 alone.
const SITE: (usize, Links) = (7, &[(0, 1), (1, 2), (2, 3), (1, 3), (4, 5)]);

#[test]
fn wrong_paths_do_not_hold() {
    let path = |node, destination, bytes: &[u8]| checked(SITE, node, destination, Reason::Path(bytes));
    assert_eq!(path(0, 3, &[0, 1, 3]), HOLDS);
    assert_eq!(path(3, 0, &[3, 1, 0]), HOLDS);
    assert_eq!(path(6, 6, &[6]), HOLDS);
    // A way round and a loop are paths, and not the shortest.
    assert_eq!(path(0, 3, &[0, 1, 2, 3]), SHOWN_ONLY);
    assert_eq!(path(0, 3, &[0, 1, 0, 1, 3]), SHOWN_ONLY);
    assert_eq!(path(0, 0, &[0, 1, 0]), SHOWN_ONLY);
    // One short at either end, one too many, or nothing at all.
    assert_eq!(path(0, 3, &[0, 1]), WRONG);
    assert_eq!(path(0, 3, &[1, 3]), WRONG);
    assert_eq!(path(0, 3, &[0, 1, 3, 2]), WRONG);
    assert_eq!(path(0, 3, &[]), WRONG);
    assert_eq!(path(0, 0, &[]), WRONG);
    // A step over a down link, a step that stays, and a path the other way.
    assert_eq!(path(0, 3, &[0, 3]), WRONG);
    assert_eq!(path(0, 3, &[0, 2, 3]), WRONG);
    assert_eq!(path(0, 3, &[0, 0, 1, 3]), WRONG);
    assert_eq!(path(0, 3, &[3, 1, 0]), WRONG);
    // To a destination that is not reached, and over a number that is no node.
    assert_eq!(path(0, 4, &[0, 1, 4]), WRONG);
    assert_eq!(path(0, 3, &[0, 7, 3]), WRONG);
    assert_eq!(path(7, 7, &[7]), WRONG);
}

#[test]
fn wrong_sets_do_not_hold() {
    let set = |node, destination, bytes: &[u8]| checked(SITE, node, destination, Reason::Set(bytes));
    assert_eq!(set(0, 4, &[0, 1, 2, 3]), HOLDS);
    assert_eq!(set(4, 0, &[4, 5]), HOLDS);
    assert_eq!(set(6, 0, &[6]), HOLDS);
    // More than what is joined: nothing leaves it, so there is no route, but it is not the set.
    assert_eq!(set(0, 4, &[0, 1, 2, 3, 6]), SHOWN_ONLY);
    assert_eq!(set(6, 0, &[4, 5, 6]), SHOWN_ONLY);
    // Without the node, with the destination, or nothing at all.
    assert_eq!(set(6, 0, &[4, 5]), WRONG);
    assert_eq!(set(0, 6, &[0, 1, 2, 3, 6]), WRONG);
    assert_eq!(set(0, 3, &[0, 1, 2, 3]), WRONG);
    assert_eq!(set(6, 0, &[]), WRONG);
    // Left by a link, from its lower end and from its higher.
    assert_eq!(set(0, 4, &[0, 1, 2]), WRONG);
    assert_eq!(set(1, 4, &[1, 2, 3]), WRONG);
    assert_eq!(set(0, 3, &[0, 1]), WRONG);
    // Descending, one node twice, and a number that is no node.
    assert_eq!(set(4, 0, &[5, 4]), WRONG);
    assert_eq!(set(4, 0, &[4, 4, 5]), WRONG);
    assert_eq!(set(4, 0, &[4, 5, 7]), WRONG);
    assert_eq!(set(4, 7, &[4, 5]), WRONG);
    // A set in place of a path, and a path in place of a set.
    assert_eq!(checked(SITE, 0, 1, Reason::Set(&[0])), WRONG);
    assert_eq!(checked(SITE, 4, 0, Reason::Path(&[4, 5])), WRONG);
}

#[test]
fn nothing_holds_of_a_site_that_the_core_cannot_have() {
    let none = |_, _| false;
    assert!(Reason::Path(&[0]).holds(0, 0, MOST_NODES, none));
    assert!(!Reason::Path(&[0]).holds(0, 0, MOST_NODES + 1, none));
    assert!(!Reason::Path(&[0]).holds(0, 0, 0, none));
    assert!(!Reason::Set(&[0]).links_show(0, 1, MOST_NODES + 1, none));
}
