//! The documents' own numbers, held against any core; those of links whose ends do not notice together are in `ends`. Uses
//! the trait, the second's reading of stored bytes, and lists of pairs.

mod ends;

use crate::compare::states::{all_pairs, pairs};
use crate::engine::{Answer, Engine, Ran, Reason, Way};
use crate::second::stored::Blocks;

type Held = Result<(), String>;
type Check = fn(&dyn Engine) -> Held;

/// The numbers by their names in document 01, and by their requests in 02.
pub const NUMBERS: &[(&str, Check)] = &[
    ("P1 fresh n = 1", p1),
    ("P2 node counts and a short buffer", p2),
    ("P3 n = 2, up 0 1", p3),
    ("P4 deliver 0 to 1", p4),
    ("P5 run from P3", p5),
    ("P6 down from rest is fresh", p6),
    ("P7 refusals of up", p7),
    ("P8 status of node 1", p8),
    ("P9 line of 3, down 1 2", p9),
    ("P10 line of 3 with n = 4, down 1 2", p10),
    ("sizes", sizes),
    ("the square", square),
    ("780 links of 40", complete),
    ("a line of 40", line),
    ("R-1 line of 3", worth_of_line),
    ("R-1 two nodes, apart and linked", worth_of_two),
    ("R-1 one node", worth_of_one),
    ("R-1 780 links of 40", worth_of_complete),
    ("R-1 refusals and their order", worth_refused),
    ("R-3 line of 3 with a node apart", why_of_line),
    ("R-3 the square", why_of_square),
    ("R-3 a ring of 6", why_of_ring),
    ("R-3 one node", why_of_one),
    ("R-3 a line of 40, and of 39", why_of_long_line),
    ("R-3 780 links of 40", why_of_complete),
    ("R-3 refusals and their order", why_refused),
    ("R-4 line of 3 with a node apart, before rest and at rest", route_of_line),
    ("R-4 refusals and their order", route_refused),
    ("R-5 line of 3, 1 notices that 2 is gone", ends::line),
    ("R-5 what the end still up sends is dropped", ends::dropped),
    ("R-5 the notices in either order, and link down", ends::orders),
    ("R-5 entries under way are lost", ends::under_way),
    ("R-5 the bytes of a link with one end up", ends::bytes),
    ("R-5 what is sound of such a link", ends::sound),
    ("R-5 refusals and their order", ends::refused),
    ("R-5 in R-1: line of 3, 1 has noticed that 2 is gone", ends::worth_of_line),
    ("R-5 in R-3: refusals and their order", ends::why_refused),
    ("R-5 780 links of 40, the lower ends notice", ends::complete),
    ("R-5 records of kind 20", ends::records),
];

/// Two things that document 01 says are equal.
pub fn same<T: PartialEq + std::fmt::Debug>(what: &str, is: T, should: T) -> Held {
    if is == should { Ok(()) } else { Err(format!("{what}: {is:?}, and should be {should:?}")) }
}

/// A fresh state in a buffer of its own size, with links brought up in order.
fn with_links(core: &dyn Engine, n: usize, links: &[(usize, usize)]) -> Result<Vec<u8>, String> {
    let mut state = vec![0; 1 + 4 * n * n + 3 * n * n * n];
    same("make", core.make(&mut state, n), 0)?;
    for &(a, b) in links {
        same(&format!("up {a} {b}"), core.up(&mut state, a, b), 0)?;
    }
    Ok(state)
}

/// The same at rest.
fn rested(core: &dyn Engine, n: usize, links: &[(usize, usize)]) -> Result<Vec<u8>, String> {
    let mut state = with_links(core, n, links)?;
    same("run", core.run(&mut state, 255).code, 0)?;
    Ok(state)
}

/// A queue's entries, head first.
fn queue(state: &[u8], from: usize, to: usize) -> Vec<(u8, u8)> {
    let blocks = Blocks::read(state);
    let length = usize::from(blocks.lengths[from][to]);
    let destinations = blocks.destinations[from][to].iter().copied();
    destinations.zip(blocks.values[from][to].iter().copied()).take(length).collect()
}

/// The whole tables as they are stored, and by asking: of 40 nodes a row, a column and the two ends, of others all.
fn tables(core: &dyn Engine, state: &[u8], should: impl Fn(usize, usize) -> (usize, usize)) -> Held {
    let blocks = Blocks::read(state);
    for (u, v) in all_pairs(blocks.n.into()) {
        let should = should(u, v);
        let stored = (blocks.distances[u][v].into(), blocks.downstreams[u][v].into());
        same(&format!("stored route of {u} to {v}"), stored, should)?;
        if blocks.n < 40 || u == 1 || v == 38 || u.abs_diff(v) == 39 {
            route(core, state, (u, v), should)?;
        }
    }
    Ok(())
}

/// A route: its hops and its direction in one answer.
fn route(core: &dyn Engine, state: &[u8], (u, v): (usize, usize), should: (usize, usize)) -> Held {
    let should = Way { code: 0, distance: should.0 as u32, downstream: should.1 as u32 };
    same(&format!("route of {u} to {v}"), core.route(state, u, v), should)
}

/// The state's own refusals, which come before all others: not sound, cut, no node count, empty.
fn refused_first(mut state: Vec<u8>, refused: impl Fn(&[u8], u32) -> Held) -> Held {
    state[1] = 1;
    refused(&state, 3)?;
    state.pop();
    refused(&state, 2)?;
    state[0] = 41;
    refused(&state, 1)?;
    refused(&[], 2)
}

fn answered(value: u32) -> Answer {
    Answer { code: 0, value }
}

fn p1(core: &dyn Engine) -> Held {
    let mut state = [7; 8];
    same("make", core.make(&mut state, 1), 0)?;
    same("bytes", state, [1, 0, 0, 0, 1, 0, 0, 0])
}

fn p2(core: &dyn Engine) -> Held {
    let mut state = vec![7; 198_401];
    same("make 0", core.make(&mut state, 0), 1)?;
    same("make 41", core.make(&mut state, 41), 1)?;
    same("make 2 in 40 bytes", core.make(&mut state[..40], 2), 2)?;
    same("bytes", state.iter().all(|&byte| byte == 7), true)
}

fn p3(core: &dyn Engine) -> Held {
    let state = with_links(core, 2, &[(0, 1)])?;
    same("queue 0 to 1", queue(&state, 0, 1), vec![(0, 0), (1, 2)])?;
    same("queue 1 to 0", queue(&state, 1, 0), vec![(0, 2), (1, 0)])
}

fn p4(core: &dyn Engine) -> Held {
    let mut state = with_links(core, 2, &[(0, 1)])?;
    same("deliver 0 1", core.deliver(&mut state, 0, 1), 0)?;
    route(core, &state, (1, 0), (1, 0))?;
    same("queue 1 to 0", queue(&state, 1, 0), vec![(0, 1), (1, 0)])?;
    same("waiting", core.total_queued(&state), answered(3))
}

fn p5(core: &dyn Engine) -> Held {
    let mut state = with_links(core, 2, &[(0, 1)])?;
    let before = state.clone();
    same("allowance 0", core.run(&mut state, 0), Ran { code: 0, passes: 0, deliveries: 0 })?;
    same("bytes", &state, &before)?;
    same("allowance 255", core.run(&mut state, 255), Ran { code: 0, passes: 2, deliveries: 5 })
}

fn p6(core: &dyn Engine) -> Held {
    let mut state = rested(core, 2, &[(0, 1)])?;
    same("down 0 1", core.down(&mut state, 0, 1), 0)?;
    same("bytes", state, with_links(core, 2, &[])?)
}

fn p7(core: &dyn Engine) -> Held {
    let mut state = with_links(core, 2, &[(0, 1)])?;
    same("up 0 1 again", core.up(&mut state, 0, 1), 6)?;
    same("up 1 1", core.up(&mut state, 1, 1), 5)?;
    same("up 2 2", core.up(&mut state, 2, 2), 4)
}

fn p8(core: &dyn Engine) -> Held {
    let state = with_links(core, 2, &[(0, 1)])?;
    let mut out = [0xee; 15];
    same("status of 1", core.status(&state, 1, &mut out), answered(14))?;
    same("record", out, [0x0c, 0, 1, 0, 1, 0, 2, 0, 2, 0, 0, 0, 4, 0, 0xee])
}

fn p9(core: &dyn Engine) -> Held {
    let mut state = rested(core, 3, &[(0, 1), (1, 2)])?;
    same("down 1 2", core.down(&mut state, 1, 2), 0)?;
    same("waiting", core.total_queued(&state), answered(1))?;
    let ran = core.run(&mut state, 255);
    same("deliveries", (ran.code, ran.deliveries), (0, 2))?;
    same("rest", core.total_queued(&state), answered(0))?;
    route(core, &state, (0, 2), (3, 255))
}

fn p10(core: &dyn Engine) -> Held {
    let mut state = rested(core, 4, &[(0, 1), (1, 2)])?;
    same("down 1 2", core.down(&mut state, 1, 2), 0)?;
    route(core, &state, (1, 2), (3, 0))?;
    same("run", core.run(&mut state, 255), Ran { code: 0, passes: 3, deliveries: 3 })
}

fn sizes(core: &dyn Engine) -> Held {
    for (n, size) in [(1, 8), (2, 41), (3, 118), (27, 61_966), (40, 198_401), (0, 0), (41, 0), (usize::MAX, 0)] {
        same(&format!("size of {n}"), core.size(n), size)?;
    }
    Ok(())
}

fn square(core: &dyn Engine) -> Held {
    let state = rested(core, 4, &[(0, 1), (0, 2), (1, 3), (2, 3)])?;
    route(core, &state, (0, 3), (2, 1))
}

fn complete(core: &dyn Engine) -> Held {
    let links = pairs(40);
    same("links", links.len(), 780)?;
    let mut state = with_links(core, 40, &links)?;
    same("waiting", core.total_queued(&state), answered(62_400))?;
    for node in 0..40_u8 {
        let mut out = [0; 14];
        same("status", core.status(&state, usize::from(node), &mut out), answered(14))?;
        let (waiting, total) = (1_560_u16.to_le_bytes(), 62_400_u16.to_le_bytes());
        let [w, x] = waiting;
        same("record", out, [12, 0, 1, 0, node, 0, w, x, w, x, 0, 0, total[0], total[1]])?;
    }
    let ran = core.run(&mut state, 255);
    same("rest within n passes", (ran.code, ran.passes <= 40), (0, true))?;
    tables(core, &state, |u, v| (usize::from(u != v), v))
}

fn line(core: &dyn Engine) -> Held {
    let links: Vec<(usize, usize)> = (0..39).map(|a| (a, a + 1)).collect();
    let mut state = with_links(core, 40, &links)?;
    same("waiting", core.total_queued(&state), answered(39 * 2 * 40))?;
    let ran = core.run(&mut state, 255);
    same("rest within n passes", (ran.code, ran.passes <= 40), (0, true))?;
    tables(core, &state, |u, v| (u.abs_diff(v), v.clamp(u.saturating_sub(1), u + 1)))
}

/// The worth of each link of a site at rest, seven numbers a line, with a place more in trial and list than needed.
fn worth(core: &dyn Engine, n: usize, links: &[(usize, usize)]) -> Result<Vec<[i32; 7]>, String> {
    worth_of(core, &rested(core, n, links)?, n * (n - 1) / 2)
}

/// The same of a state that has so many lines.
fn worth_of(core: &dyn Engine, state: &[u8], pairs: usize) -> Result<Vec<[i32; 7]>, String> {
    let before = state.to_vec();
    let (mut trial, mut list) = (vec![0xee; state.len() + 1], vec![i32::MIN; 7 * pairs + 1]);
    same("worth", core.worth(state, &mut trial, &mut list), answered(pairs as u32))?;
    same("the state stays", state == before, true)?;
    same("behind the copy and behind the lines", (trial.pop(), list.pop()), (Some(0xee), Some(i32::MIN)))?;
    same("the trial is a copy", trial == state, true)?;
    Ok(list.chunks_exact(7).map(|line| line.try_into().expect("seven numbers")).collect())
}

fn worth_of_line(core: &dyn Engine) -> Held {
    let should = vec![[0, 1, 2, 2, 4, 0, 0], [0, 2, 2, 9, 0, 0, -2], [1, 2, 2, 2, 4, 0, 0]];
    same("lines", worth(core, 3, &[(0, 1), (1, 2)])?, should)
}

fn worth_of_two(core: &dyn Engine) -> Held {
    same("apart", worth(core, 2, &[])?, vec![[0, 1, 2, 5, 0, 2, 0]])?;
    same("linked", worth(core, 2, &[(0, 1)])?, vec![[0, 1, 0, 0, 2, 0, 0]])
}

fn worth_of_one(core: &dyn Engine) -> Held {
    same("lines", worth(core, 1, &[])?, vec![])
}

/// Each end tells its 38 other neighbours that the other is two hops away now, and none of them has to change.
fn worth_of_complete(core: &dyn Engine) -> Held {
    let links = pairs(40);
    let should: Vec<[i32; 7]> = links.iter().map(|&(a, b)| [a as i32, b as i32, 1, 76, 0, 0, 2]).collect();
    same("lines", worth(core, 40, &links)?, should)
}

fn worth_refused(core: &dyn Engine) -> Held {
    let mut state = with_links(core, 2, &[])?;
    let refused = |state: &[u8], trial: usize, lines: usize, code: u32| {
        let (mut trial, mut list) = (vec![0xee; trial], vec![i32::MIN; lines]);
        let what = format!("worth with {} bytes and {lines} numbers", trial.len());
        same(&what, core.worth(state, &mut trial, &mut list), Answer { code, value: 0 })?;
        let untouched = trial.iter().all(|&byte| byte == 0xee) && list.iter().all(|&number| number == i32::MIN);
        same("trial and list are untouched", untouched, true)
    };
    refused(&state, 40, 7, 2)?;
    refused(&state, 41, 6, 2)?;
    refused(&state, 0, 0, 2)?;
    refused(&[1, 0, 0, 0, 1, 0, 0, 0], 7, 0, 2)?;
    same("up 0 1", core.up(&mut state, 0, 1), 0)?;
    refused(&state, 41, 7, 12)?;
    refused(&state, 0, 0, 12)?;
    refused_first(state, |state, code| refused(state, 0, 0, code))
}

/// The reason is this one: in a list of exact length, and in one that is a byte longer.
fn reason(core: &dyn Engine, state: &[u8], pair: (usize, usize), kind: u32, should: &[u8]) -> Held {
    let what = format!("why {} {}", pair.0, pair.1);
    for more in [0, 1] {
        let (before, mut list) = (state.to_vec(), vec![0xee; should.len() + more]);
        let answer = core.why(state, pair.0, pair.1, &mut list);
        same(&what, answer, Reason { code: 0, kind, count: should.len() as u32 })?;
        same(&what, list, [should, &[0xee][..more]].concat())?;
        same("the state stays", state == before, true)?;
    }
    Ok(())
}

fn path(core: &dyn Engine, state: &[u8], should: &[u8]) -> Held {
    reason(core, state, (should[0].into(), should[should.len() - 1].into()), 1, should)
}

fn why_of_line(core: &dyn Engine) -> Held {
    let state = rested(core, 4, &[(0, 1), (1, 2)])?;
    path(core, &state, &[0, 1, 2])?;
    path(core, &state, &[2, 1, 0])?;
    path(core, &state, &[1, 2])?;
    path(core, &state, &[3])?;
    reason(core, &state, (0, 3), 2, &[0, 1, 2])?;
    reason(core, &state, (2, 3), 2, &[0, 1, 2])?;
    reason(core, &state, (3, 0), 2, &[3])
}

/// Of two shortest paths the one along the downstreams, whichever end asks.
fn why_of_square(core: &dyn Engine) -> Held {
    let state = rested(core, 4, &[(0, 1), (0, 2), (1, 3), (2, 3)])?;
    path(core, &state, &[0, 1, 3])?;
    path(core, &state, &[3, 1, 0])?;
    path(core, &state, &[1, 0, 2])?;
    path(core, &state, &[2, 0, 1])
}

/// There and back need not be the same path.
fn why_of_ring(core: &dyn Engine) -> Held {
    let state = rested(core, 6, &[(0, 1), (1, 3), (3, 5), (5, 2), (2, 4), (4, 0)])?;
    path(core, &state, &[0, 1, 3, 5])?;
    path(core, &state, &[5, 2, 4, 0])
}

fn why_of_one(core: &dyn Engine) -> Held {
    path(core, &with_links(core, 1, &[])?, &[0])
}

fn why_of_long_line(core: &dyn Engine) -> Held {
    let (ascending, descending): (Vec<u8>, Vec<u8>) = ((0..40).collect(), (0..40).rev().collect());
    let links: Vec<(usize, usize)> = (0..39).map(|a| (a, a + 1)).collect();
    let whole = rested(core, 40, &links)?;
    path(core, &whole, &ascending)?;
    path(core, &whole, &descending)?;
    path(core, &whole, &ascending[7..30])?;
    let parted = rested(core, 40, &links[..38])?;
    path(core, &parted, &descending[1..])?;
    reason(core, &parted, (0, 39), 2, &ascending[..39])?;
    reason(core, &parted, (38, 39), 2, &ascending[..39])?;
    reason(core, &parted, (39, 0), 2, &[39])
}

fn why_of_complete(core: &dyn Engine) -> Held {
    let state = rested(core, 40, &pairs(40))?;
    path(core, &state, &[39, 0])?;
    path(core, &state, &[0, 39])?;
    path(core, &state, &[20])
}

fn why_refused(core: &dyn Engine) -> Held {
    let mut state = with_links(core, 3, &[])?;
    let refused = |state: &[u8], node: usize, destination: usize, room: usize, code: u32| {
        let mut list = vec![0xee; room];
        let what = format!("why {node} {destination} in {room} bytes");
        let answer = core.why(state, node, destination, &mut list);
        same(&what, answer, Reason { code, kind: 0, count: 0 })?;
        same("the list is untouched", list.iter().all(|&byte| byte == 0xee), true)
    };
    refused(&state, 0, 1, 0, 2)?;
    refused(&state, 0, 3, 3, 4)?;
    refused(&state, 65_537, 0, 0, 4)?;
    same("up 0 1", core.up(&mut state, 0, 1), 0)?;
    refused(&state, 0, 1, 3, 12)?;
    refused(&state, 2, 2, 0, 12)?;
    refused(&state, 3, 0, 0, 4)?;
    refused(&state, 0, usize::MAX, 3, 4)?;
    same("run", core.run(&mut state, 255).code, 0)?;
    refused(&state, 0, 1, 1, 2)?;
    refused(&state, 0, 2, 1, 2)?;
    refused_first(state, |state, code| refused(state, 3, 3, 0, code))
}

/// Up, each node knows itself alone until an entry is delivered; at rest none knows a way to the node apart.
fn route_of_line(core: &dyn Engine) -> Held {
    let mut state = with_links(core, 4, &[(0, 1), (1, 2)])?;
    tables(core, &state, |u, v| if u == v { (0, u) } else { (4, 255) })?;
    same("run", core.run(&mut state, 255).code, 0)?;
    let none = (4, 255);
    let should = [
        [(0, 0), (1, 1), (2, 1), none],
        [(1, 0), (0, 1), (1, 2), none],
        [(2, 1), (1, 1), (0, 2), none],
        [none, none, none, (0, 3)],
    ];
    tables(core, &state, |u, v| should[u][v])
}

fn route_refused(core: &dyn Engine) -> Held {
    let state = with_links(core, 3, &[(0, 1)])?;
    let refused = |state: &[u8], node: usize, destination: usize, code: u32| {
        let should = Way { code, distance: 0, downstream: 0 };
        same(&format!("route {node} {destination}"), core.route(state, node, destination), should)
    };
    // Those after the first would be nodes if they were cut to 8, 16 or 32 bits.
    for none in [3, 256, 65_537, (1 << 32) + 2, usize::MAX - 255] {
        refused(&state, none, 0, 4)?;
        refused(&state, 2, none, 4)?;
        refused(&state, none, none, 4)?;
    }
    refused_first(state, |state, code| refused(state, 3, 3, code))
}
