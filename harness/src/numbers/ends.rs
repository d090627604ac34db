//! Numbers of R-5, worked out by hand from document 02: one end of a link notices before the other. Uses what the other
//! numbers use.

use super::{Held, answered, queue, reason, refused_first, rested, route, same, tables, with_links, worth_of};
use crate::compare::states::pairs;
use crate::engine::{Answer, Engine, Ran, Read, Reason};
use crate::second::stored::Blocks;

/// The line 0-1-2 at rest, of which 1 has noticed that 2 is gone.
fn noticed_line(core: &dyn Engine) -> Result<Vec<u8>, String> {
    let mut state = rested(core, 3, &[(0, 1), (1, 2)])?;
    same("notice 1 2", core.notice(&mut state, 1, 2), 0)?;
    Ok(state)
}

/// 1 tells 0, and 0 tells it back; 2 goes on as if nothing had happened, over the dead link.
pub fn line(core: &dyn Engine) -> Held {
    let mut state = noticed_line(core)?;
    let none = (3, 255);
    same("queue 1 to 0", queue(&state, 1, 0), vec![(2, 3)])?;
    same("waiting", core.total_queued(&state), answered(1))?;
    tables(core, &state, |u, v| [[(0, 0), (1, 1), (2, 1)], [(1, 0), (0, 1), none], [(2, 1), (1, 1), (0, 2)]][u][v])?;
    same("run", core.run(&mut state, 255), Ran { code: 0, passes: 2, deliveries: 2 })?;
    tables(core, &state, |u, v| [[(0, 0), (1, 1), none], [(1, 0), (0, 1), none], [(2, 1), (1, 1), (0, 2)]][u][v])?;
    let blocks = Blocks::read(&state);
    same("ends", blocks.links, vec![vec![0, 1, 0], vec![1, 0, 0], vec![0, 1, 0]])?;
    same("what 1 has heard of 2", &blocks.views[1][2], &vec![3, 3, 3])?;
    same("what 2 has heard of 1", &blocks.views[2][1], &vec![1, 0, 1])?;
    same("check", core.check(&state), 0)
}

/// Then 0-2 comes up, and 2 hears that it is next to 0: it tells 0, in the place of what waits, and what it tells 1 is
/// dropped. With its own notice it forgets the way over 1.
pub fn dropped(core: &dyn Engine) -> Held {
    let mut state = noticed_line(core)?;
    same("run", core.run(&mut state, 255).code, 0)?;
    same("up 0 2", core.up(&mut state, 0, 2), 0)?;
    same("queue 2 to 0", queue(&state, 2, 0), vec![(0, 2), (1, 1), (2, 0)])?;
    same("deliver 0 2", core.deliver(&mut state, 0, 2), 0)?;
    route(core, &state, (2, 0), (1, 0))?;
    same("queue 2 to 0", queue(&state, 2, 0), vec![(0, 1), (1, 1), (2, 0)])?;
    same("queue 2 to 1", queue(&state, 2, 1), vec![])?;
    same("waiting", core.total_queued(&state), answered(5))?;
    let mut by_down = state.clone();
    same("notice 2 1", core.notice(&mut state, 2, 1), 0)?;
    same("down 1 2", core.down(&mut by_down, 1, 2), 0)?;
    same("link down is the notice that is missing", &by_down, &state)?;
    route(core, &state, (2, 1), (3, 255))?;
    same("queue 2 to 0", queue(&state, 2, 0), vec![(0, 1), (1, 3), (2, 0)])?;
    same("run", core.run(&mut state, 255).code, 0)?;
    tables(core, &state, |u, v| [[(0, 0), (1, 1), (1, 2)], [(1, 0), (0, 1), (2, 0)], [(1, 0), (2, 0), (0, 2)]][u][v])
}

/// P9's link down, by both notices in either order, by its own call, and by that call after either notice.
pub fn orders(core: &dyn Engine) -> Held {
    let state = rested(core, 3, &[(0, 1), (1, 2)])?;
    let mut down = state.clone();
    same("down 1 2", core.down(&mut down, 1, 2), 0)?;
    for (first, second) in [(1, 2), (2, 1)] {
        let mut noticed = state.clone();
        same("one notice", core.notice(&mut noticed, first, second), 0)?;
        let mut then_down = noticed.clone();
        same("the other notice", core.notice(&mut noticed, second, first), 0)?;
        same("down 2 1", core.down(&mut then_down, 2, 1), 0)?;
        same("both notices", &noticed, &down)?;
        same("one, then link down", &then_down, &down)?;
    }
    same("waiting", core.total_queued(&down), answered(1))?;
    same("deliveries", core.run(&mut down, 255).deliveries, 2)
}

/// From P4 three entries wait. A notice of 0 takes all of them; 1 still has the way that it heard of.
pub fn under_way(core: &dyn Engine) -> Held {
    let mut state = with_links(core, 2, &[(0, 1)])?;
    same("deliver 0 1", core.deliver(&mut state, 0, 1), 0)?;
    same("notice 0 1", core.notice(&mut state, 0, 1), 0)?;
    same("waiting", core.total_queued(&state), answered(0))?;
    tables(core, &state, |u, v| [[(0, 0), (2, 255)], [(1, 0), (0, 1)]][u][v])?;
    same("notice 1 0", core.notice(&mut state, 1, 0), 0)?;
    same("bytes", state, with_links(core, 2, &[])?)
}

/// Two nodes at rest, of which 1 has noticed.
const ONE_END: [u8; 41] = [
    2, 0, 1, 0, 0, // 0's end is up
    0, 1, 2, 0, 0, 1, 255, 1, // 0 has a way to 1, and 1 none to 0
    2, 2, 1, 0, 2, 2, 2, 2, // what 0 has heard of 1, and nothing else
    0, 0, 0, 0, 0, 0, 0, 0, 0, 0, 0, 0, 0, 0, 0, 0, 0, 0, 0, 0,
];

pub fn bytes(core: &dyn Engine) -> Held {
    let mut state = rested(core, 2, &[(0, 1)])?;
    same("notice 1 0", core.notice(&mut state, 1, 0), 0)?;
    same("bytes", state.as_slice(), &ONE_END)?;
    same("run", core.run(&mut state, 255), Ran { code: 0, passes: 0, deliveries: 0 })?;
    same("down 0 1", core.down(&mut state, 0, 1), 0)?;
    same("bytes", state, with_links(core, 2, &[])?)
}

/// The end still up may have heard anything up to n, and its tables must say so. The noticed end knows nothing, and
/// nothing waits in either direction.
pub fn sound(core: &dyn Engine) -> Held {
    let check = |what: &str, change: &[(usize, u8)], should: u32| {
        let mut state = ONE_END;
        change.iter().for_each(|&(at, byte)| state[at] = byte);
        same(what, core.check(&state), should)
    };
    check("as it was reached", &[], 0)?;
    check("0 has heard another distance to itself", &[(15, 0)], 0)?;
    check("0 has heard that 1 is nowhere, and has no way", &[(16, 2), (6, 2), (10, 255)], 0)?;
    check("0 has heard that 1 is nowhere, and has a way", &[(16, 2)], 3)?;
    check("0 has heard what is more than n", &[(15, 3)], 3)?;
    check("1 has heard something", &[(17, 1)], 3)?;
    check("1 has heard itself", &[(18, 0)], 3)?;
    check("an entry waits for 1", &[(22, 1)], 3)?;
    check("an entry waits for 0", &[(23, 1), (29, 1)], 3)?;
    check("an end is neither up nor down", &[(2, 2)], 3)?;
    check("the other end is neither", &[(3, 2)], 3)?;
    check("both ends are up, and 1 has heard nothing", &[(3, 1)], 3)?;
    check("the other end is up instead", &[(2, 0), (3, 1)], 3)?;
    check("no end is up", &[(2, 0)], 3)
}

/// Which end is up tells what is refused; 13 stands where 6 does, behind 4 and 5.
pub fn refused(core: &dyn Engine) -> Held {
    let mut state = with_links(core, 3, &[(0, 1)])?;
    same("notice 0 2", core.notice(&mut state, 0, 2), 7)?;
    same("notice 0 1", core.notice(&mut state, 0, 1), 0)?;
    let before = state.clone();
    same("notice 0 1 again", core.notice(&mut state, 0, 1), 7)?;
    same("deliver 0 1", core.deliver(&mut state, 0, 1), 7)?;
    same("deliver 1 0", core.deliver(&mut state, 1, 0), 7)?;
    same("up 0 1", core.up(&mut state, 0, 1), 13)?;
    same("up 1 0", core.up(&mut state, 1, 0), 13)?;
    same("up 1 1", core.up(&mut state, 1, 1), 5)?;
    same("up 0 3", core.up(&mut state, 0, 3), 4)?;
    same("notice 1 1", core.notice(&mut state, 1, 1), 5)?;
    same("notice 3 3", core.notice(&mut state, 3, 3), 4)?;
    same("notice 1 65536", core.notice(&mut state, 1, 65_536), 4)?;
    same("notice 65537 0", core.notice(&mut state, 65_537, 0), 4)?;
    same("length 0 1", core.queue_length(&state, 0, 1), answered(0))?;
    same("length 1 0", core.queue_length(&state, 1, 0), answered(0))?;
    same("bytes", &state, &before)?;
    refused_first(state.clone(), |state, code| {
        let mut refused = state.to_vec();
        same("notice 3 3", core.notice(&mut refused, 3, 3), code)?;
        same("bytes", refused.as_slice(), state)
    })?;
    same("down 0 1", core.down(&mut state, 0, 1), 0)?;
    same("notice 1 0", core.notice(&mut state, 1, 0), 7)?;
    same("down 1 0", core.down(&mut state, 1, 0), 7)?;
    same("up 0 1", core.up(&mut state, 0, 1), 0)?;
    same("up 1 0", core.up(&mut state, 1, 0), 6)
}

/// 1-2 has no line. With 0-1 gone two lose their way; with 0-2 up 0 and 1 gain one to 2, and 2, which believes that it is
/// next to 1, is a hop nearer to 0.
pub fn worth_of_line(core: &dyn Engine) -> Held {
    let mut state = noticed_line(core)?;
    same("not at rest", worth_code(core, &state, 118, 14), Answer { code: 12, value: 0 })?;
    same("run", core.run(&mut state, 255).code, 0)?;
    let should = vec![[0, 1, 0, 0, 2, 0, 0], [0, 2, 3, 9, 0, 2, -1]];
    same("lines", worth_of(core, &state, 2)?, should)?;
    same("exact", worth_code(core, &state, 118, 14), answered(2))?;
    same("a number short", worth_code(core, &state, 118, 13), Answer { code: 2, value: 0 })?;
    same("a byte short", worth_code(core, &state, 117, 14), Answer { code: 2, value: 0 })?;
    // Where every pair has one end up there is no line, and no list is needed.
    same("up 0 2", core.up(&mut state, 0, 2), 0)?;
    same("notice 2 0", core.notice(&mut state, 2, 0), 0)?;
    same("notice 0 1", core.notice(&mut state, 0, 1), 0)?;
    same("run", core.run(&mut state, 255).code, 0)?;
    same("no lines", worth_code(core, &state, 118, 0), answered(0))
}

fn worth_code(core: &dyn Engine, state: &[u8], trial: usize, lines: usize) -> Answer {
    core.worth(state, &mut vec![0xee; trial], &mut vec![i32::MIN; lines])
}

/// 4, 12, 13, 2: also for a node itself, and for nodes that no such link is next to.
pub fn why_refused(core: &dyn Engine) -> Held {
    let mut state = rested(core, 4, &[(0, 1), (0, 2), (1, 2)])?;
    let refused = |state: &[u8], node: usize, destination: usize, room: usize, code: u32| {
        let mut list = vec![0xee; room];
        let what = format!("why {node} {destination} in {room} bytes");
        same(&what, core.why(state, node, destination, &mut list), Reason { code, kind: 0, count: 0 })?;
        same("the list is untouched", list.iter().all(|&byte| byte == 0xee), true)
    };
    same("notice 2 1", core.notice(&mut state, 2, 1), 0)?;
    refused(&state, 4, 0, 4, 4)?;
    refused(&state, 3, 3, 4, 12)?;
    same("run", core.run(&mut state, 255).code, 0)?;
    for (node, destination) in [(1, 2), (2, 1), (0, 1), (0, 0), (3, 3), (3, 0), (0, 3)] {
        refused(&state, node, destination, 4, 13)?;
        refused(&state, node, destination, 0, 13)?;
    }
    refused(&state, 0, 4, 0, 4)?;
    same("notice 1 2", core.notice(&mut state, 1, 2), 0)?;
    same("run", core.run(&mut state, 255).code, 0)?;
    refused(&state, 1, 2, 2, 2)?;
    reason(core, &state, (1, 2), 1, &[1, 0, 2])?;
    reason(core, &state, (3, 0), 2, &[3])
}

/// Of all links the lower end notices, and nothing is delivered: nobody is left to send to. A node still believes its ends
/// to lower ones, and reaches the higher ones by way of 0; 0 has none left.
pub fn complete(core: &dyn Engine) -> Held {
    let mut state = rested(core, 40, &pairs(40))?;
    for (a, b) in pairs(40) {
        same(&format!("notice {a} {b}"), core.notice(&mut state, a, b), 0)?;
    }
    same("waiting", core.total_queued(&state), answered(0))?;
    tables(core, &state, |u, v| match () {
        _ if u == v => (0, u),
        _ if v < u => (1, v),
        _ if u == 0 => (40, 255),
        _ => (2, 0),
    })?;
    same("no lines", worth_code(core, &state, 198_401, 0), answered(0))?;
    for (a, b) in pairs(40) {
        same(&format!("down {a} {b}"), core.down(&mut state, a, b), 0)?;
    }
    same("bytes", state == with_links(core, 40, &[])?, true)
}

/// The noticing end first, length 6. Its neighbours among the kinds stay what they were.
pub fn records(core: &dyn Engine) -> Held {
    let mut out = [0xee; 9];
    same("written", core.write_event(20, 1, 0x0203, &mut out), answered(8))?;
    same("record", out, [6, 0, 20, 0, 1, 0, 3, 2, 0xee])?;
    same("into 7 bytes", core.write_event(20, 1, 2, &mut out[..7]), Answer { code: 2, value: 0 })?;
    same("kind 21", core.write_event(21, 1, 2, &mut out), Answer { code: 10, value: 0 })?;
    let read = |bytes: &[u8]| {
        let mut place = 0;
        (core.read_event(bytes, &mut place), place)
    };
    same("read", read(&out), (Read { code: 0, kind: 20, first: 1, second: 0x0203 }, 8))?;
    let refused = |code: u32| (Read { code, ..Read::default() }, 0);
    for cut in 1..8 {
        same(&format!("{cut} bytes"), read(&out[..cut]), refused(9))?;
    }
    for (length, code) in [(2, 11), (4, 11), (5, 11), (8, 11), (255, 11)] {
        same(&format!("length {length}"), read(&[length, 0, 20, 0, 1, 0, 2, 0, 3, 0]), refused(code))?;
    }
    same("kind 21 read", read(&[6, 0, 21, 0, 1, 0, 2, 0]), refused(10))?;
    same("kind 276 read", read(&[6, 0, 20, 1, 1, 0, 2, 0]), refused(10))
}
