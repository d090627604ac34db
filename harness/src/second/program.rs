//! The text that the program prints for an input. Uses the judged events and the records.

use super::judged::node_count;
use super::records::{self, Event};
use super::refusal::Refusal;
use super::rule::{Route, State};
use super::stored::size;
use std::fmt::Write;

/// How many bytes of the input the program reads.
pub const INPUT: usize = 16_384;
/// How many bytes the program has for a state.
pub const ROOM: usize = 61_966;

/// Applies one event to the program's state.
pub fn apply(state: &mut State, event: Event) -> Result<(), Refusal> {
    let wide = usize::from;
    match event {
        Event::Make { n } => {
            let n = node_count(wide(n))?;
            if size(n) > ROOM {
                return Err(Refusal::Short);
            }
            *state = State::fresh(n);
            Ok(())
        }
        Event::Up { a, b } => state.try_up(wide(a), wide(b)),
        Event::Down { a, b } => state.try_down(wide(a), wide(b)),
        Event::Notice { noticing, other } => state.try_notice(wide(noticing), wide(other)),
        Event::Deliver { from, to } => state.try_deliver(wide(from), wide(to)),
        Event::Pass => {
            state.pass();
            Ok(())
        }
    }
}

/// All that the program prints for these bytes on its standard input.
pub fn text(input: &[u8]) -> String {
    let input = &input[..input.len().min(INPUT)];
    let mut state = State::fresh(1);
    let mut text = String::from("event kind code queued\n");
    let mut line = |ordinal: usize, kind: u16, code: u32, queued: usize| {
        writeln!(text, "{ordinal} {kind} {code} {queued}").expect("a string takes it");
    };
    let (mut place, mut ordinal) = (0, 1);
    loop {
        match records::read(input, place) {
            Ok(None) => break,
            Ok(Some((event, next))) => {
                let code = apply(&mut state, event).map_or_else(Refusal::number, |()| 0);
                line(ordinal, event.kind(), code, state.total_queued());
                place = next;
            }
            Err(refusal) => {
                line(ordinal, 0, refusal.number(), state.total_queued());
                break;
            }
        }
        ordinal += 1;
    }
    for u in 0..state.n {
        for v in 0..state.n {
            let Route { distance, downstream } = state.route(u, v);
            let downstream = downstream.map_or("-".to_string(), |w| w.to_string());
            writeln!(text, "d {u} {v} {distance} {downstream}").expect("a string takes it");
        }
    }
    text
}
