//! The second implementation as a core: bytes to tables, the judged event, tables to bytes.
//! Uses all of this folder.

use super::judged::node_count;
use super::records::{self, Event, STATUS};
use super::refusal::Refusal;
use super::rule::{MOST_NODES, State};
use super::sound::sound;
use super::stored::{Blocks, NONE, size, stored};
use super::worth::Line;
use crate::engine::{Answer, Engine, Ran, Read, Reason, Way};

/// The second implementation.
pub struct Second;

/// The sound state in a buffer: an empty buffer 2, then 1, a short buffer 2, then 3.
pub fn state_in(buffer: &[u8]) -> Result<State, Refusal> {
    let first = *buffer.first().ok_or(Refusal::Short)?;
    let n = node_count(usize::from(first))?;
    if buffer.len() < size(n) {
        return Err(Refusal::Short);
    }
    let blocks = Blocks::read(buffer);
    if sound(&blocks) { Ok(blocks.state()) } else { Err(Refusal::NotSound) }
}

/// Does an event on the state in a buffer; a refusal changes no byte.
fn change<T>(buffer: &mut [u8], event: impl FnOnce(&mut State) -> Result<T, Refusal>) -> Result<T, Refusal> {
    let mut state = state_in(buffer)?;
    let answer = event(&mut state)?;
    let bytes = stored(&state);
    buffer[..bytes.len()].copy_from_slice(&bytes);
    Ok(answer)
}

fn code(answer: Result<(), Refusal>) -> u32 {
    answer.map_or_else(Refusal::number, |()| 0)
}

/// An answer is never reduced: one that does not fit stops the comparison.
fn wide(number: usize) -> u32 {
    u32::try_from(number).expect("an answer fits")
}

fn one(answer: Result<usize, Refusal>) -> Answer {
    let [code, value, _] = two(answer.map(|value| (value, 0)));
    Answer { code, value }
}

/// The number, then two answers.
pub fn two(answer: Result<(usize, usize), Refusal>) -> [u32; 3] {
    match answer {
        Ok((first, second)) => [0, wide(first), wide(second)],
        Err(refusal) => [refusal.number(), 0, 0],
    }
}

/// Hops and direction in a sound state, 255 for none.
pub fn route(state: &State, node: usize, destination: usize) -> Result<(usize, usize), Refusal> {
    let route = state.try_route(node, destination)?;
    Ok((route.distance, route.downstream.unwrap_or(NONE.into())))
}

/// The worth of each link of the state in a buffer: 12 where it is not at rest, then 2 for a trial or a list that is
/// too short for the pairs that have a line. Gives how many lines were written.
fn worth(buffer: &[u8], trial: &mut [u8], list: &mut [i32]) -> Result<usize, Refusal> {
    let state = state_in(buffer)?;
    state.try_rest()?;
    let bytes = stored(&state);
    let trial = trial.get_mut(..bytes.len()).ok_or(Refusal::Short)?;
    let list = list.get_mut(..state.pairs().len() * Line::NUMBERS).ok_or(Refusal::Short)?;
    let lines = state.worth();
    list.copy_from_slice(&lines.iter().flat_map(Line::numbers).collect::<Vec<i32>>());
    trial.copy_from_slice(&bytes);
    Ok(lines.len())
}

/// The reason of a sound state: 4, then 12, then 13, and last 2 for a list that cannot hold all of it. Gives the kind and
/// how many bytes were written.
pub fn why(state: &State, node: usize, destination: usize, list: &mut [u8]) -> Result<(usize, usize), Refusal> {
    let reason = state.try_why(node, destination)?;
    let bytes = reason.bytes();
    list.get_mut(..bytes.len()).ok_or(Refusal::Short)?.copy_from_slice(&bytes);
    Ok((reason.kind(), bytes.len()))
}

impl Engine for Second {
    fn size(&self, n: usize) -> usize {
        if (1..=MOST_NODES).contains(&n) { size(n) } else { 0 }
    }

    fn make(&self, buffer: &mut [u8], n: usize) -> u32 {
        code(node_count(n).and_then(|n| {
            let fresh = stored(&State::fresh(n));
            let place = buffer.get_mut(..fresh.len()).ok_or(Refusal::Short)?;
            place.copy_from_slice(&fresh);
            Ok(())
        }))
    }

    fn check(&self, buffer: &[u8]) -> u32 {
        code(state_in(buffer).map(|_| ()))
    }

    fn up(&self, buffer: &mut [u8], a: usize, b: usize) -> u32 {
        code(change(buffer, |state| state.try_up(a, b)))
    }

    fn down(&self, buffer: &mut [u8], a: usize, b: usize) -> u32 {
        code(change(buffer, |state| state.try_down(a, b)))
    }

    fn notice(&self, buffer: &mut [u8], noticing: usize, other: usize) -> u32 {
        code(change(buffer, |state| state.try_notice(noticing, other)))
    }

    fn deliver(&self, buffer: &mut [u8], from: usize, to: usize) -> u32 {
        code(change(buffer, |state| state.try_deliver(from, to)))
    }

    fn pass(&self, buffer: &mut [u8]) -> Answer {
        one(change(buffer, |state| Ok(state.pass())))
    }

    fn run(&self, buffer: &mut [u8], allowance: u8) -> Ran {
        let [code, passes, deliveries] = two(change(buffer, |state| Ok(state.run(allowance))));
        Ran { code, passes, deliveries }
    }

    fn route(&self, buffer: &[u8], node: usize, destination: usize) -> Way {
        let [code, distance, downstream] = two(state_in(buffer).and_then(|state| route(&state, node, destination)));
        Way { code, distance, downstream }
    }

    fn queue_length(&self, buffer: &[u8], from: usize, to: usize) -> Answer {
        one(state_in(buffer).and_then(|state| Ok(state.try_queue(from, to)?.len())))
    }

    fn total_queued(&self, buffer: &[u8]) -> Answer {
        one(state_in(buffer).map(|state| state.total_queued()))
    }

    fn status(&self, buffer: &[u8], node: usize, out: &mut [u8]) -> Answer {
        one(state_in(buffer).and_then(|state| {
            let body = state.try_status(node)?.map(|field| u16::try_from(field).expect("a field fits"));
            records::write(&records::record(STATUS, &body), out)
        }))
    }

    fn write_event(&self, kind: u32, first: u16, second: u16, out: &mut [u8]) -> Answer {
        let event = Event::of(kind, first, second).ok_or(Refusal::UnknownKind);
        one(event.and_then(|event| records::write(&event.record(), out)))
    }

    fn read_event(&self, bytes: &[u8], place: &mut usize) -> Read {
        match records::read(bytes, *place) {
            Ok(None) => Read::default(),
            Ok(Some((event, next))) => {
                *place = next;
                let numbers = event.numbers();
                let number = |at: usize| numbers.get(at).map_or(0, |&number| u32::from(number));
                Read { code: 0, kind: u32::from(event.kind()), first: number(0), second: number(1) }
            }
            Err(refusal) => Read { code: refusal.number(), ..Read::default() },
        }
    }

    fn worth(&self, buffer: &[u8], trial: &mut [u8], lines: &mut [i32]) -> Answer {
        one(worth(buffer, trial, lines))
    }

    fn why(&self, buffer: &[u8], node: usize, destination: usize, list: &mut [u8]) -> Reason {
        let [code, kind, count] = two(state_in(buffer).and_then(|state| why(&state, node, destination, list)));
        Reason { code, kind, count }
    }
}
