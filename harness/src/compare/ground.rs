//! Where the core and the second implementation meet: one call, the same bytes, every answer and byte compared.
//! Uses the calls, the fences and the second implementation.

use super::call::{Answers, Call, blank};
use super::fence::{Fence, Placement};
use crate::engine::{Answer, Engine, Read};
use crate::second::Second;
use crate::second::rule::State;
use crate::second::stored::{size, stored};
use std::path::PathBuf;

/// The most bytes that a buffer has here: a state of 40 nodes, and some behind it.
pub const MOST_BYTES: usize = 198_401 + 1024;
/// The most numbers that a list has here: the lines of 40 nodes, and some behind them.
pub const MOST_NUMBERS: usize = 7 * 780 + 1024;

/// What a call should come to.
pub struct Outcome {
    pub answers: Answers,
    pub state: Vec<u8>,
    pub out: Vec<u8>,
    pub list: Vec<i32>,
}

/// The core under comparison with its fences, and the built program where there is one.
pub struct Ground<'a> {
    pub core: &'a dyn Engine,
    pub program: PathBuf,
    state: Fence,
    out: Fence,
    list: Fence,
    turn: usize,
}

/// What the second implementation makes of a call.
pub fn outcome(before: &[u8], call: &Call) -> Outcome {
    let (mut state, mut out, mut list) = (before.to_vec(), call.blank(), call.blank_list());
    let answers = call.on(&Second, &mut state, &mut out, &mut list);
    Outcome { answers, state, out, list }
}

impl<'a> Ground<'a> {
    pub fn new(core: &'a dyn Engine, program: PathBuf) -> Ground<'a> {
        let (state, out, list) = (Fence::new(MOST_BYTES), Fence::new(MOST_BYTES), Fence::new(4 * MOST_NUMBERS));
        Ground { core, program, state, out, list, turn: 0 }
    }

    /// The placements take turns, so that each call meets each.
    fn placement(&mut self) -> Placement {
        self.turn += 1;
        Placement::ALL[self.turn % 3]
    }

    /// Those of a list take turns of their own, so that it meets each beside each of the others'.
    fn placement_of_list(&self) -> Placement {
        Placement::ALL[self.turn / 6 % 3]
    }

    /// Has the core do a call and holds it to an outcome.
    pub fn hold(&mut self, before: &[u8], call: &Call, should: &Outcome) -> Result<(), String> {
        let (of_state, of_out, of_list) = (self.placement(), self.placement(), self.placement_of_list());
        let state = self.state.put(before, of_state);
        let out = self.out.put(&call.blank(), of_out);
        let list = self.list.put_numbers(&call.blank_list(), of_list);
        let lent = (self.state.lent(&state), self.out.lent(&out), self.list.lent_numbers(&list));
        let answers = call.on(self.core, lent.0, lent.1, lent.2);
        let differs = |what: String| Err(format!("{call:?}: {what}\n  on {}", shown(before)));
        if answers != should.answers {
            return differs(format!("answers {answers:?}, should be {:?}", should.answers));
        }
        if let Some(at) = first_difference(self.state.lent(&state), &should.state) {
            let (is, named) = (self.state.lent(&state)[at], name_of(&should.state, at));
            return differs(format!("byte {at} ({named}) is {is}, should be {}", should.state[at]));
        }
        if let Some(at) = first_difference(self.out.lent(&out), &should.out) {
            let is = self.out.lent(&out)[at];
            return differs(format!("byte {at} of the output is {is}, should be {}", should.out[at]));
        }
        if let Some(at) = first_difference(self.list.lent_numbers(&list), &should.list) {
            let is = self.list.lent_numbers(&list)[at];
            return differs(format!("number {} of line {} is {is}, should be {}", at % 7, at / 7, should.list[at]));
        }
        if !self.state.intact(&state) || !self.out.intact(&out) || !self.list.intact(&list) {
            return differs("a byte outside the buffer was written".to_string());
        }
        Ok(())
    }

    /// Both do a call on the same bytes. Gives the bytes after it.
    pub fn agree(&mut self, before: &[u8], call: &Call) -> Result<Vec<u8>, String> {
        let should = outcome(before, call);
        self.hold(before, call, &should)?;
        Ok(should.state)
    }

    /// Both refuse a call with this number.
    pub fn refuse(&mut self, before: &[u8], call: &Call, number: u32) -> Result<(), String> {
        let should = outcome(before, call);
        if should.answers != [number, 0, 0] {
            return Err(format!("{call:?}: {number} is due, the second implementation answers {:?}", should.answers));
        }
        self.hold(before, call, &should)
    }

    /// The core does a call on a state's bytes, with others behind them; the rule has made the state after it.
    pub fn follow(
        &mut self,
        call: &Call,
        answers: Answers,
        from: &State,
        to: &State,
        behind: &[u8],
    ) -> Result<(), String> {
        let with_behind = |state: &State| [stored(state).as_slice(), behind].concat();
        let should = Outcome { answers, state: with_behind(to), out: Vec::new(), list: Vec::new() };
        self.hold(&with_behind(from), call, &should)
    }

    /// Both write an event into the same room.
    pub fn agree_write(&mut self, kind: u32, first: u16, second: u16, room: usize) -> Result<(), String> {
        let mut should = blank(room);
        let answer = Second.write_event(kind, first, second, &mut should);
        let placement = self.placement();
        let out = self.out.put(&blank(room), placement);
        let is: Answer = self.core.write_event(kind, first, second, self.out.lent(&out));
        let what = format!("write_event {kind} {first} {second} into {room} bytes");
        if is != answer {
            return Err(format!("{what}: {is:?}, should be {answer:?}"));
        }
        if self.out.lent(&out) != should {
            return Err(format!("{what}: {}, should be {}", hex(self.out.lent(&out)), hex(&should)));
        }
        if self.out.intact(&out) { Ok(()) } else { Err(format!("{what}: a byte outside was written")) }
    }

    /// Both read at a place of the same bytes. Gives what was read and the place after it.
    pub fn agree_read(&mut self, bytes: &[u8], place: usize) -> Result<(Read, usize), String> {
        let (mut should_place, mut is_place) = (place, place);
        let should = Second.read_event(bytes, &mut should_place);
        let placement = self.placement();
        let lent = self.state.put(bytes, placement);
        let is = self.core.read_event(self.state.lent(&lent), &mut is_place);
        let wrong = |what: String| Err(format!("read_event at {place}: {what}\n  on {}", hex(bytes)));
        if (is, is_place) != (should, should_place) {
            return wrong(format!("{is:?} and place {is_place}, should be {should:?} and {should_place}"));
        }
        if self.state.lent(&lent) != bytes || !self.state.intact(&lent) {
            return wrong("a byte was written".to_string());
        }
        Ok((is, is_place))
    }
}

/// Bytes in hexadecimal, the first of them where there are many.
pub fn hex(bytes: &[u8]) -> String {
    let shown: Vec<String> = bytes.iter().take(400).map(|byte| format!("{byte:02x}")).collect();
    let more = if bytes.len() > 400 { " .." } else { "" };
    format!("{} bytes {}{more}", bytes.len(), shown.join(" "))
}

fn shown(state: &[u8]) -> String {
    match state.first() {
        Some(n) => format!("n = {n}, {}", hex(state)),
        None => "an empty buffer".to_string(),
    }
}

fn first_difference<T: PartialEq>(is: &[T], should: &[T]) -> Option<usize> {
    // Whole first: most are equal, and that is found out fast.
    if is == should { None } else { is.iter().zip(should).position(|(a, b)| a != b) }
}

/// What a byte of a stored state is, found by counting through the blocks in their order.
fn name_of(state: &[u8], at: usize) -> String {
    let n = usize::from(state[0]);
    let mut left = at;
    if !(1..=40).contains(&n) || at >= size(n) {
        return "after the stored form".to_string();
    }
    let blocks = [
        ("node count", 0),
        ("link", 2),
        ("distance", 2),
        ("downstream", 2),
        ("view", 3),
        ("queue length", 2),
        ("queued destination", 3),
        ("queued value", 3),
    ];
    for (name, sides) in blocks {
        let many = n.pow(sides);
        if left < many {
            let sides: Vec<String> = (0..sides).rev().map(|side| (left / n.pow(side) % n).to_string()).collect();
            return format!("{name} {}", sides.join(" "));
        }
        left -= many;
    }
    "after the stored form".to_string()
}
