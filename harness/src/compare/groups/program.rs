//! The built program against the second implementation's text. Uses the program as a process, not its insides.

use super::records;
use crate::compare::ground::{Ground, hex};
use crate::compare::random::Random;
use crate::compare::states::{all_pairs, filled};
use crate::second::program::{INPUT, apply, text};
use crate::second::records::Event;
use crate::second::rule::State;
use std::io::{Read, Write};
use std::process::{Command, Stdio};
use std::sync::mpsc;
use std::time::Duration;

/// How long the program may take: one that waits for input that it has no use for is stopped.
const PATIENCE: Duration = Duration::from_secs(30);

/// A script that mostly does things: a make, then events that the state can take, and some that it cannot.
fn script(random: &mut Random) -> Vec<u8> {
    let mut state = State::fresh(1);
    let mut bytes = Vec::new();
    let most = random.between(1, 28) as u16;
    for k in 0..random.below(120) {
        let event = next(random, &state, most, k);
        // What is refused here is refused there too; the script only needs to know the state.
        let _ = apply(&mut state, event);
        bytes.extend(event.record());
    }
    if random.chance(25) {
        bytes.extend(records::script(random));
    }
    bytes
}

fn next(random: &mut Random, state: &State, most: u16, k: usize) -> Event {
    let limit = state.n + usize::from(random.chance(5));
    let (a, b) = (random.below(limit) as u16, random.below(limit) as u16);
    if k == 0 || random.chance(2) {
        let other = *random.pick(&[0, 1, 27, 28, 40, 41, 257, 65_535]);
        return Event::Make { n: if random.chance(80) { random.between(1, usize::from(most)) as u16 } else { other } };
    }
    match random.below(100) {
        0..35 => Event::Up { a, b },
        35..42 => Event::Down { a, b },
        42..52 => {
            let up: Vec<(usize, usize)> = all_pairs(state.n).into_iter().filter(|&(a, b)| state.links[a][b]).collect();
            match up.is_empty() || random.chance(20) {
                true => Event::Notice { noticing: a, other: b },
                false => {
                    let &(noticing, other) = random.pick(&up);
                    Event::Notice { noticing: noticing as u16, other: other as u16 }
                }
            }
        }
        52..87 => {
            let filled = filled(state);
            match filled.is_empty() || random.chance(10) {
                true => Event::Deliver { from: a, to: b },
                false => {
                    let &(from, to) = random.pick(&filled);
                    Event::Deliver { from: from as u16, to: to as u16 }
                }
            }
        }
        87..96 => Event::Pass,
        _ => records::event(random),
    }
}

/// Has the program read pieces, one after another, and gives what it printed. The input may be left open.
fn printed(ground: &Ground, pieces: Vec<Vec<u8>>, leave_open: bool) -> Result<String, String> {
    let mut command = Command::new(&ground.program);
    command.stdin(Stdio::piped()).stdout(Stdio::piped()).stderr(Stdio::null());
    let mut child = command.spawn().map_err(|why| format!("{} does not start: {why}", ground.program.display()))?;
    let (mut stdin, mut stdout) = (child.stdin.take().expect("piped"), child.stdout.take().expect("piped"));
    let writer = std::thread::spawn(move || {
        let mut first = true;
        for piece in pieces {
            if !first {
                std::thread::sleep(Duration::from_millis(3));
            }
            first = false;
            // The program may stop reading at its limit; what it then prints is what counts.
            if stdin.write_all(&piece).is_err() {
                break;
            }
        }
        leave_open.then_some(stdin)
    });
    let (sender, receiver) = mpsc::channel();
    std::thread::spawn(move || {
        let mut printed = Vec::new();
        let whole = stdout.read_to_end(&mut printed).map(|_| printed);
        let _ = sender.send(whole);
    });
    let printed = match receiver.recv_timeout(PATIENCE) {
        Ok(whole) => whole.map_err(|why| format!("its output cannot be read: {why}")),
        Err(_) => Err("it does not end".to_string()),
    };
    if printed.is_err() {
        let _ = child.kill();
    }
    let status = child.wait().map_err(|why| why.to_string())?;
    drop(writer.join());
    let printed = printed?;
    if !status.success() {
        return Err(format!("it ended with {status}"));
    }
    String::from_utf8(printed).map_err(|_| "it printed bytes that are no text".to_string())
}

fn held(ground: &Ground, input: &[u8], pieces: Vec<Vec<u8>>, leave_open: bool) -> Result<(), String> {
    let on = |what: String| format!("the program: {what}\n  on {}", hex(input));
    let is = printed(ground, pieces, leave_open).map_err(on)?;
    let should = text(input);
    if is == should {
        return Ok(());
    }
    let line = is.lines().zip(should.lines()).position(|(a, b)| a != b);
    let at = line.unwrap_or(is.lines().count().min(should.lines().count()));
    let shown = |text: &str| text.lines().nth(at).unwrap_or("the end").to_string();
    Err(on(format!("line {} is '{}', should be '{}'", at + 1, shown(&is), shown(&should))))
}

pub fn scripts(ground: &mut Ground, random: &mut Random) -> Result<(), String> {
    let input = script(random);
    held(ground, &input, vec![input.clone()], false)
}

pub fn input(ground: &mut Ground, random: &mut Random) -> Result<(), String> {
    let mut input = script(random);
    match random.below(4) {
        // In pieces.
        0 => {
            let mut pieces = Vec::new();
            let mut rest = input.as_slice();
            while !rest.is_empty() {
                let (piece, left) = rest.split_at(random.between(1, rest.len().min(50)));
                pieces.push(piece.to_vec());
                rest = left;
            }
            held(ground, &input, pieces, false)
        }
        // Up to the limit and around it, and far past it; the limit falls inside a record or behind one.
        kind => {
            let make = Event::Make { n: random.between(1, 6) as u16 };
            input = make.record();
            while input.len() < INPUT + 100 {
                let filler = if random.chance(70) { Event::Pass } else { Event::Up { a: 0, b: 1 } };
                input.extend(filler.record());
            }
            let length = match random.below(3) {
                0 => INPUT,
                1 => INPUT - 20 + random.below(40),
                _ => input.len(),
            };
            input.truncate(length);
            if kind == 1 {
                let more = random.between(1, 100_000);
                input.extend(random.bytes(more));
            }
            // Left open only where the program has all that it reads.
            held(ground, &input, vec![input.clone()], input.len() >= INPUT && random.chance(60))
        }
    }
}
