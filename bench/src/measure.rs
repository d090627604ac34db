//! How it is timed: in one process, the two turn and turn about, the best of many. Uses the rows.

use crate::rows::{Row, events, script};
use hop_harness::compare::call::Answers;
use hop_harness::engine::Engine;
use std::hint::black_box;
use std::time::{Duration, Instant};

/// The best times of the core and of what it is timed beside, in nanoseconds.
#[derive(Clone, Copy)]
pub struct Best {
    pub core: f64,
    pub beside: f64,
}

impl Best {
    /// Below 1 the first is faster.
    pub fn ratio(&self) -> f64 {
        self.core / self.beside
    }
}

/// How long a row is timed, and how often at least.
const TIME: Duration = Duration::from_millis(400);
const ROUNDS: usize = 15;
/// What a shorter work is done so often that the clock does not matter.
const CLOCK: f64 = 20_000.0;

/// Times two works turn and turn about. Each gives its own time in nanoseconds.
pub fn best_of(mut core: impl FnMut() -> f64, mut beside: impl FnMut() -> f64) -> Best {
    let mut best = Best { core: f64::MAX, beside: f64::MAX };
    let start = Instant::now();
    let mut rounds = 0;
    while rounds < ROUNDS || start.elapsed() < TIME {
        // The one that comes second finds a warmer machine, so they change places.
        if rounds % 2 == 0 {
            best.core = best.core.min(core());
            best.beside = best.beside.min(beside());
        } else {
            best.beside = best.beside.min(beside());
            best.core = best.core.min(core());
        }
        rounds += 1;
    }
    best
}

/// The time since a start, for each of so many works.
fn each(start: Instant, often: u32) -> f64 {
    start.elapsed().as_nanos() as f64 / f64::from(often)
}

/// Every buffer that a row lends: the state, an output or a trial, and a list.
#[derive(PartialEq, Eq)]
pub struct Lent {
    state: Vec<u8>,
    out: Vec<u8>,
    list: Vec<i32>,
}

impl Lent {
    fn new(row: &Row) -> Lent {
        Lent { state: row.state.clone(), out: row.call.blank(), list: row.call.blank_list() }
    }

    fn to(&mut self, engine: &dyn Engine, row: &Row) -> Answers {
        row.call.on(engine, &mut self.state, &mut self.out, &mut self.list)
    }
}

/// What an engine makes of a row: the answers, and every buffer after it.
pub fn outcome(engine: &dyn Engine, row: &Row) -> (Answers, Lent) {
    let mut lent = Lent::new(row);
    (lent.to(engine, row), lent)
}

/// One round of a row: the state put back, then the call, so often that the clock does not matter.
struct Round<'a> {
    engine: &'a dyn Engine,
    row: &'a Row,
    lent: Lent,
    often: u32,
}

impl Round<'_> {
    fn new<'a>(engine: &'a dyn Engine, row: &'a Row) -> Round<'a> {
        let mut round = Round { engine, row, lent: Lent::new(row), often: 1 };
        let once = round.once();
        // A call that changes the state is done once on each copy; the others can be done again on the same.
        let changes = round.lent.state != row.state;
        if !changes && once < CLOCK {
            round.often = (CLOCK / once.max(10.0)) as u32 + 1;
        }
        round
    }

    fn once(&mut self) -> f64 {
        self.lent.state.copy_from_slice(&self.row.state);
        let start = Instant::now();
        for _ in 0..self.often {
            black_box(black_box(&mut self.lent).to(self.engine, self.row));
        }
        each(start, self.often)
    }
}

/// Times a row, after making sure that both give the same answers and leave the same in every buffer.
pub fn row(core: &dyn Engine, beside: &dyn Engine, row: &Row) -> Result<Best, String> {
    let (is, should) = (outcome(core, row), outcome(beside, row));
    if is != should {
        return Err(format!("{}, n = {}: the two differ ({:?}, {:?})", row.name, row.state[0], is.0, should.0));
    }
    if should.0[0] != 0 {
        return Err(format!("{}, n = {}: refused with {}", row.name, row.state[0], should.0[0]));
    }
    let (mut of_core, mut of_beside) = (Round::new(core, row), Round::new(beside, row));
    // Each as often as the other: a call that is done again finds its bytes in the cache.
    let often = of_core.often.max(of_beside.often);
    (of_core.often, of_beside.often) = (often, often);
    Ok(best_of(|| of_core.once(), || of_beside.once()))
}

/// Times the writing of a thousand event records, of so many kinds.
pub fn write(core: &dyn Engine, beside: &dyn Engine, kinds: u32) -> Result<Best, String> {
    let events = events(kinds);
    let all = |engine: &dyn Engine, out: &mut Vec<u8>| {
        let mut place = 0;
        for &(kind, first, second) in &events {
            place += engine.write_event(kind, first, second, &mut out[place..]).value as usize;
        }
        place
    };
    let (mut of_core, mut of_beside) = (vec![0; 8000], vec![0; 8000]);
    if all(core, &mut of_core) != all(beside, &mut of_beside) || of_core != of_beside {
        return Err("written events differ".to_string());
    }
    let timed = |engine: &dyn Engine, out: &mut Vec<u8>| {
        let start = Instant::now();
        black_box(all(engine, black_box(out)));
        each(start, 1)
    };
    Ok(best_of(|| timed(core, &mut of_core), || timed(beside, &mut of_beside)))
}

/// Times the reading of a thousand event records, of so many kinds.
pub fn read(core: &dyn Engine, beside: &dyn Engine, kinds: u32) -> Result<Best, String> {
    let script = script(kinds);
    let all = |engine: &dyn Engine| {
        let (mut place, mut sum) = (0, 0_u64);
        loop {
            let read = engine.read_event(black_box(&script), &mut place);
            if read.kind == 0 {
                return (place, sum);
            }
            sum += u64::from(read.kind ^ read.first ^ read.second);
        }
    };
    if all(core) != all(beside) {
        return Err("read events differ".to_string());
    }
    let timed = |engine: &dyn Engine| {
        let start = Instant::now();
        black_box(all(engine));
        each(start, 1)
    };
    Ok(best_of(|| timed(core), || timed(beside)))
}

/// A plain pass over bytes: their sum. That of 256 fits into 16 bits, so that many bytes are added at once.
fn summed(bytes: &[u8]) -> u64 {
    let block = |block: &[u8]| block.iter().map(|&byte| u16::from(byte)).sum::<u16>();
    bytes.chunks(256).map(|bytes| u64::from(block(bytes))).sum()
}

/// How many plain passes over the state a check takes, on the same bytes.
pub fn plain_passes(engine: &dyn Engine, state: &[u8]) -> f64 {
    let often = (CLOCK * 20.0 / state.len() as f64) as u32 + 1;
    let timed = |work: &dyn Fn(&[u8]) -> u64| {
        let start = Instant::now();
        for _ in 0..often {
            black_box(work(black_box(state)));
        }
        each(start, often)
    };
    best_of(|| timed(&|state| u64::from(engine.check(state))), || timed(&summed)).ratio()
}
