//! Queues whose destinations stand in any order: sound where they differ and are below n, and refused where one is there
//! twice, at whatever places, or is none. Uses the rule, the damages and the ground.

use super::damaged::judged;
use crate::compare::call::Call;
use crate::compare::damage::{destination_again, number_like_destination};
use crate::compare::ground::{Ground, Outcome};
use crate::compare::random::Random;
use crate::compare::states::{self, at_rest, filled, one_ended_site, pairs, site};
use crate::second::calls::state_in;
use crate::second::refusal::Refusal;
use crate::second::rule::{Entry, State};
use crate::second::sound::{Clause, broken};
use crate::second::stored::{Blocks, size, stored};
use std::collections::BTreeSet;

/// A sender and a receiver.
type Ends = (usize, usize);
/// Two places of a queue, and the queue.
type Twice = ((usize, usize), Ends);

/// Has these destinations wait in a queue. At rest the receiver has heard all of them: whatever waits, the views fit.
fn wait(state: &mut State, (from, to): Ends, destinations: &[usize]) {
    let entry = |&destination: &usize| Entry { destination, value: state.distances[from][destination] };
    state.queues[from][to] = destinations.iter().map(entry).collect();
}

/// The state is sound, and both say so.
fn accepted(ground: &mut Ground, state: &State) -> Result<(), String> {
    let bytes = stored(state);
    if state_in(&bytes).as_ref() != Ok(state) {
        return Err(format!("a state with queues in another order is not sound: {state:?}"));
    }
    ground.agree(&bytes, &Call::Check)?;
    Ok(())
}

/// The blocks break this clause and no other.
fn breaks_only(blocks: &Blocks, clause: Clause) -> Result<(), String> {
    let broken = broken(blocks);
    if broken == BTreeSet::from([clause]) {
        return Ok(());
    }
    Err(format!("a damage was to break {clause:?} alone, and broke {broken:?}: {blocks:?}"))
}

/// Every list of up to n numbers below n, with or without one that is there twice.
fn lists_of(n: usize) -> Vec<Vec<usize>> {
    let longer = |list: &Vec<usize>| (0..n).map(|v| [list.as_slice(), &[v]].concat()).collect::<Vec<_>>();
    let mut lists = vec![vec![]];
    for length in 1..=n {
        let last = lists.iter().filter(|list| list.len() + 1 == length);
        lists.extend(last.flat_map(longer).collect::<Vec<_>>());
    }
    lists
}

/// Each of them in a queue of a line, whose distances differ. The queues take turns.
pub fn lists(ground: &mut Ground) -> Result<u64, String> {
    let mut count = 0;
    for n in 2..=5 {
        let line: Vec<Ends> = (1..n).map(|b| (b - 1, b)).collect();
        let site = at_rest(n, &line);
        let queues: Vec<Ends> = line.iter().flat_map(|&(a, b)| [(a, b), (b, a)]).collect();
        for (list, &queue) in lists_of(n).iter().zip(queues.iter().cycle()) {
            let mut state = site.clone();
            wait(&mut state, queue, list);
            ground.agree(&stored(&state), &Call::Check)?;
            count += 1;
        }
    }
    Ok(count)
}

/// A site with all links, at rest, and the ends of its queues, shuffled.
struct Site {
    state: State,
    queues: Vec<Ends>,
}

impl Site {
    fn new(random: &mut Random, n: usize) -> Site {
        let queues = random.shuffled(pairs(n).into_iter().flat_map(|(a, b)| [(a, b), (b, a)]));
        Site { state: at_rest(n, &pairs(n)), queues }
    }

    /// The site with entries in each queue, their destinations given by the queue's number.
    fn holding(&self, mut destinations: impl FnMut(usize) -> Vec<usize>) -> State {
        let mut state = self.state.clone();
        for (number, &queue) in self.queues.iter().enumerate() {
            wait(&mut state, queue, &destinations(number));
        }
        state
    }

    /// Each two destinations stand together in one of the queues, in either order.
    fn by_twos(&self) -> State {
        self.holding(|number| {
            let (v, w) = self.queues[self.queues.len() - 1 - number];
            vec![v, w]
        })
    }

    /// Every length from 2 to n in turn, any destinations in any order.
    fn partly_full(&self, random: &mut Random) -> State {
        let mut all: Vec<usize> = (0..self.state.n).collect();
        self.holding(|number| {
            random.shuffle(&mut all);
            all[..2 + number % (self.state.n - 1)].to_vec()
        })
    }

    /// Each length of these has an entry twice: at the first places, at both ends, at the last places, at any two.
    fn twice_in_each_length(&self, random: &mut Random) -> Vec<Twice> {
        let lengths = self.state.n - 1;
        let queues = self.queues.iter().enumerate().take(4 * lengths);
        let places = |(number, &queue): (usize, &Ends)| {
            let last = 1 + number % lengths;
            let second = random.between(1, last);
            let any = (random.below(second), second);
            ([(0, 1), (0, last), (last - 1, last), any][number / lengths], queue)
        };
        queues.map(places).collect()
    }
}

/// Where a queue's destinations and values begin in the stored form: these are its last two blocks.
fn rows(n: usize, (from, to): Ends) -> (usize, usize) {
    let (block, row) = (n.pow(3), (from * n + to) * n);
    (size(n) - 2 * block + row, size(n) - block + row)
}

/// Of each of these queues the entry at the first place stands at the second too, and the state is refused.
fn twice(ground: &mut Ground, random: &mut Random, state: &State, at: &[Twice]) -> Result<u64, String> {
    accepted(ground, state)?;
    let whole = stored(state);
    let asked = random.below(at.len());
    for (number, &((first, second), queue)) in at.iter().enumerate() {
        let (destinations, values) = rows(state.n, queue);
        let mut bytes = whole.clone();
        bytes[destinations + second] = bytes[destinations + first];
        bytes[values + second] = bytes[values + first];
        refused(ground, random, bytes, Clause::DestinationsDiffer, number == asked)?;
    }
    Ok(1 + at.len() as u64)
}

/// Every number that is no destination stands in a full queue once, in the place of what it would be modulo 64 or 32 if
/// that is one, and the state is refused.
fn no_destination(ground: &mut Ground, random: &mut Random, site: &Site, order: &[usize]) -> Result<u64, String> {
    let n = order.len();
    let whole = stored(&site.holding(|_| order.to_vec()));
    let asked = random.between(n, 255);
    for (number, &queue) in (n..=255).zip(site.queues.iter().cycle()) {
        let like = [number % 64, number % 32].into_iter().find(|&v| v < n).unwrap_or(0);
        let place = order.iter().position(|&v| v == like).expect("all of them wait");
        let mut bytes = whole.clone();
        bytes[rows(n, queue).0 + place] = number as u8;
        refused(ground, random, bytes, Clause::DestinationBelowN, number == asked)?;
    }
    Ok((256 - n) as u64)
}

/// The bytes break one clause, and are refused. The second implementation is asked of small states, and of a large one
/// if it is to be: it takes long over these.
fn refused(
    ground: &mut Ground,
    random: &mut Random,
    bytes: Vec<u8>,
    clause: Clause,
    asked: bool,
) -> Result<(), String> {
    if bytes[0] <= 10 || asked {
        breaks_only(&Blocks::read(&bytes), clause)?;
        return judged(ground, random, &bytes);
    }
    let answers = [Refusal::NotSound.number(), 0, 0];
    let should = Outcome { answers, state: bytes, out: Vec::new(), list: Vec::new() };
    ground.hold(&should.state, &Call::Check, &should)
}

/// For each n: queues in some orders with an entry twice at each two places, full ones, ones with an entry less, and
/// shorter ones; queues of every length; each two destinations, and each number that is none.
pub fn places(ground: &mut Ground) -> Result<u64, String> {
    let mut count = 0;
    for n in 2..=40 {
        let random = &mut Random::of_case(0, "queue-places", n as u64);
        let site = Site::new(random, n);
        accepted(ground, &site.by_twos())?;
        let partly_full = site.partly_full(random);
        let at = site.twice_in_each_length(random);
        count += 1 + twice(ground, random, &partly_full, &at)?;
        let ascending: Vec<usize> = (0..n).collect();
        let descending: Vec<usize> = (0..n).rev().collect();
        let shuffled = random.shuffled(0..n);
        let orders = [&ascending, &descending, &shuffled, &descending[1..], &shuffled[1..], &shuffled[..1 + n / 2]];
        // The queues take turns, so that each of them has an entry twice.
        let mut queues = site.queues.iter().copied().cycle();
        for order in orders.into_iter().filter(|order| order.len() > 1) {
            let at: Vec<Twice> = pairs(order.len()).into_iter().zip(queues.by_ref()).collect();
            count += twice(ground, random, &site.holding(|_| order.to_vec()), &at)?;
        }
        count += no_destination(ground, random, &site, &shuffled)?;
    }
    Ok(count)
}

/// A site at rest, at times with links of which one end is up, where entries wait that tell nothing new: in all queues, in
/// those of one sender or of one receiver, or in some; all destinations, or some; the same ones in each queue, or others.
fn told_again(random: &mut Random, n: usize) -> State {
    let mut state = if random.chance(30) { one_ended_site(random, n) } else { site(random, n) };
    let (node, which) = (random.below(n), random.below(4));
    let share = *random.pick(&[5, 20, 50, 90, 100, 100]);
    let some = |random: &mut Random| (0..n).filter(|_| random.chance(share)).collect::<Vec<usize>>();
    let same = random.chance(50).then(|| some(random));
    for from in 0..n {
        for to in state.joined_to(from) {
            let taken = match which {
                0 => true,
                1 => from == node,
                2 => to == node,
                _ => random.chance(30),
            };
            if taken {
                let destinations = same.clone().unwrap_or_else(|| some(random));
                wait(&mut state, (from, to), &destinations);
            }
        }
    }
    state
}

/// Puts a queue's entries into an order: ascending, descending, ascending from any of them on, or but for two, or any.
fn put_in_order(random: &mut Random, entries: &mut [Entry]) {
    entries.sort_by_key(|entry| entry.destination);
    let (i, j) = (random.below(entries.len()), random.below(entries.len()));
    match random.below(6) {
        0 => {}
        1 => entries.reverse(),
        2 => entries.rotate_left(i),
        3 => entries.swap(i, j),
        _ => random.shuffle(entries),
    }
}

pub fn orders(ground: &mut Ground, random: &mut Random) -> Result<(), String> {
    let n = random.node_count();
    let mut state = if random.chance(50) { told_again(random, n) } else { states::any(random, n) };
    for (from, to) in filled(&state) {
        put_in_order(random, state.queues[from][to].make_contiguous());
    }
    accepted(ground, &state)?;
    let whole = Blocks::of(&state);
    judged(ground, random, &whole.write())?;
    for _ in 0..(2 + 200 / (n * n)).min(20) {
        for damage in [destination_again, number_like_destination] {
            let mut blocks = whole.clone();
            let Some(clause) = damage(random, &mut blocks) else { continue };
            breaks_only(&blocks, clause)?;
            judged(ground, random, &blocks.write())?;
        }
    }
    Ok(())
}
