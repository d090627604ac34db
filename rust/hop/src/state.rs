//! The state in a buffer, owned or lent, and the calls on it. Uses the foreign calls, the events, and the values that
//! the calls give.

use crate::MOST_NODES;
use crate::answer::{answered, done};
use crate::event::Event;
use crate::ffi;
use crate::reason::Reason;
use crate::refusal::Refusal;
use crate::status::Status;
use crate::worth::{Lines, Worth};
use std::fmt;

/// A state in a buffer: `State<Vec<u8>>` owns its bytes, `State<&mut [u8]>` is lent them, and `State<&[u8]>` can
/// only be asked.
///
/// Bytes of the buffer after the state's own [`size`](crate::size) are never read or written.
///
/// ```
/// use hop::State;
///
/// // Owned.
/// let mut state = State::new(2)?;
/// state.up(0, 1)?;
///
/// // Lent: the same bytes, in a buffer that is longer than needed.
/// let mut buffer = [0; 64];
/// buffer[..41].copy_from_slice(state.as_bytes());
/// let mut lent = State::over(&mut buffer[..]);
/// assert_eq!(lent.run(255)?.deliveries, 5);
/// assert_eq!(lent.route(0, 1)?.distance, 1);
/// # Ok::<(), hop::Refusal>(())
/// ```
#[derive(Clone)]
pub struct State<B> {
    bytes: B,
}

/// What a run did.
#[derive(Clone, Copy, PartialEq, Eq, Hash, Debug)]
pub struct Ran {
    /// The passes made.
    pub passes: usize,
    /// The entries delivered in them.
    pub deliveries: usize,
}

/// What a node has for a destination, see [`State::route`].
///
/// ```
/// use hop::Way;
///
/// let forward = |way: Way| match way {
///     Way { distance: 0, .. } => "here".to_string(),
///     Way { distance, downstream: Some(next) } => format!("{distance} hops by way of {next}"),
///     Way { downstream: None, .. } => "no route".to_string(),
/// };
/// let mut state = hop::State::new(3)?;
/// state.up(0, 1)?;
/// state.up(1, 2)?;
/// assert_eq!(forward(state.route(0, 2)?), "no route");
/// state.run(255)?;
/// assert_eq!(forward(state.route(0, 2)?), "2 hops by way of 1");
/// assert_eq!(forward(state.route(2, 2)?), "here");
/// # Ok::<(), hop::Refusal>(())
/// ```
#[derive(Clone, Copy, PartialEq, Eq, Hash, Debug)]
pub struct Way {
    /// The hops to the destination: 0 from the node to itself, n where no route is known.
    pub distance: usize,
    /// The neighbour to send through, the lowest-numbered of the nearest: the node itself for itself, and nothing exactly
    /// where the distance is n.
    pub downstream: Option<usize>,
}

impl State<Vec<u8>> {
    /// A fresh state of `n` nodes in a vector of its exact size: no links, no routes.
    ///
    /// Refuses: [`NodeCount`](Refusal::NodeCount).
    ///
    /// ```
    /// use hop::{Refusal, State};
    ///
    /// assert_eq!(State::new(1)?.as_bytes(), [1, 0, 0, 0, 1, 0, 0, 0]);
    /// assert_eq!(State::new(41).unwrap_err(), Refusal::NodeCount);
    /// # Ok::<(), Refusal>(())
    /// ```
    pub fn new(n: usize) -> Result<Self, Refusal> {
        let mut state = State::over(vec![0; ffi::size(n)]);
        state.make(n)?;
        Ok(state)
    }
}

impl<B: AsRef<[u8]>> State<B> {
    /// Takes a buffer as it is. Nothing is judged here: every call judges it, and [`check`](State::check) only does that.
    pub fn over(bytes: B) -> Self {
        State { bytes }
    }

    /// The buffer.
    pub fn into_inner(self) -> B {
        self.bytes
    }

    /// All bytes of the buffer.
    pub fn as_bytes(&self) -> &[u8] {
        self.bytes.as_ref()
    }

    /// Says whether the buffer holds a sound state.
    ///
    /// Refuses: [`ShortBuffer`](Refusal::ShortBuffer) if it is empty, [`NodeCount`](Refusal::NodeCount),
    /// [`ShortBuffer`](Refusal::ShortBuffer), [`NotSound`](Refusal::NotSound). Every other call gives these too.
    ///
    /// ```
    /// use hop::{Refusal, State};
    ///
    /// let mut bytes = State::new(3)?.into_inner();
    /// bytes[1] = 1;
    /// assert_eq!(State::over(bytes).check(), Err(Refusal::NotSound));
    /// # Ok::<(), Refusal>(())
    /// ```
    pub fn check(&self) -> Result<(), Refusal> {
        done(ffi::check(self.as_bytes()))
    }

    /// What a node has for a destination: how many hops away it is, and the neighbour to send through.
    ///
    /// Both are of one state as it stood at one moment, and cost one check of it. Before rest they are what the node
    /// believes: where it has a route to another node, that neighbour has said one hop less, which can be out of date.
    /// At rest, and where no link is one-ended, distances are true hop counts, and the neighbour is one hop nearer;
    /// where one is, a route may lead over the dead link, at rest too.
    ///
    /// Refuses: [`NoSuchNode`](Refusal::NoSuchNode).
    ///
    /// ```
    /// use hop::{State, Way};
    ///
    /// // The line 0-1-2, and 3 apart.
    /// let mut state = State::new(4)?;
    /// state.up(0, 1)?;
    /// state.up(1, 2)?;
    /// state.run(255)?;
    /// assert_eq!(state.route(0, 2)?, Way { distance: 2, downstream: Some(1) });
    /// assert_eq!(state.route(0, 0)?, Way { distance: 0, downstream: Some(0) });
    /// assert_eq!(state.route(0, 3)?, Way { distance: 4, downstream: None });
    /// # Ok::<(), hop::Refusal>(())
    /// ```
    pub fn route(&self, node: usize, destination: usize) -> Result<Way, Refusal> {
        let way = ffi::route(self.as_bytes(), node, destination);
        done(way.code)?;
        let downstream = (way.downstream != 255).then_some(way.downstream as usize);
        Ok(Way { distance: way.distance as usize, downstream })
    }

    /// How many entries wait in the queue from one node to another; 0 unless both ends of the link are up.
    ///
    /// Refuses: [`NoSuchNode`](Refusal::NoSuchNode), [`OneNode`](Refusal::OneNode).
    pub fn queue_length(&self, from: usize, to: usize) -> Result<usize, Refusal> {
        answered(ffi::queue_length(self.as_bytes(), from, to))
    }

    /// How many entries wait in the whole state; 0 at rest.
    pub fn total_queued(&self) -> Result<usize, Refusal> {
        answered(ffi::total_queued(self.as_bytes()))
    }

    /// What each link is worth, for a state at rest: a line for every pair of nodes, `a < b`, ascending. A pair whose link
    /// is one-ended is left out.
    ///
    /// Each line tells of a trial on a copy: a link that is up is taken down, one that is down is put up, and the copy
    /// is run to rest. That is n(n − 1)/2 runs, 780 with 40 nodes, and one fewer for each one-ended link. The state's
    /// own bytes are only read.
    ///
    /// The copy is made in a buffer that is allocated for the call and freed with it;
    /// [`write_worth`](State::write_worth) takes the caller's and allocates nothing.
    ///
    /// Refuses: [`NotAtRest`](Refusal::NotAtRest) if an entry waits; a copy of the state can then be run to rest and
    /// asked.
    ///
    /// ```
    /// use hop::{State, Worth};
    ///
    /// let mut state = State::new(3)?;
    /// state.up(0, 1)?;
    /// state.up(1, 2)?;
    /// state.run(255)?;
    /// let lines = state.worth()?;
    /// assert_eq!(lines.len(), 3);
    ///
    /// // Without 0-1 four pairs have no route: from 0 to 1 and 2, and back. With 0-2, two routes are a hop shorter.
    /// assert_eq!((lines[0].a, lines[0].b, lines[0].lost), (0, 1, 4));
    /// assert_eq!(lines[1], Worth { a: 0, b: 2, passes: 2, deliveries: 9, lost: 0, gained: 0, change: -2 });
    /// # Ok::<(), hop::Refusal>(())
    /// ```
    pub fn worth(&self) -> Result<Vec<Worth>, Refusal> {
        // Long enough for every state: its form is no longer than its buffer, and none has more lines than 40 nodes.
        let mut trial = vec![0; self.as_bytes().len().min(ffi::size(MOST_NODES))];
        let mut list = vec![0; Worth::LONGEST_LIST];
        Ok(self.write_worth(&mut trial, &mut list)?.collect())
    }

    /// What each link is worth, as [`worth`](State::worth), in buffers that the caller owns and lends for the call.
    ///
    /// The trial is scratch memory of at least the state's own [`size`](crate::size): what stands in it before does not
    /// matter, and it ends with a copy of the state at its front. The list takes seven numbers for each line, and
    /// [`Worth::list_size`] are always enough; the lines are read from it one after another. What either holds behind
    /// these stays as it was, and after a refusal all of it does.
    ///
    /// Refuses: [`NotAtRest`](Refusal::NotAtRest), then [`ShortBuffer`](Refusal::ShortBuffer) for the trial or the list.
    ///
    /// ```
    /// use hop::State;
    ///
    /// let state = State::new(2)?;
    /// let (mut trial, mut list) = ([0; 41], [0; 7]);
    /// for line in state.write_worth(&mut trial, &mut list)? {
    ///     assert_eq!((line.a, line.b, line.gained), (0, 1, 2));
    /// }
    /// assert_eq!(list, [0, 1, 2, 5, 0, 2, 0]);
    /// assert_eq!(trial, state.as_bytes());
    /// # Ok::<(), hop::Refusal>(())
    /// ```
    pub fn write_worth<'a>(&self, trial: &mut [u8], list: &'a mut [i32]) -> Result<Lines<'a>, Refusal> {
        let lines = answered(ffi::worth(self.as_bytes(), trial, list))?;
        Ok(Lines::of_list(&list[..Worth::NUMBERS * lines]))
    }

    /// Why a node reaches a destination in so many hops, or not at all, for a state at rest: the path along the
    /// downstreams, or the set of nodes that are joined to the node where there is no route.
    ///
    /// The reason is written to the front of a list that the caller owns and lends, a byte for each node, and is read
    /// there. n bytes are always enough, and [`MOST_NODES`] for every state; what the list holds behind the reason
    /// stays as it was, and after a refusal all of it does. The state's own bytes are only read, and nothing is
    /// allocated.
    ///
    /// Refuses: [`NoSuchNode`](Refusal::NoSuchNode), [`NotAtRest`](Refusal::NotAtRest) if an entry waits,
    /// [`OneEndIsUp`](Refusal::OneEndIsUp) if any link of the state is one-ended, then
    /// [`ShortBuffer`](Refusal::ShortBuffer) for a list that cannot hold this reason.
    ///
    /// ```
    /// use hop::{Reason, State};
    ///
    /// // The line 0-1-2, and 3 apart.
    /// let mut state = State::new(4)?;
    /// state.up(0, 1)?;
    /// state.up(1, 2)?;
    /// state.run(255)?;
    /// let mut list = [0; hop::MOST_NODES];
    /// assert_eq!(state.why(0, 2, &mut list)?, Reason::Path(&[0, 1, 2]));
    /// assert_eq!(state.why(2, 3, &mut list)?, Reason::Set(&[0, 1, 2]));
    /// # Ok::<(), hop::Refusal>(())
    /// ```
    pub fn why<'a>(&self, node: usize, destination: usize, list: &'a mut [u8]) -> Result<Reason<'a>, Refusal> {
        let why = ffi::why(self.as_bytes(), node, destination, list);
        done(why.code)?;
        let nodes = &list[..why.count as usize];
        Ok(match why.kind {
            1 => Reason::Path(nodes),
            2 => Reason::Set(nodes),
            kind => unreachable!("the archive gives the kinds that this crate knows, and not {kind}"),
        })
    }

    /// A node's status.
    ///
    /// Refuses: [`NoSuchNode`](Refusal::NoSuchNode).
    ///
    /// ```
    /// let mut state = hop::State::new(2)?;
    /// state.up(0, 1)?;
    /// let status = state.status(1)?;
    /// assert_eq!((status.waiting_for, status.waiting_from, status.total_queued), (2, 2, 4));
    /// # Ok::<(), hop::Refusal>(())
    /// ```
    pub fn status(&self, node: usize) -> Result<Status, Refusal> {
        let mut record = [0; Status::LENGTH];
        self.write_status(node, &mut record)?;
        Ok(Status::of_record(&record))
    }

    /// Writes a node's status record to the front of an output, and gives the bytes written, 14.
    ///
    /// Refuses: [`NoSuchNode`](Refusal::NoSuchNode), then [`ShortBuffer`](Refusal::ShortBuffer) for the output.
    pub fn write_status(&self, node: usize, out: &mut [u8]) -> Result<usize, Refusal> {
        answered(ffi::status(self.as_bytes(), node, out))
    }
}

impl<B: AsRef<[u8]> + AsMut<[u8]>> State<B> {
    /// Makes a fresh state of `n` nodes in the buffer, whatever stands there.
    ///
    /// Refuses: [`NodeCount`](Refusal::NodeCount), [`ShortBuffer`](Refusal::ShortBuffer).
    ///
    /// ```
    /// use hop::{Refusal, State};
    ///
    /// let mut buffer = [0xff; 41];
    /// let mut state = State::over(&mut buffer[..]);
    /// state.make(2)?;
    /// assert_eq!(state.make(3), Err(Refusal::ShortBuffer));
    /// assert_eq!(state.check(), Ok(()));
    /// # Ok::<(), Refusal>(())
    /// ```
    pub fn make(&mut self, n: usize) -> Result<(), Refusal> {
        done(ffi::make(self.bytes.as_mut(), n))
    }

    /// Brings a link up: each end queues all its distances for the other.
    ///
    /// Refuses: [`NoSuchNode`](Refusal::NoSuchNode), [`OneNode`](Refusal::OneNode), [`LinkIsUp`](Refusal::LinkIsUp) if
    /// both ends are up, [`OneEndIsUp`](Refusal::OneEndIsUp) if one is: [`down`](State::down) gives the missing notice.
    pub fn up(&mut self, a: usize, b: usize) -> Result<(), Refusal> {
        done(ffi::up(self.bytes.as_mut(), a, b))
    }

    /// Takes a link down: gives whatever [notices](State::notice) are missing, that of the lower-numbered end first.
    /// Where both ends are up it is as if both had seen it at one moment.
    ///
    /// Refuses: [`NoSuchNode`](Refusal::NoSuchNode), [`OneNode`](Refusal::OneNode), [`LinkIsDown`](Refusal::LinkIsDown)
    /// if both ends are down.
    pub fn down(&mut self, a: usize, b: usize) -> Result<(), Refusal> {
        done(ffi::down(self.bytes.as_mut(), a, b))
    }

    /// One end of a link notices that it is lost: both queues of the link are emptied, the noticing end is down, forgets
    /// what it heard there and recomputes every destination. The other end stays up and goes by what it last heard on
    /// the link, until its own notice; what it sends there meanwhile is dropped.
    ///
    /// Refuses: [`NoSuchNode`](Refusal::NoSuchNode), [`OneNode`](Refusal::OneNode), [`LinkIsDown`](Refusal::LinkIsDown)
    /// if the noticing end is down: its notice is given already, or the link was never up.
    ///
    /// ```
    /// use hop::{Refusal, State};
    ///
    /// // The byte of a's own end of its link to b stands at 1 + a·n + b. Where it differs from b's, one end is up.
    /// let mut state = State::new(2)?;
    /// state.up(0, 1)?;
    /// state.notice(0, 1)?;
    /// assert_eq!((state.as_bytes()[2], state.as_bytes()[3]), (0, 1));
    /// assert_eq!(state.notice(0, 1), Err(Refusal::LinkIsDown));
    /// state.notice(1, 0)?;
    /// assert_eq!(state.as_bytes(), State::new(2)?.as_bytes());
    /// # Ok::<(), Refusal>(())
    /// ```
    pub fn notice(&mut self, noticing: usize, other: usize) -> Result<(), Refusal> {
        done(ffi::notice(self.bytes.as_mut(), noticing, other))
    }

    /// Delivers the head entry of the queue from one node to another.
    ///
    /// Refuses: [`NoSuchNode`](Refusal::NoSuchNode), [`OneNode`](Refusal::OneNode), [`LinkIsDown`](Refusal::LinkIsDown)
    /// unless both ends are up, [`QueueIsEmpty`](Refusal::QueueIsEmpty).
    pub fn deliver(&mut self, from: usize, to: usize) -> Result<(), Refusal> {
        done(ffi::deliver(self.bytes.as_mut(), from, to))
    }

    /// Makes one pass: every queue gives up as many entries as it held when the pass began. Gives their number.
    pub fn pass(&mut self) -> Result<usize, Refusal> {
        answered(ffi::pass(self.bytes.as_mut()))
    }

    /// Makes passes until every queue is empty or as many as the allowance are made.
    ///
    /// ```
    /// let mut state = hop::State::new(2)?;
    /// state.up(0, 1)?;
    /// assert_eq!(state.run(255)?, hop::Ran { passes: 2, deliveries: 5 });
    /// assert_eq!(state.total_queued()?, 0);
    /// # Ok::<(), hop::Refusal>(())
    /// ```
    pub fn run(&mut self, allowance: u8) -> Result<Ran, Refusal> {
        let ran = ffi::run(self.bytes.as_mut(), allowance);
        done(ran.code)?;
        Ok(Ran { passes: ran.passes as usize, deliveries: ran.deliveries as usize })
    }

    /// Does an event, as the call of its name does.
    pub fn apply(&mut self, event: Event) -> Result<(), Refusal> {
        match event {
            Event::Make { n } => self.make(n.into()),
            Event::Up { a, b } => self.up(a.into(), b.into()),
            Event::Down { a, b } => self.down(a.into(), b.into()),
            Event::Deliver { from, to } => self.deliver(from.into(), to.into()),
            Event::Pass => self.pass().map(|_| ()),
            Event::Notice { noticing, other } => self.notice(noticing.into(), other.into()),
        }
    }
}

impl<B: AsRef<[u8]>> fmt::Debug for State<B> {
    fn fmt(&self, out: &mut fmt::Formatter<'_>) -> fmt::Result {
        let bytes = self.as_bytes();
        out.debug_struct("State").field("n", &bytes.first()).field("bytes", &bytes.len()).finish()
    }
}
