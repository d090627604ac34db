//! The named groups of cases. Each file holds those of one idea; all use the ground.

mod arguments;
mod damaged;
mod fixed;
mod lengths;
mod notices;
mod order;
mod program;
mod queues;
mod records;
mod runs;
mod small;
mod why;
mod worth;

use super::ground::Ground;
use super::random::Random;

/// What a group does.
pub enum Work {
    /// All of it each time. Gives how many cases there were.
    Whole(fn(&mut Ground) -> Result<u64, String>),
    /// One random case at a time, with this share of the time.
    Cases(fn(&mut Ground, &mut Random) -> Result<(), String>, u32),
}

/// A named group of cases.
pub struct Group {
    pub name: &'static str,
    pub about: &'static str,
    pub work: Work,
}

const fn whole(name: &'static str, about: &'static str, work: fn(&mut Ground) -> Result<u64, String>) -> Group {
    Group { name, about, work: Work::Whole(work) }
}

const fn cases(
    name: &'static str,
    share: u32,
    about: &'static str,
    case: fn(&mut Ground, &mut Random) -> Result<(), String>,
) -> Group {
    Group { name, about, work: Work::Cases(case, share) }
}

pub const GROUPS: &[Group] = &[
    whole("numbers", "the documents' own numbers", fixed::numbers),
    whole("sizes", "the size of every node count, and of numbers that are none", fixed::sizes),
    whole("two-nodes", "every state of two nodes that events reach, every call in it", small::two_nodes),
    whole("three-nodes", "states of three nodes that a few events reach, every event in it", small::three_nodes),
    whole(
        "every-node-count",
        "for each n from 1 to 40 a state of each sort and every call in it",
        runs::every_node_count,
    ),
    whole("every-byte", "every byte of small states with every value in its place", small::every_byte),
    whole("every-length", "every length of a buffer for small states, every call", small::every_length),
    whole("every-pair", "every pair of number classes, every call", arguments::every_pair),
    whole("queue-lists", "every list of destinations in a queue, of up to five nodes", queues::lists),
    whole(
        "queue-places",
        "for each n to 40 a destination twice at every two places of a queue, and every number that is none",
        queues::places,
    ),
    whole("worth-every-set", "what each link is worth, for every set of links of up to five nodes", worth::every_set),
    whole(
        "worth-every-end",
        "the same where one end of a link is up, every set of ends of up to four nodes",
        worth::every_end,
    ),
    whole("worth-every-room", "the same of small sites, in trials and lists of every length", worth::every_room),
    whole(
        "worth-node-counts",
        "the same of sites of each n from 1 to 24, of 32 and of 40, with ends up alone and without",
        worth::node_counts,
    ),
    whole("worth-one-waits", "the same asked where one entry waits, in each queue in turn", worth::one_waits),
    whole("why-every-set", "the reason of every pair, for every set of links of up to five nodes", why::every_set),
    whole("why-every-room", "the same of small sites, in lists of every length and far longer ones", why::every_room),
    whole(
        "why-node-counts",
        "the same of four sites of each n from 1 to 40, every pair of one at least",
        why::node_counts,
    ),
    whole("why-one-waits", "the same asked where one entry waits, in each queue in turn", why::one_waits),
    whole(
        "why-one-end",
        "the same asked where one end of a link is up, for each n, of 40 nodes each pair",
        why::one_end,
    ),
    whole("route-node-counts", "hops and direction in lines of each n to 40, before and at rest", runs::routes),
    whole("refused-order", "refusals of a reason and of a route, every two or more of them together", why::order),
    whole(
        "notice-every-end",
        "every set of ends of up to four nodes, every event of two nodes in it",
        notices::every_end,
    ),
    whole("notice-refusals", "what is refused of a link by which of its ends are up, in a table", notices::refusals),
    whole("damaged-ends", "for each n every way to break what is asked of ends up alone", damaged::lone_ends),
    whole("kinds", "every event kind and many others, written into rooms of every length", records::kinds),
    whole("fronts", "every front of a record, cut at every byte", records::fronts),
    cases("make", 2, "node counts and buffers of every class, any bytes before it", lengths::make),
    cases("reached", 6, "random events from fresh, each followed", runs::reached),
    cases("constructed", 6, "sound states that no events reach, every event from them", runs::constructed),
    cases("questions", 3, "every question about a sound state, at rest or not", runs::questions),
    cases("status", 2, "status records into rooms of every length", runs::status),
    cases("to-rest", 4, "passes to rest, with the bounds and the true hop counts", order::to_rest),
    cases("any-order", 4, "passes whose deliveries come in any order, with the same bounds", order::any_order),
    cases("notice", 4, "notices at any end, and what they leave as it was", notices::notice),
    cases(
        "notice-orders",
        4,
        "both ends' notices in either order and link down, after one and after none",
        notices::orders,
    ),
    cases("down-as-01", 3, "link down where both ends are up, held to 01's rule for it", notices::as_01),
    cases("rest-one-ended", 3, "rest with ends up alone, and after the notices that were missing", notices::to_rest),
    cases("arguments", 4, "every call with every class of number", arguments::arguments),
    cases("lengths", 3, "buffers that are empty, short, exact and long", lengths::lengths),
    cases("damaged-bytes", 5, "sound states with a few bytes changed", damaged::bytes),
    cases("damaged-stretches", 3, "sound states with a stretch of bytes changed", damaged::stretches),
    cases("random-bytes", 2, "buffers of any bytes", damaged::random_bytes),
    cases("clauses", 5, "each clause of soundness broken on purpose", damaged::clauses),
    cases("queue-orders", 5, "queues in any order, sound and with one entry too many", queues::orders),
    cases("worth", 4, "what each link is worth, of random sites, in trials and lists of every class", worth::sites),
    cases("worth-refused", 3, "its refusals and their order", worth::refused),
    cases("worth-by-search", 3, "its lines held to searches over the links, and to runs", worth::by_search),
    cases("why", 4, "reasons of random sites, in lists of every class", why::sites),
    cases("why-refused", 3, "their refusals and their order", why::refused),
    cases("why-by-search", 3, "reasons held to searches over the links, and to the routes", why::by_search),
    cases("read", 3, "any bytes and damaged records through the reader", records::read),
    cases("write", 1, "records written and read back", records::write),
    cases("program", 5, "random scripts through the built program", program::scripts),
    cases("program-input", 1, "input in pieces, past its limit, and left open", program::input),
];
