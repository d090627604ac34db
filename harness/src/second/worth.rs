//! What each link is worth, document 02's R-1: a trial for every pair that is up or down at both ends, its tables beside
//! the state's.
//! Uses the rule; each trial is a copy of its own, and nothing is kept from one to the next.

use super::rule::State;

/// What a trial came to.
#[derive(Clone, Copy, PartialEq, Eq, Debug)]
pub struct Line {
    pub a: usize,
    pub b: usize,
    pub passes: usize,
    pub deliveries: usize,
    /// Ordered pairs that had a route and have none.
    pub lost: usize,
    /// Ordered pairs that had no route and have one.
    pub gained: usize,
    /// Hops after minus hops before, over the ordered pairs with a route both times.
    pub change: i64,
}

impl Line {
    /// How many numbers of a list a line takes.
    pub const NUMBERS: usize = 7;

    /// The line as it stands in a list.
    pub fn numbers(&self) -> [i32; Line::NUMBERS] {
        let narrow = |number: usize| i32::try_from(number).expect("a number of a line fits");
        let [a, b, passes, deliveries] = [self.a, self.b, self.passes, self.deliveries].map(narrow);
        let change = i32::try_from(self.change).expect("a number of a line fits");
        [a, b, passes, deliveries, narrow(self.lost), narrow(self.gained), change]
    }
}

impl State {
    /// The pairs a < b that have a line, ascending by a and then by b: those with just one end up are left out.
    pub fn pairs(&self) -> Vec<(usize, usize)> {
        let all = (0..self.n).flat_map(|a| (a + 1..self.n).map(move |b| (a, b)));
        all.filter(|&(a, b)| !self.one_ended(a, b)).collect()
    }

    /// A line for every such pair of a state at rest.
    pub fn worth(&self) -> Vec<Line> {
        self.pairs().into_iter().map(|(a, b)| self.trial(a, b)).collect()
    }

    /// The trial of one pair: an up link is taken down, a down link is put up, and it is run to rest.
    pub fn trial(&self, a: usize, b: usize) -> Line {
        let mut trial = self.clone();
        if self.links[a][b] {
            trial.down(a, b)
        } else {
            trial.up(a, b)
        }
        let (passes, deliveries) = trial.run(255);
        assert_eq!(trial.total_queued(), 0, "255 passes bring rest");
        let mut line = Line { a, b, passes, deliveries, lost: 0, gained: 0, change: 0 };
        for (before, after) in self.distances.iter().flatten().zip(trial.distances.iter().flatten()) {
            match (*before < self.n, *after < self.n) {
                (true, true) => line.change += *after as i64 - *before as i64,
                (true, false) => line.lost += 1,
                (false, true) => line.gained += 1,
                (false, false) => {}
            }
        }
        line
    }
}
