//! Numbers that look random and come again from the same seed. Uses nothing.

/// A generator: xoshiro256** started from splitmix64.
pub struct Random {
    words: [u64; 4],
}

fn mixed(word: u64) -> u64 {
    let word = (word ^ (word >> 30)).wrapping_mul(0xbf58_476d_1ce4_e5b9);
    let word = (word ^ (word >> 27)).wrapping_mul(0x94d0_49bb_1331_11eb);
    word ^ (word >> 31)
}

impl Random {
    pub fn new(seed: u64) -> Random {
        let step = |by: u64| mixed(seed.wrapping_add(by.wrapping_mul(0x9e37_79b9_7f4a_7c15)));
        Random { words: [step(1), step(2), step(3), step(4)] }
    }

    /// The generator of one case: a seed, the group's name and the case's number fix it.
    pub fn of_case(seed: u64, group: &str, case: u64) -> Random {
        let named = group.bytes().fold(mixed(seed), |word, byte| mixed(word ^ u64::from(byte)));
        Random::new(named ^ mixed(case.wrapping_add(1)))
    }

    pub fn word(&mut self) -> u64 {
        let [a, b, c, d] = self.words;
        let (c2, d2) = (c ^ a, d ^ b);
        self.words = [a ^ d2, b ^ c2, c2 ^ (b << 17), d2.rotate_left(45)];
        b.wrapping_mul(5).rotate_left(7).wrapping_mul(9)
    }

    /// A number below a limit that is not 0.
    pub fn below(&mut self, limit: usize) -> usize {
        (self.word() % limit as u64) as usize
    }

    /// A number from the first to the last.
    pub fn between(&mut self, first: usize, last: usize) -> usize {
        first + self.below(last - first + 1)
    }

    pub fn byte(&mut self) -> u8 {
        self.word() as u8
    }

    pub fn bytes(&mut self, count: usize) -> Vec<u8> {
        (0..count).map(|_| self.byte()).collect()
    }

    pub fn numbers(&mut self, count: usize) -> Vec<i32> {
        (0..count).map(|_| self.word() as i32).collect()
    }

    /// True so many times in a hundred.
    pub fn chance(&mut self, hundredths: usize) -> bool {
        self.below(100) < hundredths
    }

    pub fn pick<'a, T>(&mut self, of: &'a [T]) -> &'a T {
        &of[self.below(of.len())]
    }

    pub fn shuffle<T>(&mut self, list: &mut [T]) {
        for last in (1..list.len()).rev() {
            list.swap(last, self.below(last + 1));
        }
    }

    /// A list of these in any order.
    pub fn shuffled<T>(&mut self, these: impl IntoIterator<Item = T>) -> Vec<T> {
        let mut list: Vec<T> = these.into_iter().collect();
        self.shuffle(&mut list);
        list
    }

    /// A node count: small ones often, so that many are tried, and every one up to 40 at times.
    pub fn node_count(&mut self) -> usize {
        match self.below(100) {
            0..55 => self.between(1, 5),
            55..85 => self.between(6, 12),
            85..96 => self.between(13, 27),
            _ => self.between(28, 40),
        }
    }
}
