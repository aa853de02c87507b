//! Random numbers, the same for each run.
use std::array;

/// A linear congruential generator (Knuth's).
pub struct Random(u64);

impl Random {
    /// A generator that begins at a mixture of these numbers, so that each of them changes all bits of the state. Draws
    /// below a power of two take low bits of the state, which high bits never reach.
    pub fn new(seeds: &[u64]) -> Random {
        Random(seeds.iter().fold(0, |state, seed| mixed(state ^ seed)))
    }

    /// A number below `n`.
    pub fn below(&mut self, n: u64) -> u64 {
        self.0 = self.0.wrapping_mul(6_364_136_223_846_793_005).wrapping_add(1_442_695_040_888_963_407);
        (self.0 >> 33) % n
    }

    /// Whether an event of so many percent happens.
    pub fn happens(&mut self, percent: u64) -> bool {
        self.below(100) < percent
    }

    /// An index of the weights, each with a chance in proportion to its weight.
    pub fn weighted(&mut self, weights: &[u64]) -> usize {
        let drawn = self.below(weights.iter().sum());
        let ends = weights.iter().scan(0, |end, weight| {
            *end += weight;
            Some(*end)
        });
        ends.take_while(|&end| end <= drawn).count()
    }

    /// A number that is nearly normally distributed: the sum of twelve even draws.
    pub fn normal(&mut self, mean: i64, deviation: i64) -> i64 {
        let sum: u64 = (0..12).map(|_| self.below(1001)).sum();
        mean + (sum as i64 - 6000) * deviation / 1000
    }

    /// A point of a cube with sides of 1,000.
    pub fn point<const T: usize>(&mut self) -> [i64; T] {
        array::from_fn(|_| self.below(1000) as i64)
    }

    /// The numbers 1 to `n` in random order.
    pub fn shuffled(&mut self, n: u64) -> Vec<u64> {
        let mut list: Vec<u64> = (1..=n).collect();
        for i in (1..list.len()).rev() {
            list.swap(i, self.below(i as u64 + 1) as usize);
        }
        list
    }
}

/// A word of which each bit depends on each bit of the given one (Steele, Lea and Flood, Fast Splittable Pseudorandom
/// Number Generators, OOPSLA 2014).
fn mixed(word: u64) -> u64 {
    let word = word.wrapping_add(0x9e37_79b9_7f4a_7c15);
    let word = (word ^ word >> 30).wrapping_mul(0xbf58_476d_1ce4_e5b9);
    let word = (word ^ word >> 27).wrapping_mul(0x94d0_49bb_1331_11eb);
    word ^ word >> 31
}
