//! Sets of candidates 1 to 64 as words: candidate c has bit c - 1.

/// The members in increasing order.
pub fn members(mut set: u64) -> impl Iterator<Item = u32> {
    std::iter::from_fn(move || {
        if set == 0 {
            return None;
        }
        let first = set.trailing_zeros();
        set &= set - 1;
        Some(first + 1)
    })
}

pub fn has(set: u64, candidate: u32) -> bool {
    set & single(candidate) != 0
}

/// The set of one candidate.
pub fn single(candidate: u32) -> u64 {
    1 << (candidate - 1)
}

/// The candidates 1 to m.
pub fn up_to(m: u32) -> u64 {
    if m == 0 { 0 } else { u64::MAX >> (64 - m) }
}

/// All sets of one size, in lexicographic order of their lists.
pub struct KSets {
    candidates: u32,
    next: Option<u64>,
}

impl KSets {
    pub fn new(candidates: u32, size: u32) -> KSets {
        KSets {
            candidates,
            next: (size <= candidates).then_some(up_to(size)),
        }
    }

    /// The set after this one: the last member that can moves up by one, and those after it follow it.
    fn after(&self, set: u64) -> Option<u64> {
        // The members that stand at the end without a gap cannot move.
        let stuck = (set << (64 - self.candidates)).leading_ones();
        let rest = set & up_to(self.candidates - stuck);
        if rest == 0 {
            return None;
        }
        let moved = 63 - rest.leading_zeros();
        let kept = rest & !(1 << moved);
        Some(kept | up_to(stuck + 1) << (moved + 1))
    }
}

impl Iterator for KSets {
    type Item = u64;

    fn next(&mut self) -> Option<u64> {
        let set = self.next?;
        self.next = self.after(set);
        Some(set)
    }
}
