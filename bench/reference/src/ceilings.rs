//! A walk depth first over committees that leaves out those whose ceiling is too low.
use crate::profile::Profile;
use crate::sets::{members, single, up_to};

/// What the walk asks of a rule.
pub trait Rule {
    fn candidates(&self) -> u32;

    fn value(&self, set: u64) -> u128;

    /// The last of the candidates from c on up to whom the ceiling of the set and `left` later candidates is at least
    /// `least`, if that of c is.
    fn reach(&self, c: u32, set: u64, left: u32, least: u128) -> Option<u32>;
}

/// The last of the candidates from c on after whom the greatest `left` gains make at least `least`.
fn last_reaching(gains: &[u128], c: u32, m: u32, left: u32, least: u128) -> Option<u32> {
    // The greatest gains passed so far, in falling order.
    let mut greatest = Vec::with_capacity(left as usize + 1);
    let mut sum = 0;
    let mut last = m - left;
    let is_enough = |sum: u128| sum >= least;
    for n in (c + 1..=m).rev() {
        let gain = gains[n as usize];
        let place = greatest.partition_point(|&other| other >= gain);
        greatest.insert(place, gain);
        sum += gain;
        if greatest.len() > left as usize {
            sum -= greatest.pop().unwrap_or(0);
        }
        if greatest.len() == left as usize {
            last = n - 1;
            if is_enough(sum) {
                return Some(last);
            }
        }
    }
    (left == 0 && is_enough(sum)).then_some(last.max(c))
}

/// Thiele's rules, by what the first j members approved add.
pub struct Thiele<'a> {
    pub profile: &'a Profile,
    pub weights: Vec<u128>,
}

impl Rule for Thiele<'_> {
    fn candidates(&self) -> u32 {
        self.profile.candidates
    }

    fn value(&self, set: u64) -> u128 {
        let mut voters = [0u64; 65];
        for &(ballot, count) in &self.profile.rows {
            voters[(ballot & set).count_ones() as usize] += count;
        }
        let mut sum = 0;
        let mut value = 0;
        for (j, &n) in voters.iter().enumerate().take(self.weights.len() + 1) {
            value += sum * u128::from(n);
            sum += self.weights.get(j).copied().unwrap_or(0);
        }
        value
    }

    fn reach(&self, c: u32, set: u64, left: u32, least: u128) -> Option<u32> {
        let m = self.candidates();
        if left == 0 {
            return (self.value(set) >= least).then_some(m);
        }
        let others = up_to(m) & !up_to(c);
        let mut gains = [0u128; 65];
        for &(ballot, count) in &self.profile.rows {
            let weight = self.weights.get((ballot & set).count_ones() as usize).copied().unwrap_or(0);
            if weight != 0 {
                for n in members(ballot & others) {
                    gains[n as usize] += weight * u128::from(count);
                }
            }
        }
        last_reaching(&gains, c, m, left, least.saturating_sub(self.value(set)))
    }
}

/// Satisfaction approval voting, by the score of each candidate.
pub struct Satisfaction {
    pub candidates: u32,
    pub scores: Vec<u128>,
}

impl Rule for Satisfaction {
    fn candidates(&self) -> u32 {
        self.candidates
    }

    fn value(&self, set: u64) -> u128 {
        members(set).map(|n| self.scores[n as usize]).sum()
    }

    fn reach(&self, c: u32, set: u64, left: u32, least: u128) -> Option<u32> {
        last_reaching(&self.scores, c, self.candidates, left, least.saturating_sub(self.value(set)))
    }
}

/// Minimax approval voting, by the distances so far.
pub struct Minimax<'a>(pub &'a Profile);

impl Minimax<'_> {
    fn closeness(&self, c: u32, set: u64) -> u128 {
        let farthest = self.0.rows.iter().map(|row| ((row.0 & up_to(c)) ^ set).count_ones()).max();
        u128::from(self.0.candidates - farthest.unwrap_or(0))
    }
}

impl Rule for Minimax<'_> {
    fn candidates(&self) -> u32 {
        self.0.candidates
    }

    fn value(&self, set: u64) -> u128 {
        self.closeness(self.0.candidates, set)
    }

    fn reach(&self, c: u32, set: u64, left: u32, least: u128) -> Option<u32> {
        (c..=self.candidates() - left).take_while(|&n| self.closeness(n, set) >= least).last()
    }
}

/// Calls `found` with each committee below a prefix whose value is at least the least one, which it answers anew.
fn walk(rule: &impl Rule, c: u32, set: u64, left: u32, least: &mut u128, found: &mut impl FnMut(u64, u128) -> u128) {
    if left == 0 {
        let value = rule.value(set);
        if value >= *least {
            *least = found(set, value);
        }
        return;
    }
    let m = rule.candidates();
    let mut asked = None;
    for n in c + 1..=m - left + 1 {
        if asked.is_none_or(|(least_asked, _)| least_asked != *least) {
            asked = rule.reach(n - 1, set, left, *least).map(|last| (*least, last));
        }
        match asked {
            Some((_, last)) if n <= last + 1 => walk(rule, n, set | single(n), left - 1, least, found),
            _ => return,
        }
    }
}

/// The greatest value of a committee.
pub fn best(rule: &impl Rule, size: u32) -> u128 {
    let mut best = 0;
    walk(rule, 0, 0, size, &mut 0, &mut |_, value| {
        best = value;
        value + 1
    });
    best
}

/// All committees of this value, in order.
pub fn winners(rule: &impl Rule, size: u32, best: u128, found: &mut impl FnMut(u64)) {
    walk(rule, 0, 0, size, &mut { best }, &mut |set, _| {
        found(set);
        best
    });
}

/// How many prefixes a walk over the winners enters: those whose bounds, and those of each beginning, reach the greatest
/// value. A prefix decides on the candidates up to one of them.
pub fn entered(rule: &impl Rule, size: u32) -> u64 {
    entered_below(rule, 0, 0, size, best(rule, size))
}

fn entered_below(rule: &impl Rule, c: u32, set: u64, left: u32, best: u128) -> u64 {
    let Some(last) = rule.reach(c, set, left, best) else {
        return 0;
    };
    let mut count = u64::from(last - c + 1);
    if left > 0 {
        for n in c + 1..=last + 1 {
            count += entered_below(rule, n, set | single(n), left - 1, best);
        }
    }
    count
}
