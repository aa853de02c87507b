//! Checks of a committee: the first list of candidates whose voters show that it lacks a property.
use crate::elect::{write_list, write_set};
use crate::profile::Profile;
use crate::sets::{has, members, single};
use std::io::{self, Write};

struct Violation {
    level: u32,
    shared: u64,
    within: Option<u64>,
    voters: u64,
}

/// So many lists of members are few enough to be tried before any candidates.
const FEW_LISTS: u64 = 1 << 20;

/// Whether a ballot's voters belong to the group of these lists.
fn is_supporter(ballot: u64, committee: u64, level: u32, shared: u64, within: Option<u64>) -> bool {
    ballot & shared == shared
        && match within {
            Some(within) => ballot & committee & !within == 0,
            None => (ballot & committee).count_ones() < level,
        }
}

/// A check at one level.
struct Check<'a> {
    profile: &'a Profile,
    property: &'a str,
    committee: u64,
    level: u32,
    all: u64,
}

impl Check<'_> {
    fn voters(&self, test: impl Fn(u64) -> bool) -> u64 {
        self.profile.rows.iter().filter(|row| test(row.0)).map(|row| row.1).sum()
    }

    fn is_enough(&self, voters: u64) -> bool {
        voters * u64::from(self.committee.count_ones()) >= u64::from(self.level) * self.all
    }

    fn voters_below(&self, shared: u64) -> u64 {
        self.voters(|ballot| ballot & shared == shared && (ballot & self.committee).count_ones() < self.level)
    }

    fn first(&self) -> Option<Violation> {
        let is_plus = self.property == "ejrplus";
        let candidates = (1..=self.profile.candidates).filter(|c| !is_plus || !has(self.committee, *c));
        let pool = candidates.filter(|c| self.is_enough(self.voters_below(single(*c)))).fold(0, |set: u64, c| set | single(c));
        let size = if is_plus { 1 } else { self.level };
        if pool.count_ones() < size || self.property == "pjr" && self.is_refuted() {
            return None;
        }
        self.beyond(0, pool, size)
    }

    fn is_refuted(&self) -> bool {
        let (k, size) = (self.committee.count_ones(), self.level - 1);
        let mut lists = 1;
        for taken in 0..size.min(k - size) {
            if lists > FEW_LISTS {
                return false;
            }
            lists = lists * u64::from(k - taken) / (u64::from(taken) + 1);
        }
        lists <= FEW_LISTS && self.within(0, 0, self.committee, size).is_none()
    }

    /// The first violation that shares these candidates and `left` of the pool.
    fn beyond(&self, shared: u64, pool: u64, left: u32) -> Option<Violation> {
        if left == 0 {
            let within = if self.property == "pjr" { Some(self.within(shared, 0, self.committee, self.level - 1)?) } else { None };
            let voters = self.voters(|ballot| is_supporter(ballot, self.committee, self.level, shared, within));
            let violation = Violation { level: self.level, shared, within, voters };
            return self.is_enough(voters).then_some(violation);
        }
        if pool.count_ones() < left {
            return None;
        }
        let first = pool & pool.wrapping_neg();
        let more = shared | first;
        if self.is_enough(self.voters_below(more)) {
            if let Some(found) = self.beyond(more, pool & !first, left - 1) {
                return Some(found);
            }
        }
        self.beyond(shared, pool & !first, left)
    }

    /// The first list of these members and `left` of the pool that has enough voters who approve all the candidates.
    fn within(&self, shared: u64, within: u64, pool: u64, left: u32) -> Option<u64> {
        if pool.count_ones() < left {
            return None;
        }
        let voters = self.voters(|ballot| {
            let members = ballot & self.committee & !within;
            ballot & shared == shared && members & !pool == 0 && members.count_ones() <= left
        });
        if !self.is_enough(voters) {
            return None;
        }
        if left == 0 {
            return Some(within);
        }
        let first = pool & pool.wrapping_neg();
        let found = self.within(shared, within | first, pool & !first, left - 1);
        found.or_else(|| self.within(shared, within, pool & !first, left))
    }
}

fn find(profile: &Profile, property: &str, committee: u64) -> Option<Violation> {
    let levels = if property == "jr" { 1 } else { committee.count_ones() };
    let all = profile.voters();
    (1..=levels).find_map(|level| Check { profile, property, committee, level, all }.first())
}

pub fn write(out: &mut impl Write, profile: &Profile, property: &str, list: &[u64]) -> io::Result<bool> {
    let committee = list.iter().fold(0, |set, &c| set | single(c as u32));
    let Some(violation) = find(profile, property, committee) else {
        out.write_all(b"holds\n")?;
        return Ok(true);
    };
    let Violation { level, shared, within, voters } = violation;
    write!(out, "violated {property}\nlevel {level}\ncandidates ")?;
    write_set(out, shared)?;
    match within {
        Some(0) => out.write_all(b"within -\n")?,
        Some(within) => {
            out.write_all(b"within ")?;
            write_set(out, within)?;
        }
        None => {}
    }
    writeln!(out, "voters {voters} of {}", profile.voters())?;
    for &(ballot, count) in &profile.rows {
        if is_supporter(ballot, committee, level, shared, within) {
            write!(out, "{count}: ")?;
            write_list(out, members(ballot))?;
        }
    }
    Ok(false)
}
