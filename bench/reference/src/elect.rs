//! Elections by a plain walk over all committees, by one that leaves some out where they are many, and by sequences of
//! choices.
use crate::ceilings::{self, Minimax, Rule, Satisfaction, Thiele};
use crate::profile::Profile;
use crate::sets::{KSets, has, members, single, up_to};
use std::collections::HashSet;
use std::io::{self, Write};

fn gcd(a: u128, b: u128) -> u128 {
    if b == 0 { a } else { gcd(b, a % b) }
}

/// The least number that all of 1 to n divide.
fn common_multiple(n: u128) -> u128 {
    (1..=n).fold(1, |l, i| l / gcd(l, i) * i)
}

/// The increments of a rule for so many seats, over their denominator.
pub fn increments(rule: &str, size: usize) -> (Vec<u128>, u128) {
    let (denominator, base) = match rule {
        "pav" => (common_multiple(size as u128), None),
        "geom2" => (2u128.pow(size as u32 - 1), Some(2u128)),
        "geom3" => (3u128.pow(size as u32 - 1), Some(3)),
        "geom4" => (4u128.pow(size as u32 - 1), Some(4)),
        _ => (1, None),
    };
    let weights = (1..=size as u128).map(|j| match (rule, base) {
        ("av", _) => 1,
        ("cc", _) => u128::from(j == 1),
        (_, Some(p)) => denominator / p.pow(j as u32 - 1),
        (_, None) => denominator / j,
    });
    (weights.collect(), denominator)
}

/// The most committees that are all tried.
const FEW_COMMITTEES: u128 = 1_000_000;

/// How many committees of a size there are.
fn committees(m: u32, size: usize) -> u128 {
    (0..size as u128).fold(1, |count, taken| count * (u128::from(m) - taken) / (taken + 1))
}

/// Prints the winners of a rule, found by a walk with ceilings.
fn write_pruned(out: &mut impl Write, rule: &impl Rule, size: usize, denominator: Option<u128>) -> io::Result<()> {
    let best = ceilings::best(rule, size as u32);
    match denominator {
        Some(denominator) => writeln!(out, "score {best}/{denominator}")?,
        None => writeln!(out, "distance {}", u128::from(rule.candidates()) - best)?,
    }
    let mut written = Ok(());
    ceilings::winners(rule, size as u32, best, &mut |set| {
        if written.is_ok() {
            written = write_set(out, set);
        }
    });
    written
}

pub fn write(out: &mut impl Write, profile: &Profile, rule: &str, size: usize) -> io::Result<bool> {
    write!(out, "rule {rule}\nsize {size}\n")?;
    let m = profile.candidates;
    let is_many = committees(m, size) > FEW_COMMITTEES;
    match rule {
        "sav" if is_many => {
            let denominator = common_multiple(u128::from(m));
            write_pruned(out, &satisfaction(profile), size, Some(denominator))?;
        }
        "minimax" if is_many => write_pruned(out, &Minimax(profile), size, None)?,
        "av" | "pav" | "cc" | "geom2" | "geom3" | "geom4" if is_many => {
            let (weights, denominator) = increments(rule, size);
            write_pruned(out, &Thiele { profile, weights }, size, Some(denominator))?;
        }
        "seqpav" | "seqcc" | "revseqpav" => {
            for set in sequential(profile, rule, size) {
                write_set(out, set)?;
            }
        }
        "sav" => {
            let l = common_multiple(u128::from(m));
            let shares: Vec<u128> = (0..=u128::from(m)).map(|n| if n == 0 { 0 } else { l / n }).collect();
            walk(out, profile, size, Some(l), |set| {
                let mut hits = [0u64; 65];
                for &(ballot, count) in &profile.rows {
                    hits[ballot.count_ones() as usize] += count * u64::from((ballot & set).count_ones());
                }
                sum_of_worths(&shares, &hits)
            })?;
        }
        "minimax" => walk(out, profile, size, None, |set| {
            let farthest = profile.rows.iter().map(|row| (row.0 ^ set).count_ones()).max();
            u128::from(m - farthest.unwrap_or(0))
        })?,
        _ => {
            let (weights, denominator) = increments(rule, size);
            let mut sums = vec![0];
            for w in weights {
                sums.push(sums[sums.len() - 1] + w);
            }
            walk(out, profile, size, Some(denominator), |set| {
                let mut voters = [0u64; 65];
                for &(ballot, count) in &profile.rows {
                    voters[(ballot & set).count_ones() as usize] += count;
                }
                sum_of_worths(&sums, &voters)
            })?;
        }
    }
    out.write_all(b"end\n")?;
    Ok(true)
}

/// Satisfaction approval voting, times the common multiple of the sizes of ballots.
fn satisfaction(profile: &Profile) -> Satisfaction {
    let m = profile.candidates;
    let l = common_multiple(u128::from(m));
    let mut scores = vec![0; m as usize + 1];
    for &(ballot, count) in &profile.rows {
        for n in members(ballot) {
            scores[n as usize] += l / u128::from(ballot.count_ones()) * u128::from(count);
        }
    }
    Satisfaction { candidates: m, scores }
}

/// Prints how many prefixes a walk with ceilings over the winners of a rule enters.
pub fn write_entered(out: &mut impl Write, profile: &Profile, rule: &str, size: usize) -> io::Result<bool> {
    let entered = match rule {
        "sav" => ceilings::entered(&satisfaction(profile), size as u32),
        "minimax" => ceilings::entered(&Minimax(profile), size as u32),
        _ => {
            let (weights, _) = increments(rule, size);
            ceilings::entered(&Thiele { profile, weights }, size as u32)
        }
    };
    writeln!(out, "{entered}")?;
    Ok(true)
}

/// What so many of each worth are worth together.
fn sum_of_worths(worths: &[u128], numbers: &[u64]) -> u128 {
    worths.iter().zip(numbers).map(|(worth, &n)| worth * u128::from(n)).sum()
}

/// Finds the greatest value in a first pass over all committees, and prints those that have it in a second.
fn walk(
    out: &mut impl Write,
    profile: &Profile,
    size: usize,
    denominator: Option<u128>,
    value: impl Fn(u64) -> u128,
) -> io::Result<()> {
    let m = profile.candidates;
    let best = KSets::new(m, size as u32).map(&value).max().expect("a committee");
    match denominator {
        Some(denominator) => writeln!(out, "score {best}/{denominator}")?,
        None => writeln!(out, "distance {}", u128::from(m) - best)?,
    }
    for set in KSets::new(m, size as u32).filter(|set| value(*set) == best) {
        write_set(out, set)?;
    }
    Ok(())
}

pub fn write_set(out: &mut impl Write, set: u64) -> io::Result<()> {
    write_list(out, members(set))
}

/// Numbers with commas between them, on a line.
pub fn write_list<N: std::fmt::Display>(out: &mut impl Write, numbers: impl Iterator<Item = N>) -> io::Result<()> {
    let mut comma = "";
    for n in numbers {
        write!(out, "{comma}{n}")?;
        comma = ",";
    }
    out.write_all(b"\n")
}

/// All committees that some sequence of tied choices reaches, in order.
fn sequential(profile: &Profile, rule: &str, size: usize) -> Vec<u64> {
    let m = profile.candidates;
    let grows = rule != "revseqpav";
    let (weights, _) = increments(if rule == "seqcc" { "cc" } else { "pav" }, m as usize);
    let mut level: HashSet<u64> = HashSet::from([if grows { 0 } else { up_to(m) }]);
    let steps = if grows { size } else { m as usize - size };
    for _ in 0..steps {
        let mut next = HashSet::new();
        for &set in &level {
            let mut worths = [0u128; 65];
            for &(ballot, count) in &profile.rows {
                let hits = (ballot & set).count_ones() as usize;
                let weight = if grows { weights.get(hits) } else { hits.checked_sub(1).and_then(|j| weights.get(j)) };
                let worth = u128::from(count) * weight.copied().unwrap_or(0);
                for c in members(ballot) {
                    worths[c as usize] += worth;
                }
            }
            let open = || (1..=m).filter(|&c| has(set, c) != grows);
            let worth = |c: u32| worths[c as usize];
            let best = if grows { open().map(worth).max() } else { open().map(worth).min() };
            next.extend(open().filter(|&c| Some(worth(c)) == best).map(|c| set ^ single(c)));
        }
        level = next;
    }
    let mut sets: Vec<u64> = level.into_iter().collect();
    // Of two sets of one size the first has the candidate of the lowest bit in which they differ.
    sets.sort_unstable_by_key(|set| std::cmp::Reverse(set.reverse_bits()));
    sets
}
