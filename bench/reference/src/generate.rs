//! Inputs, the same for each run.
use crate::models::{self, Model};
use crate::random::Random;
use std::io::{self, Write};
use std::iter;

/// Writes a file: `generate KIND CANDIDATES LINES DIFFERENT`, with so many lines of ballots, of which so many are
/// different.
pub fn write(mut words: impl Iterator<Item = String>, out: &mut impl Write) -> io::Result<()> {
    let kind = words.next().expect("a kind");
    if let Some(model) = models::named(&kind) {
        let mut number = || words.next().and_then(|n| n.parse().ok()).expect("a number");
        let (candidates, voters) = (number(), number());
        let seed = words.next().map_or(0, |n| n.parse().expect("a seed"));
        return write_voters(model, candidates, voters, seed, out);
    }
    if let "colliding" | "scattered" = kind.as_str() {
        let count = words.next().and_then(|n| n.parse().ok()).expect("a number");
        return write_words(kind == "colliding", count, out);
    }
    let mut number = || words.next().and_then(|n| n.parse().ok()).expect("a number");
    let (candidates, lines, different): (u64, u64, u64) = (number(), number(), number());
    write!(out, "# DATA TYPE: {kind}\n# NUMBER ALTERNATIVES: {candidates}\n")?;
    if kind == "cat" {
        out.write_all(b"# NUMBER CATEGORIES: 2\n")?;
    }
    let orders: Vec<String> = (0..different).map(|seed| order(&kind, candidates, seed)).collect();
    let mut random = Random::new(&[lines]);
    for line in 0..lines {
        let which = if line < different { line } else { random.below(different) };
        writeln!(out, "{}: {}", random.below(9) + 1, orders[which as usize])?;
    }
    Ok(())
}

/// Writes a `cat` file: `generate MODEL CANDIDATES VOTERS [SEED]`.
fn write_voters(model: Model, candidates: u64, voters: u64, seed: u64, out: &mut impl Write) -> io::Result<()> {
    write!(out, "# DATA TYPE: cat\n# NUMBER ALTERNATIVES: {candidates}\n")?;
    let mut random = Random::new(&[candidates, voters, seed]);
    for ballot in model(candidates, voters, &mut random) {
        let approved: Vec<String> = ballot.iter().map(u64::to_string).collect();
        writeln!(out, "1: {{{}}}", approved.join(","))?;
    }
    Ok(())
}

/// Writes a `cat` file: `generate colliding COUNT` or `generate scattered COUNT`, with COUNT ballots over 64
/// candidates. Those that collide begin in one place of a table under the fixed hash of the program.
fn write_words(collide: bool, count: usize, out: &mut impl Write) -> io::Result<()> {
    out.write_all(b"# DATA TYPE: cat\n# NUMBER ALTERNATIVES: 64\n")?;
    let mut random = Random::new(&[count as u64]);
    let words = iter::repeat_with(|| random.below(1 << 31) << 33 ^ random.below(1 << 31) << 16 ^ random.below(1 << 31));
    for word in words.filter(|&word| !collide || place(word) == 0).take(count) {
        let members: Vec<String> = (1..=64).filter(|n| word >> (n - 1) & 1 == 1).map(|n| n.to_string()).collect();
        writeln!(out, "1: {{{}}}", members.join(","))?;
    }
    Ok(())
}

/// Where a ballot begins in a table of 4,096 places, the most that 36,864 ballots have, under the fixed hash.
fn place(word: u64) -> u64 {
    const FACTOR: u128 = 0x9e37_79b9_7f4a_7c15_f39c_c060_5ced_c835;
    const TERM: u128 = 0x243f_6a88_85a3_08d3_1319_8a2e_0370_7344;
    let hash = (FACTOR.wrapping_mul(word.swap_bytes().into()).wrapping_add(TERM) >> 64) as u64;
    (hash ^ hash >> 32) & 4095
}

/// An order of a kind over the candidates. A quarter of the candidates stand in the first category of a `cat` ballot.
fn order(kind: &str, candidates: u64, seed: u64) -> String {
    let mut random = Random::new(&[seed]);
    let list = random.shuffled(candidates);
    let texts = |list: &[u64]| list.iter().map(u64::to_string).collect::<Vec<_>>();
    let written = |class: &[u64]| match class {
        [one] => one.to_string(),
        _ => format!("{{{}}}", texts(class).join(",")),
    };
    let classes = |list: &[u64], random: &mut Random| -> Vec<String> {
        let mut rest = list;
        let mut classes = Vec::new();
        while !rest.is_empty() {
            let (class, after) = rest.split_at((random.below(3) as usize + 1).min(rest.len()));
            classes.push(written(class));
            rest = after;
        }
        classes
    };
    let some = list.len().div_ceil(4).max(1);
    match kind {
        "cat" => format!("{{{}}},{{{}}}", texts(&list[..some]).join(","), texts(&list[some..]).join(",")),
        "soc" => texts(&list).join(","),
        "soi" => texts(&list[..some]).join(","),
        "toc" => classes(&list, &mut random).join(","),
        _ => classes(&list[..some], &mut random).join(","),
    }
}
