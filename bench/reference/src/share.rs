//! Seats in turn to the greatest claim, and the choices among parties that tie for the last of them.
use crate::elect::write_list;
use std::cmp::Ordering;
use std::io::{self, Write};

/// What a party with these votes and seats claims its next seat with: a fraction.
fn claim(method: &str, votes: u64, seats: u64, all_votes: u64, all_seats: u64) -> (i128, i128) {
    let (v, s) = (i128::from(votes), i128::from(seats));
    match method {
        "hamilton" => (v * i128::from(all_seats) - s * i128::from(all_votes), 1),
        "dhondt" => (v, s + 1),
        "saintelague" => (v, 2 * s + 1),
        "huntington" => (v * v, s * (s + 1)),
        "adams" => (v, s),
        "dean" => (v * (2 * s + 1), 2 * s * (s + 1)),
        other => panic!("no method {other}"),
    }
}

/// Claims over 0 are above all others, and compare by their votes.
fn compare(a: (i128, i128), b: (i128, i128)) -> Ordering {
    match (a.1, b.1) {
        (0, 0) => a.0.cmp(&b.0),
        (0, _) => Ordering::Greater,
        (_, 0) => Ordering::Less,
        _ => (a.0 * b.1).cmp(&(b.0 * a.1)),
    }
}

pub fn write(out: &mut impl Write, votes: &[u64], method: &str, all_seats: usize) -> io::Result<bool> {
    write!(out, "method {method}\nseats {all_seats}\n")?;
    let all_votes: u64 = votes.iter().sum();
    let claim_of = |i: usize, seats: u64| claim(method, votes[i], seats, all_votes, all_seats as u64);
    let parties: Vec<usize> = (0..votes.len()).filter(|&i| votes[i] > 0).collect();
    let mut seats = vec![0u64; votes.len()];
    let mut last = (0, 1);
    for _ in 0..all_seats {
        let best = parties.iter().copied().max_by(|&i, &j| compare(claim_of(i, seats[i]), claim_of(j, seats[j])));
        let best = best.expect("a party");
        last = claim_of(best, seats[best]);
        seats[best] += 1;
    }
    // Seats that were had with the last claim are not certain: they go to some of the parties that tie there.
    let mut tied = Vec::new();
    let mut open = 0;
    for &i in &parties {
        if seats[i] > 0 && compare(claim_of(i, seats[i] - 1), last) == Ordering::Equal {
            seats[i] -= 1;
            open += 1;
            tied.push(i);
        } else if compare(claim_of(i, seats[i]), last) == Ordering::Equal {
            tied.push(i);
        }
    }
    // In ascending order the last parties have the open seats first.
    let mut chosen: Vec<bool> = (0..tied.len()).map(|i| i >= tied.len() - open).collect();
    loop {
        let mut allocation = seats.clone();
        for (&i, &is_chosen) in tied.iter().zip(&chosen) {
            allocation[i] += u64::from(is_chosen);
        }
        write_list(out, allocation.iter())?;
        if !advance(&mut chosen) {
            break;
        }
    }
    out.write_all(b"end\n")?;
    Ok(true)
}

/// The next choice in ascending order, where there is one.
fn advance(chosen: &mut [bool]) -> bool {
    let Some(i) = (1..chosen.len()).rev().find(|&i| chosen[i] && !chosen[i - 1]) else {
        return false;
    };
    chosen.swap(i - 1, i);
    chosen[i..].sort_unstable();
    true
}
