//! An election as an integer program, in the LP format that solvers read.
use crate::elect::increments;
use crate::profile::Profile;
use crate::sets::members;
use std::io::{self, Write};

/// The candidates of a ballot, each with this coefficient: `xN` is 1 where candidate N is a member.
fn write_ballot(out: &mut impl Write, coefficient: &str, ballot: u64) -> io::Result<()> {
    for n in members(ballot) {
        writeln!(out, " {coefficient} x{n}")?;
    }
    Ok(())
}

/// The candidates are 0 or 1, and the committee has this size.
fn write_committee(out: &mut impl Write, m: u32, size: usize) -> io::Result<()> {
    writeln!(out, " seats:")?;
    for n in 1..=m {
        writeln!(out, " + x{n}")?;
    }
    writeln!(out, " = {size}")
}

fn write_end(out: &mut impl Write, m: u32) -> io::Result<()> {
    writeln!(out, "Binary")?;
    for n in 1..=m {
        writeln!(out, " x{n}")?;
    }
    writeln!(out, "End")
}

/// Thiele's rules: `yR_J` from 0 to 1 says whether the voters of row R have a J-th member whom they approve.
fn write_thiele(out: &mut impl Write, profile: &Profile, rule: &str, size: usize) -> io::Result<()> {
    let (weights, denominator) = increments(rule, size);
    let hits = |ballot: u64| {
        let most = size.min(ballot.count_ones() as usize);
        weights[..most].iter().enumerate().filter(|&(_, &w)| w > 0)
    };
    writeln!(out, "Maximize\n value:")?;
    for (r, &(ballot, count)) in profile.rows.iter().enumerate() {
        for (j, &weight) in hits(ballot) {
            writeln!(out, " + {} y{r}_{j}", count as f64 * weight as f64 / denominator as f64)?;
        }
    }
    writeln!(out, "Subject To")?;
    write_committee(out, profile.candidates, size)?;
    for (r, &(ballot, _)) in profile.rows.iter().enumerate().filter(|row| row.1.0 != 0) {
        writeln!(out, " row{r}:")?;
        for (j, _) in hits(ballot) {
            writeln!(out, " + y{r}_{j}")?;
        }
        write_ballot(out, "-", ballot)?;
        writeln!(out, " <= 0")?;
    }
    writeln!(out, "Bounds")?;
    for (r, &(ballot, _)) in profile.rows.iter().enumerate() {
        for (j, _) in hits(ballot) {
            writeln!(out, " 0 <= y{r}_{j} <= 1")?;
        }
    }
    write_end(out, profile.candidates)
}

/// Minimax: no voter's distance is above `d`.
fn write_minimax(out: &mut impl Write, profile: &Profile, size: usize) -> io::Result<()> {
    writeln!(out, "Minimize\n distance: d\nSubject To")?;
    write_committee(out, profile.candidates, size)?;
    for (r, &(ballot, _)) in profile.rows.iter().enumerate() {
        writeln!(out, " row{r}: d")?;
        write_ballot(out, "+ 2", ballot)?;
        writeln!(out, " >= {}", ballot.count_ones() as usize + size)?;
    }
    writeln!(out, "General\n d")?;
    write_end(out, profile.candidates)
}

/// Writes the integer program whose solutions are the winners of a rule with a value.
pub fn write(out: &mut impl Write, profile: &Profile, rule: &str, size: usize) -> io::Result<bool> {
    match rule {
        "minimax" => write_minimax(out, profile, size)?,
        _ => write_thiele(out, profile, rule, size)?,
    }
    Ok(true)
}
