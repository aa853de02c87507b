//! How long the answers of a program are waited for.
use std::io::{self, BufRead, BufReader};
use std::process::{Command, Stdio};
use std::time::{Duration, Instant};

/// The lines of an election before its first committee: the rule, the size, and the score or the distance.
const HEADER: usize = 3;

/// Milliseconds, or `-` where there was nothing to wait for.
fn millis(time: Option<Duration>) -> String {
    time.map_or_else(|| "-".to_string(), |time| format!("{:.1}", time.as_secs_f64() * 1000.0))
}

/// The members of a committee on a line, as bits. A line that was cut off may hold none.
fn members(line: &[u8]) -> u64 {
    let numbers = line.split(|&byte| byte == b',').filter_map(|word| std::str::from_utf8(word).ok()?.parse::<u32>().ok());
    numbers.fold(0, |bits, n| bits | 1 << (n - 1))
}

/// How many beginnings a committee of the candidates 1 to m has that the one before it has not: a beginning decides on the
/// candidates up to one of them.
fn new_beginnings(m: u64, before: Option<u64>, members: u64) -> u64 {
    match before {
        Some(before) => m - u64::from((before ^ members).trailing_zeros()),
        None => m + 1,
    }
}

/// Prints `FIRST LAST COMMITTEES PREFIXES`, the times in milliseconds until the first committee stood and until the end, how
/// many committees came, and how many beginnings all of them have, where there are m candidates: `waits M PROGRAM WORDS..`.
/// A `-` stands where the program ended before that.
pub fn print(mut words: impl Iterator<Item = String>) -> io::Result<()> {
    let m: u64 = words.next().and_then(|word| word.parse().ok()).expect("a number of candidates");
    let start = Instant::now();
    let mut child = Command::new(words.next().expect("a program"))
        .args(words)
        .stdin(Stdio::null())
        .stdout(Stdio::piped())
        .stderr(Stdio::null())
        .spawn()?;
    let output = child.stdout.take().expect("an output");
    let (mut first, mut last, mut count) = (None, None, 0);
    let (mut before, mut prefixes) = (None, 0);
    for line in BufReader::new(output).split(b'\n') {
        let line = line?;
        if line == b"end" {
            last = Some(start.elapsed());
            break;
        }
        count += 1;
        if count > HEADER {
            first = first.or_else(|| Some(start.elapsed()));
            let members = members(&line);
            prefixes += new_beginnings(m, before, members);
            before = Some(members);
        }
    }
    child.wait()?;
    let all = if last.is_some() { prefixes.to_string() } else { "-".to_string() };
    println!("{} {} {} {all}", millis(first), millis(last), count.saturating_sub(HEADER));
    Ok(())
}
