//! Two programs in turns on the same words: the least time of each, and whether they write the same bytes.
use std::io;
use std::process::{Command, Stdio};
use std::time::{Duration, Instant};

/// The bytes that a program writes, and how long it took.
fn run(program: &str, words: &[String]) -> io::Result<(Vec<u8>, Duration)> {
    let start = Instant::now();
    let output = Command::new(program)
        .args(words)
        .stdin(Stdio::null())
        .stderr(Stdio::inherit())
        .output()?;
    Ok((output.stdout, start.elapsed()))
}

/// Prints `OURS REFERENCE same` or `.. other`, with times in milliseconds: `compare RUNS OURS REFERENCE WORDS..`.
pub fn print(mut words: impl Iterator<Item = String>) -> io::Result<()> {
    let runs: u32 = words.next().and_then(|n| n.parse().ok()).expect("a number of runs");
    let programs = [words.next().expect("a program"), words.next().expect("a program")];
    let words: Vec<String> = words.collect();
    let mut least = [Duration::MAX; 2];
    let mut is_same = true;
    for _ in 0..runs {
        let (ours, our_time) = run(&programs[0], &words)?;
        let (theirs, their_time) = run(&programs[1], &words)?;
        least = [least[0].min(our_time), least[1].min(their_time)];
        is_same = is_same && ours == theirs;
    }
    let millis = least.map(|time| time.as_secs_f64() * 1000.0);
    println!("{:.1} {:.1} {}", millis[0], millis[1], if is_same { "same" } else { "other" });
    Ok(())
}
