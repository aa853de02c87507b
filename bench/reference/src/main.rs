//! The jobs of `committees` in plain Rust: the same words, the same methods and the same output, with no proofs. It
//! serves as a yardstick for speed and takes its words and files on trust.
mod ceilings;
mod check;
mod compare;
mod elect;
mod generate;
mod integer_program;
mod models;
mod profile;
mod random;
mod sets;
mod share;
mod waits;

use profile::{Profile, ReadError};
use std::collections::HashMap;
use std::env;
use std::fs::File;
use std::io::{self, BufReader, BufWriter, Write};
use std::process::ExitCode;

/// The options by their names, and the file, if one is named.
struct Words {
    options: HashMap<String, String>,
    file: Option<String>,
}

impl Words {
    fn parse(words: impl Iterator<Item = String>) -> Words {
        let mut parsed = Words {
            options: HashMap::new(),
            file: None,
        };
        let mut words = words;
        while let Some(word) = words.next() {
            match word.strip_prefix("--") {
                Some(name) => {
                    let value = words.next().expect("a value after each option");
                    parsed.options.insert(name.to_string(), value);
                }
                None => parsed.file = Some(word),
            }
        }
        parsed
    }

    fn text(&self, name: &str) -> &str {
        self.options.get(name).expect("an option that the command needs")
    }

    fn number(&self, name: &str) -> usize {
        self.text(name).parse().expect("a number")
    }

    fn list(&self, name: &str) -> Option<Vec<u64>> {
        let text = self.options.get(name)?;
        Some(text.split(',').map(|n| n.parse().expect("a number")).collect())
    }

    fn profile(&self) -> Result<Profile, ReadError> {
        match &self.file {
            Some(path) => {
                let file = File::open(path).map_err(ReadError::Input)?;
                Profile::read(BufReader::new(file), path.rsplit_once('.').map(|(_, ending)| ending))
            }
            None => Profile::read(io::stdin().lock(), None),
        }
    }
}

fn main() -> ExitCode {
    let mut words = env::args().skip(1);
    let command = words.next().expect("a command");
    if command == "generate" {
        generate::write(words, &mut BufWriter::new(io::stdout().lock())).expect("an output");
        return ExitCode::SUCCESS;
    }
    if command == "compare" {
        compare::print(words).expect("two programs");
        return ExitCode::SUCCESS;
    }
    if command == "waits" {
        waits::print(words).expect("a program");
        return ExitCode::SUCCESS;
    }
    match write_answer(&command, &Words::parse(words)) {
        Ok(true) => ExitCode::SUCCESS,
        Ok(false) => ExitCode::from(1),
        Err(error) => {
            eprintln!("reference: {error}");
            ExitCode::from(3)
        }
    }
}

/// Writes the answer to a command, and tells whether a property holds.
fn write_answer(command: &str, words: &Words) -> Result<bool, ReadError> {
    let mut out = BufWriter::new(io::stdout().lock());
    let holds = match command {
        "elect" => elect::write(&mut out, &words.profile()?, words.text("rule"), words.number("size")),
        "entered" => elect::write_entered(&mut out, &words.profile()?, words.text("rule"), words.number("size")),
        "integer-program" => integer_program::write(&mut out, &words.profile()?, words.text("rule"), words.number("size")),
        "check" => {
            let committee = words.list("committee").expect("a committee");
            check::write(&mut out, &words.profile()?, words.text("property"), &committee)
        }
        "share" => {
            let votes = match words.list("votes") {
                Some(votes) => votes,
                None => words.profile()?.party_votes(),
            };
            share::write(&mut out, &votes, words.text("method"), words.number("seats"))
        }
        other => panic!("no command {other}"),
    };
    let holds = holds.expect("an output");
    out.flush().expect("an output");
    Ok(holds)
}
