//! Ballots and their counts, read from a PrefLib file in one pass, line by line.
use crate::sets::{has, members, single};
use std::collections::HashMap;
use std::collections::hash_map::Entry;
use std::fmt;
use std::io::{self, BufRead};

const MOST_CANDIDATES: u64 = 64;
const MOST_CATEGORIES: u64 = 1_000_000;
const MOST_VOTERS: u64 = 1 << 32;
const MOST_LINE_BYTES: usize = 1 << 20;

/// What is wrong with a file.
#[derive(Clone, Copy, Debug, PartialEq, Eq)]
pub enum Fault {
    LongLine,
    BadNumber,
    TooManyCandidates,
    ConflictingKey,
    NoAlternatives,
    NoKind,
    BadKind,
    BadBallot,
    BadCount,
    NoSuchCandidate,
    RepeatedCandidate,
    NotStrict,
    Incomplete,
    TooManyClasses,
    NoVoters,
    TooManyVoters,
}

/// Why there is no profile: a fault, of a line where it is one's, or a failed read.
#[derive(Debug)]
pub enum ReadError {
    Fault(Fault, Option<u64>),
    Input(io::Error),
}

impl fmt::Display for ReadError {
    fn fmt(&self, f: &mut fmt::Formatter) -> fmt::Result {
        match self {
            ReadError::Fault(fault, Some(line)) => write!(f, "input line {line}: {fault:?}"),
            ReadError::Fault(fault, None) => write!(f, "input: {fault:?}"),
            ReadError::Input(error) => write!(f, "input: {error}"),
        }
    }
}

#[derive(Clone, Copy, PartialEq, Eq)]
enum Kind {
    Cat,
    Soc,
    Soi,
    Toc,
    Toi,
}

impl Kind {
    fn named(name: &[u8]) -> Option<Kind> {
        let kinds = [("cat", Kind::Cat), ("soc", Kind::Soc), ("soi", Kind::Soi), ("toc", Kind::Toc), ("toi", Kind::Toi)];
        kinds.into_iter().find(|(word, _)| name.eq_ignore_ascii_case(word.as_bytes())).map(|(_, kind)| kind)
    }
}

/// The rows of ballots with their counts, in the order of first appearance.
pub struct Profile {
    pub candidates: u32,
    pub rows: Vec<(u64, u64)>,
}

impl Profile {
    /// Reads a file, whose type is that of its metadata, else that of its ending. Approvals are the first category or
    /// the first class with a candidate.
    pub fn read(mut input: impl BufRead, ending: Option<&str>) -> Result<Profile, ReadError> {
        let mut reader = Reader {
            alternatives: None,
            categories: None,
            kind: ending.and_then(|ending| Kind::named(ending.as_bytes())).ok_or(Fault::NoKind),
            names: vec![Vec::new(); MOST_CANDIDATES as usize],
            voters: 0,
            rows: Vec::new(),
            places: HashMap::new(),
        };
        let mut line = Vec::new();
        for number in 1.. {
            line.clear();
            if input.read_until(b'\n', &mut line).map_err(ReadError::Input)? == 0 {
                break;
            }
            let mut text = line.strip_suffix(b"\n").unwrap_or(&line);
            if number == 1 {
                text = text.strip_prefix(b"\xEF\xBB\xBF").unwrap_or(text);
            }
            text = text.strip_suffix(b"\r").unwrap_or(text);
            reader.take(text).map_err(|fault| ReadError::Fault(fault, (fault != Fault::NoAlternatives).then_some(number)))?;
        }
        reader.finish().map_err(|fault| ReadError::Fault(fault, None))
    }

    pub fn voters(&self) -> u64 {
        self.rows.iter().map(|row| row.1).sum()
    }

    /// The votes of each candidate as a party.
    pub fn party_votes(&self) -> Vec<u64> {
        let mut votes = vec![0; self.candidates as usize];
        for &(ballot, count) in &self.rows {
            if let Some(party) = members(ballot).next() {
                votes[party as usize - 1] += count;
            }
        }
        votes
    }
}

/// What the lines so far have told.
struct Reader {
    alternatives: Option<u64>,
    categories: Option<u64>,
    kind: Result<Kind, Fault>,
    names: Vec<Vec<u8>>,
    voters: u64,
    rows: Vec<(u64, u64)>,
    places: HashMap<u64, usize>,
}

impl Reader {
    fn take(&mut self, line: &[u8]) -> Result<(), Fault> {
        if line.len() > MOST_LINE_BYTES {
            return Err(Fault::LongLine);
        }
        match trim_start(line) {
            [] => Ok(()),
            [b'#', text @ ..] if self.rows.is_empty() => self.take_metadata(text),
            [b'#', ..] => Ok(()),
            _ => self.take_ballot(line),
        }
    }

    fn take_metadata(&mut self, text: &[u8]) -> Result<(), Fault> {
        let Some(colon) = text.iter().position(|&b| b == b':') else {
            return Ok(());
        };
        let value = trim(&text[colon + 1..]);
        let words: Vec<&[u8]> = text[..colon].split(|&b| is_blank(b)).filter(|word| !word.is_empty()).collect();
        let is = |word: usize, key: &str| words[word].eq_ignore_ascii_case(key.as_bytes());
        match words.len() {
            2 if is(0, "DATA") && is(1, "TYPE") => self.kind = Kind::named(value).ok_or(Fault::BadKind),
            2 if is(0, "NUMBER") && is(1, "ALTERNATIVES") => {
                self.alternatives = Some(number_told(value, self.alternatives, MOST_CANDIDATES, Fault::TooManyCandidates)?);
            }
            2 if is(0, "NUMBER") && is(1, "CATEGORIES") => {
                self.categories = Some(number_told(value, self.categories, MOST_CATEGORIES, Fault::BadNumber)?);
            }
            3 if is(0, "ALTERNATIVE") && is(1, "NAME") => {
                if let Some(n @ 1..=MOST_CANDIDATES) = number(words[2]) {
                    self.names[n as usize - 1] = value.to_vec();
                }
            }
            _ => {}
        }
        Ok(())
    }

    fn take_ballot(&mut self, line: &[u8]) -> Result<(), Fault> {
        let m = self.alternatives.ok_or(Fault::NoAlternatives)?;
        let (ballot, count) = ballot(line, self.kind?, m, self.categories)?;
        if count > MOST_VOTERS - self.voters {
            return Err(Fault::TooManyVoters);
        }
        self.voters += count;
        match self.places.entry(ballot) {
            Entry::Occupied(place) => self.rows[*place.get()].1 += count,
            Entry::Vacant(place) => {
                place.insert(self.rows.len());
                self.rows.push((ballot, count));
            }
        }
        Ok(())
    }

    fn finish(self) -> Result<Profile, Fault> {
        let candidates = self.alternatives.ok_or(Fault::NoAlternatives)? as u32;
        if self.rows.is_empty() {
            return Err(Fault::NoVoters);
        }
        Ok(Profile {
            candidates,
            rows: self.rows,
        })
    }
}

fn is_blank(byte: u8) -> bool {
    byte == b' ' || byte == b'\t'
}

fn trim_start(text: &[u8]) -> &[u8] {
    let start = text.iter().position(|&b| !is_blank(b)).unwrap_or(text.len());
    &text[start..]
}

fn trim(text: &[u8]) -> &[u8] {
    let rest = trim_start(text);
    let end = rest.iter().rposition(|&b| !is_blank(b)).map_or(0, |last| last + 1);
    &rest[..end]
}

fn number(digits: &[u8]) -> Option<u64> {
    if digits.is_empty() {
        return None;
    }
    digits.iter().try_fold(0u64, |n, b| {
        b.is_ascii_digit().then(|| n.saturating_mul(10).saturating_add(u64::from(b - b'0')))
    })
}

/// A number of the metadata, from 1 on, beside the one that was told before.
fn number_told(text: &[u8], told: Option<u64>, most: u64, too_large: Fault) -> Result<u64, Fault> {
    match number(text) {
        None | Some(0) => Err(Fault::BadNumber),
        Some(n) if n > most => Err(too_large),
        Some(n) if told.is_some_and(|before| before != n) => Err(Fault::ConflictingKey),
        Some(n) => Ok(n),
    }
}

/// A place in an order, by what may come next.
#[derive(Clone, Copy, PartialEq, Eq)]
enum Place {
    Order,
    Class,
    Between,
    Opened,
    Inner,
    Listed,
}

/// What is noted of an order while it is read.
struct Marks {
    is_category: bool,
    all: u64,
    class: u64,
    approved: Option<u64>,
    classes: u64,
    numbers: u64,
    is_strict: bool,
    wrong: Option<Fault>,
}

impl Marks {
    fn add_number(&mut self, n: u64, m: u64) {
        self.numbers += 1;
        if self.wrong.is_some() {
            return;
        }
        if n == 0 || n > m {
            self.wrong = Some(Fault::NoSuchCandidate);
        } else if has(self.all, n as u32) {
            self.wrong = Some(Fault::RepeatedCandidate);
        } else {
            self.all |= single(n as u32);
            self.class |= single(n as u32);
        }
    }

    fn end_class(&mut self) {
        if self.approved.is_none() && (self.is_category || self.class != 0) {
            self.approved = Some(self.class);
        }
        self.is_strict &= self.numbers == 1;
        self.classes += 1;
        self.numbers = 0;
        self.class = 0;
    }
}

/// The number that begins with a digit, no greater than one more than the most voters, and the text after it.
fn number_from(first: u8, text: &[u8]) -> (u64, &[u8]) {
    let mut n = u64::from(first - b'0');
    let mut rest = text;
    while let [digit @ b'0'..=b'9', after @ ..] = rest {
        n = (10 * n + u64::from(digit - b'0')).min(MOST_VOTERS + 1);
        rest = after;
    }
    (n, rest)
}

/// The marks of an order, if it has the shape of one.
fn marks(order: &[u8], is_category: bool, m: u64) -> Option<Marks> {
    let mut marks = Marks {
        is_category,
        all: 0,
        class: 0,
        approved: None,
        classes: 0,
        numbers: 0,
        is_strict: true,
        wrong: None,
    };
    let mut place = Place::Order;
    let mut rest = order;
    while let [byte, after @ ..] = rest {
        rest = after;
        place = match byte {
            b'0'..=b'9' => {
                let (n, after) = number_from(*byte, rest);
                rest = after;
                marks.add_number(n, m);
                match place {
                    Place::Order | Place::Class => {
                        marks.end_class();
                        Place::Between
                    }
                    Place::Opened | Place::Inner => Place::Listed,
                    Place::Between | Place::Listed => return None,
                }
            }
            b',' if place == Place::Between => Place::Class,
            b',' if place == Place::Listed => Place::Inner,
            b'{' if matches!(place, Place::Order | Place::Class) => Place::Opened,
            b'}' if matches!(place, Place::Opened | Place::Listed) => {
                marks.end_class();
                Place::Between
            }
            b' ' | b'\t' => place,
            _ => return None,
        };
    }
    matches!(place, Place::Order | Place::Between).then_some(marks)
}

/// The approvals and the count of a ballot line. All of it is read, and tested for all faults.
fn ballot(line: &[u8], kind: Kind, m: u64, categories: Option<u64>) -> Result<(u64, u64), Fault> {
    let [first @ b'0'..=b'9', after @ ..] = trim_start(line) else {
        return Err(Fault::BadBallot);
    };
    let (count, after) = number_from(*first, after);
    let [b':', order @ ..] = trim_start(after) else {
        return Err(Fault::BadBallot);
    };
    let marks = marks(order, kind == Kind::Cat, m).ok_or(Fault::BadBallot)?;
    if count == 0 || count > MOST_VOTERS {
        return Err(Fault::BadCount);
    }
    if let Some(fault) = marks.wrong {
        return Err(fault);
    }
    if matches!(kind, Kind::Soc | Kind::Soi) && !marks.is_strict {
        return Err(Fault::NotStrict);
    }
    if matches!(kind, Kind::Soc | Kind::Toc) && u64::from(marks.all.count_ones()) < m {
        return Err(Fault::Incomplete);
    }
    if kind == Kind::Cat && categories.is_some_and(|most| marks.classes > most) {
        return Err(Fault::TooManyClasses);
    }
    Ok((marks.approved.unwrap_or(0), count))
}
