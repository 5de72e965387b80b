//! What `symple` does with `sessions.symple`, written by hand with the standard library, for files
//! without quotes: finds the columns by the header, tests the number of fields, that each time is a
//! number in its range and each user UTF-8, folds the records by user, and prints the report.
//! Usage: sessions FILE

use std::collections::HashMap;
use std::collections::hash_map::Entry;
use std::io::{BufWriter, Write};
use std::process::ExitCode;

const MOST: i64 = 1_000_000_000_000;
const PAUSE: i64 = 30;
const MOST_OPEN: i64 = 1_000;

/// The state of a user: what `last`, `n` and `done` hold, of the list its length and its maximum.
#[derive(Default)]
struct State {
    last: i64,
    open: i64,
    sessions: u64,
    longest: Option<i64>,
}

/// How a user stands after some records.
enum Outcome {
    Going(State),
    Overflow { record: u64 },
}

/// The columns of the script's fields, and the number of columns.
struct Header {
    time: usize,
    user: usize,
    columns: usize,
}

/// The one column with this name.
fn column(header: &[u8], name: &[u8]) -> Option<usize> {
    let texts = header.split(|byte| *byte == b',');
    let mut places = texts.enumerate().filter(|(_, text)| *text == name);
    let (place, _) = places.next()?;
    places.next().is_none().then_some(place)
}

fn header(line: &[u8]) -> Option<Header> {
    Some(Header {
        time: column(line, b"ts")?,
        user: column(line, b"user")?,
        columns: line.split(|byte| *byte == b',').count(),
    })
}

/// The number that a text spells: blanks around an optional sign and digits, from -10^12 to 10^12.
fn number(text: &[u8]) -> Option<i64> {
    let (negative, digits) = match text.trim_ascii() {
        [b'-', digits @ ..] => (true, digits),
        [b'+', digits @ ..] => (false, digits),
        digits => (false, digits),
    };
    if digits.is_empty() {
        return None;
    }
    let mut size = 0;
    for digit in digits {
        if !digit.is_ascii_digit() {
            return None;
        }
        size = size * 10 + i64::from(digit - b'0');
        if size > MOST {
            return None;
        }
    }
    Some(if negative { -size } else { size })
}

/// The time and the user of a line.
fn record<'a>(header: &Header, line: &'a [u8]) -> Option<(i64, &'a str)> {
    let (mut time, mut user, mut columns) = (None, None, 0);
    for text in line.split(|byte| *byte == b',') {
        if columns == header.time {
            time = number(text);
        } else if columns == header.user {
            user = std::str::from_utf8(text).ok();
        }
        columns += 1;
    }
    if columns == header.columns { Some((time?, user?)) } else { None }
}

/// The outcome after one record more.
fn step(outcome: &mut Outcome, time: i64, record: u64) {
    let Outcome::Going(state) = outcome else {
        return;
    };
    let pause = time - state.last;
    if pause > PAUSE && pause <= MOST {
        state.longest = state.longest.max(Some(state.open));
        state.sessions += 1;
        state.open = 1;
    } else if state.open == MOST_OPEN {
        *outcome = Outcome::Overflow { record };
        return;
    } else {
        state.open += 1;
    }
    state.last = time;
}

/// The users in order of their first records, each with its outcome, or None for a bad file.
fn fold(bytes: &[u8]) -> Option<Vec<(&str, Outcome)>> {
    let mut lines = bytes.split(|byte| *byte == b'\n').filter(|line| !line.is_empty());
    let mut places = HashMap::new();
    let mut groups = Vec::new();
    let Some(first) = lines.next() else {
        return Some(groups);
    };
    let header = header(first)?;
    for (line, no) in lines.zip(1..) {
        let (time, user) = record(&header, line)?;
        let place = match places.entry(user) {
            Entry::Occupied(found) => *found.get(),
            Entry::Vacant(free) => {
                groups.push((user, Outcome::Going(State::default())));
                *free.insert(groups.len() - 1)
            }
        };
        step(&mut groups[place].1, time, no);
    }
    Some(groups)
}

fn print(groups: &[(&str, Outcome)]) -> std::io::Result<bool> {
    let mut out = BufWriter::new(std::io::stdout().lock());
    let mut faulty = false;
    writeln!(out, "user | sessions | open | longest")?;
    for (user, outcome) in groups {
        match outcome {
            Outcome::Going(State { open, sessions, longest: Some(longest), .. }) => {
                writeln!(out, "{user} | {sessions} | {open} | {longest}")?;
            }
            Outcome::Going(State { open, sessions, longest: None, .. }) => {
                writeln!(out, "{user} | {sessions} | {open} | none")?;
            }
            Outcome::Overflow { record } => {
                faulty = true;
                writeln!(out, "{user} | fault: n overflows at record {record}")?;
            }
        }
    }
    writeln!(out, "--")?;
    out.flush()?;
    Ok(faulty)
}

fn main() -> ExitCode {
    let Some(path) = std::env::args_os().nth(1) else {
        return ExitCode::from(2);
    };
    let Ok(bytes) = std::fs::read(path) else {
        return ExitCode::from(5);
    };
    let Some(groups) = fold(&bytes) else {
        return ExitCode::from(4);
    };
    match print(&groups) {
        Ok(faulty) => ExitCode::from(u8::from(faulty)),
        Err(_) => ExitCode::from(6),
    }
}
