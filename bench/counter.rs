//! What `symple` does with `counter.symple`, written by hand with the standard library, for a file
//! of one column without quotes: adds each number to a total that has to stay in a range, and
//! prints the report. Empty lines are passed over.
//! Usage: counter FILE

use std::process::ExitCode;

const FIELD: &[u8] = b"amount";
const COLUMN: &str = "total";
const LEAST: i64 = -1_000_000_000_000;
const MOST: i64 = 1_000_000_000_000;

/// How the pass over the records ended.
enum Outcome {
    Empty,
    Going(i64),
    Overflow { record: u64 },
}

/// The number that a text spells: blanks around an optional sign and digits, from -10^12 to 10^12.
fn number(text: &[u8]) -> Option<i64> {
    let (negative, digits) = match text.trim_ascii() {
        [b'-', digits @ ..] => (true, digits),
        [b'+', digits @ ..] => (false, digits),
        digits => (false, digits),
    };
    if digits.is_empty() {
        return None;
    }
    let mut size = 0;
    for digit in digits {
        if !digit.is_ascii_digit() {
            return None;
        }
        size = size * 10 + i64::from(digit - b'0');
        if size > MOST {
            return None;
        }
    }
    Some(if negative { -size } else { size })
}

/// Folds the records of a file, or gives None where the header or a record is bad.
fn fold(bytes: &[u8]) -> Option<Outcome> {
    let mut lines = bytes.split(|byte| *byte == b'\n').filter(|line| !line.is_empty());
    match lines.next() {
        None => return Some(Outcome::Empty),
        Some(header) if header != FIELD => return None,
        Some(_) => {}
    }
    let mut outcome = Outcome::Empty;
    for (line, record) in lines.zip(1..) {
        let amount = number(line)?;
        let total = match outcome {
            Outcome::Empty => amount,
            Outcome::Going(total) => total + amount,
            Outcome::Overflow { .. } => continue,
        };
        outcome = if (LEAST..=MOST).contains(&total) {
            Outcome::Going(total)
        } else {
            Outcome::Overflow { record }
        };
    }
    Some(outcome)
}

fn main() -> ExitCode {
    let Some(path) = std::env::args_os().nth(1) else {
        return ExitCode::from(2);
    };
    let Ok(bytes) = std::fs::read(path) else {
        return ExitCode::from(5);
    };
    match fold(&bytes) {
        None => ExitCode::from(4),
        Some(Outcome::Empty) => {
            print!("{COLUMN}\n--\n");
            ExitCode::SUCCESS
        }
        Some(Outcome::Going(total)) => {
            print!("{COLUMN}\n{total}\n--\n");
            ExitCode::SUCCESS
        }
        Some(Outcome::Overflow { record }) => {
            print!("{COLUMN}\nfault: {COLUMN} overflows at record {record}\n--\n");
            ExitCode::from(1)
        }
    }
}
