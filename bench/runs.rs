//! What the scripts of bench/workers.sh and bench/runs.sh come to, written by hand with the
//! standard library, for files without quotes: finds the columns by the header, tests the number of
//! fields, that a time is a number in its range, a user UTF-8 and an action one of the three, and
//! folds the records by user. Prints how many groups there are, and the first and the last one's
//! cells.
//! Usage: runs sessions|count|funnel|list|shop FILE

use std::collections::HashMap;
use std::collections::hash_map::Entry;
use std::process::ExitCode;

const MOST: i64 = 1_000_000_000_000;

/// A record: its time, its user and its action.
struct Record<'a> {
    time: i64,
    user: &'a str,
    action: u8,
}

/// The state of a group.
trait State: Default {
    /// Which of the three columns are read.
    const TIME: bool = true;
    const USER: bool = true;
    const ACTION: bool = false;

    fn step(&mut self, record: &Record);

    /// Its cells, as `sym_bench` prints them.
    fn cells(&self) -> String;
}

#[derive(Default)]
struct Sessions {
    last: i64,
    open: i64,
    done: Vec<i64>,
}

impl State for Sessions {
    fn step(&mut self, record: &Record) {
        if record.time - self.last > 30 {
            self.done.push(self.open);
            self.open = 1;
        } else {
            self.open += 1;
        }
        self.last = record.time;
    }

    fn cells(&self) -> String {
        format!("at (1) {} [{}]", self.open, self.done.len())
    }
}

#[derive(Default)]
struct Count(i64);

impl State for Count {
    const TIME: bool = false;

    fn step(&mut self, _record: &Record) {
        self.0 += 1;
    }

    fn cells(&self) -> String {
        format!("at {}", self.0)
    }
}

#[derive(Default)]
struct Funnel {
    carted: bool,
    bought: Vec<i64>,
}

impl State for Funnel {
    const ACTION: bool = true;

    fn step(&mut self, record: &Record) {
        if record.action == b'c' {
            self.carted = true;
        } else if record.action == b'b' && self.carted {
            self.bought.push(record.time);
            self.carted = false;
        }
    }

    fn cells(&self) -> String {
        format!("at {} [{}]", u8::from(self.carted), self.bought.len())
    }
}

#[derive(Default)]
struct List(Vec<i64>);

impl State for List {
    const USER: bool = false;

    fn step(&mut self, record: &Record) {
        self.0.push(record.time);
    }

    fn cells(&self) -> String {
        format!("at [{}]", self.0.len())
    }
}

#[derive(Clone, Copy, Default, PartialEq)]
enum Stage {
    #[default]
    Looking,
    Carted,
    Paid,
}

#[derive(Default)]
struct Shop {
    last: i64,
    carted_at: i64,
    stage: Stage,
    soon: bool,
    pages: i64,
    views: i64,
    visits: Vec<i64>,
    bought: Vec<i64>,
}

impl State for Shop {
    const ACTION: bool = true;

    fn step(&mut self, record: &Record) {
        if record.time - self.last > 600 {
            self.visits.push(self.pages);
            self.pages = 1;
            self.views = 0;
            self.stage = Stage::Looking;
        } else {
            self.pages += 1;
        }
        match (record.action, self.stage) {
            (b'v', _) => self.views += 1,
            (b'c', Stage::Looking) => {
                self.stage = Stage::Carted;
                self.carted_at = record.time;
            }
            (b'b', Stage::Carted) => {
                self.bought.push(self.views);
                self.stage = Stage::Paid;
                self.views = 0;
                self.soon = record.time - self.carted_at <= 300;
            }
            _ => {}
        }
        self.last = record.time;
    }

    fn cells(&self) -> String {
        format!(
            "at (1) (1) {} {} {} {} [{}] [{}]",
            self.stage as u8,
            u8::from(self.soon),
            self.pages,
            self.views,
            self.visits.len(),
            self.bought.len()
        )
    }
}

/// The one column with this name.
fn column(header: &[u8], name: &[u8]) -> Option<usize> {
    let texts = header.split(|byte| *byte == b',');
    let mut places = texts.enumerate().filter(|(_, text)| *text == name);
    let (place, _) = places.next()?;
    places.next().is_none().then_some(place)
}

/// The number that a text spells: blanks around an optional sign and digits, from -10^12 to 10^12.
fn number(text: &[u8]) -> Option<i64> {
    let (negative, digits) = match text.trim_ascii() {
        [b'-', digits @ ..] => (true, digits),
        [b'+', digits @ ..] => (false, digits),
        digits => (false, digits),
    };
    if digits.is_empty() {
        return None;
    }
    let mut size = 0;
    for digit in digits {
        if !digit.is_ascii_digit() {
            return None;
        }
        size = size * 10 + i64::from(digit - b'0');
        if size > MOST {
            return None;
        }
    }
    Some(if negative { -size } else { size })
}

/// The columns of the fields, and the number of columns.
struct Header {
    time: Option<usize>,
    user: Option<usize>,
    action: Option<usize>,
    columns: usize,
}

fn header<S: State>(line: &[u8]) -> Option<Header> {
    let wanted = |name: &[u8], needed: bool| -> Option<Option<usize>> {
        if needed { Some(Some(column(line, name)?)) } else { Some(None) }
    };
    Some(Header {
        time: wanted(b"ts", S::TIME)?,
        user: wanted(b"user", S::USER)?,
        action: wanted(b"what", S::ACTION)?,
        columns: line.split(|byte| *byte == b',').count(),
    })
}

fn record<'a>(header: &Header, line: &'a [u8]) -> Option<Record<'a>> {
    let (mut time, mut user, mut action) = (Some(0), Some(""), Some(b'v'));
    let mut columns = 0;
    for text in line.split(|byte| *byte == b',') {
        if Some(columns) == header.time {
            time = number(text);
        } else if Some(columns) == header.user {
            user = std::str::from_utf8(text).ok();
        } else if Some(columns) == header.action {
            action = match text {
                b"v" | b"c" | b"b" => Some(text[0]),
                _ => None,
            };
        }
        columns += 1;
    }
    if columns == header.columns {
        Some(Record { time: time?, user: user?, action: action? })
    } else {
        None
    }
}

/// The groups in order of their first records, or None for a bad file.
fn fold<S: State>(bytes: &[u8]) -> Option<Vec<S>> {
    let mut lines = bytes.split(|byte| *byte == b'\n').filter(|line| !line.is_empty());
    let mut places = HashMap::new();
    let mut groups = Vec::new();
    let Some(first) = lines.next() else {
        return Some(groups);
    };
    let header = header::<S>(first)?;
    for line in lines {
        let record = record(&header, line)?;
        let place = match places.entry(record.user) {
            Entry::Occupied(found) => *found.get(),
            Entry::Vacant(free) => {
                groups.push(S::default());
                *free.insert(groups.len() - 1)
            }
        };
        groups[place].step(&record);
    }
    Some(groups)
}

/// How many groups a file has, and the first and the last one's cells.
fn found<S: State>(bytes: &[u8]) -> Option<String> {
    let groups = fold::<S>(bytes)?;
    let (first, last) = (groups.first()?.cells(), groups.last()?.cells());
    Some(format!("{} groups; first {first}; last {last}", groups.len()))
}

fn main() -> ExitCode {
    let mut words = std::env::args().skip(1);
    let found = match words.next().as_deref() {
        Some("sessions") => found::<Sessions>,
        Some("count") => found::<Count>,
        Some("funnel") => found::<Funnel>,
        Some("list") => found::<List>,
        Some("shop") => found::<Shop>,
        _ => return ExitCode::from(2),
    };
    let Some(path) = words.next() else {
        return ExitCode::from(2);
    };
    let Ok(bytes) = std::fs::read(path) else {
        return ExitCode::from(5);
    };
    let Some(text) = found(&bytes) else {
        return ExitCode::from(4);
    };
    println!("{text}");
    ExitCode::SUCCESS
}
