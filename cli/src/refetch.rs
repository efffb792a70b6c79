//! `refetch`: the windows in which to fetch missing rows of a log again.

use crate::{
    args::{Command, Given, Opt},
    input::{self, Input},
    lines,
    log::Log,
    message::{self, Failure},
    output, picture, reasons,
};
use fernsponge::{Ranges, Reason, Refusal};
use std::{
    env,
    fs::File,
    io::{self, IsTerminal},
    ops::Range,
    process::{self, Stdio},
    str,
};

pub const COMMAND: Command = Command {
    name: "refetch",
    about: "the windows in which to fetch missing rows of a log again",
    forms: &["--width W [OPTION].. COVERED PROVED"],
    help: "\
COVERED has the rows that the log should have, a range a line: 0..10 are the rows from 0 to 9; two numbers with a space, a
tab or a comma between them are read as well. Each range starts above the end of the one before it. PROVED has the rows
that were proved, a number a line, ascending. Rows that are covered and not proved are missing. LF or CR LF ends a line.

Each window is a line, as 5..9 for the rows from 5 to 8; together they have every missing row, and each begins and ends on
one. No plan has fewer.

  --width W    a window has at most W rows
  --limit N    a plan of more than N windows is refused with 6; N is 1,000,000 without this, and 10,000,000 at most
  --picture    the log as a picture instead, as wide as COLUMNS says, or else the terminal; 80 columns where there is none
",
    operands: (2, 2),
    options: &[
        Opt { name: "--width", value: Some("the most rows of a window") },
        Opt { name: "--limit", value: Some("the most windows of a plan") },
        Opt { name: "--picture", value: None },
    ],
    run,
};

/// The most windows of a plan where no other number is given, the most that can be given, and the columns of a picture where nothing tells them.
const USUAL_WINDOWS: u64 = 1_000_000;
const MOST_WINDOWS: usize = 10_000_000;
const COLUMNS: usize = 80;

/// So many bytes of lines are printed at once.
const AT_ONCE: usize = 65_536;

fn run(given: &Given) -> Result<Vec<u8>, Failure> {
    let Some(width) = given.number("--width")? else {
        return Err(given.usage("--width is missing: the most rows of a window"));
    };
    let limit = limit(given)?;
    let inputs = input::read(given)?;
    let [covered, proved] = &inputs[..] else {
        return Err(given.usage("covered and proved rows are needed"));
    };
    let ranges = lines::parse(covered, range)?;
    let rows = lines::parse(proved, number)?;
    let refused = |refusal: Refusal| match refusal.reason() {
        Reason::NotAscending => of_line(proved, &refusal),
        Reason::EmptyWindows => Failure::numbered(
            "--width",
            "windows of at most 0 rows can fetch nothing",
            refusal.number,
        ),
        Reason::NoRoom => Failure::of_call(
            input::names(&inputs),
            format!("the plan has more than {limit} windows, the most that --limit allows"),
            &refusal,
        ),
        _ => of_line(covered, &refusal),
    };
    let log = Log::new(&ranges, rows).map_err(refused)?;
    let plan = log.plan(width, limit).map_err(refused)?;
    if given.has("--picture") {
        let picture = picture::of(&log, plan.windows(), columns()).map_err(refused)?;
        return Ok(picture.into_bytes());
    }
    print(plan.windows())
}

/// Prints a line for each window, some at a time, as the text of a long plan need not stand in memory; answers the rest.
fn print(windows: Ranges) -> Result<Vec<u8>, Failure> {
    let mut lines = vec![];
    for Range { start, end } in windows {
        lines.extend_from_slice(format!("{start}..{end}\n").as_bytes());
        if lines.len() >= AT_ONCE {
            output::print(&lines)?;
            lines.clear();
        }
    }
    Ok(lines)
}

/// The most windows that a plan may have.
fn limit(given: &Given) -> Result<usize, Failure> {
    let told = given.number("--limit")?.unwrap_or(USUAL_WINDOWS);
    match usize::try_from(told) {
        Ok(limit) if limit <= MOST_WINDOWS => Ok(limit),
        _ => Err(given.usage("--limit is at most 10,000,000: a plan stands in memory")),
    }
}

/// The failure of a line.
fn of_line(input: &Input, refusal: &Refusal) -> Failure {
    let place = lines::place(input, refusal.index);
    Failure::numbered(place, reasons::why(refusal.number), refusal.number)
}

/// The columns of a picture: as many as COLUMNS says, or as the terminal has that it goes to.
fn columns() -> usize {
    let told = env::var("COLUMNS").ok().and_then(|text| text.parse().ok());
    let some = |columns: &usize| *columns > 0;
    let terminal = || of_terminal().filter(some);
    told.filter(some).or_else(terminal).unwrap_or(COLUMNS)
}

/// The columns of the terminal, where standard output is one and the program stty tells them, behind its rows.
fn of_terminal() -> Option<usize> {
    if !io::stdout().is_terminal() {
        return None;
    }
    let mut stty = process::Command::new("stty");
    stty.arg("size").stdin(File::open("/dev/tty").ok()?);
    let size = stty.stderr(Stdio::null()).output().ok()?.stdout;
    let size = String::from_utf8(size).ok()?;
    size.split_whitespace().nth(1)?.parse().ok()
}

/// The range of a line.
fn range(line: &[u8]) -> Result<Range<u64>, String> {
    let text = line.trim_ascii();
    let dots = text.windows(2).position(|two| two == b"..");
    let mark = |byte: &u8| matches!(byte, b' ' | b'\t' | b',');
    let one = || text.iter().position(mark).map(|at| (at, at + 1));
    match dots.map(|at| (at, at + 2)).or_else(one) {
        Some((end, start)) => Ok(number(&text[..end])?..number(&text[start..])?),
        None => Err(format!(
            "'{}' is no range: one is written as 0..10",
            message::shown(line)
        )),
    }
}

/// The row of a line or of a part of one.
fn number(line: &[u8]) -> Result<u64, String> {
    let digits = line.trim_ascii();
    if digits.starts_with(b"+") {
        let digits = message::shown(digits);
        return Err(format!("'{digits}' is no row: rows have no sign"));
    }
    let number = str::from_utf8(digits)
        .ok()
        .and_then(|text| text.parse().ok());
    number.ok_or_else(|| {
        format!(
            "'{}' is no row: rows are numbers from 0 to {}",
            message::shown(line),
            u64::MAX
        )
    })
}
