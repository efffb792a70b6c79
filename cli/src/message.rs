//! Messages for people: where something is wrong, and why.

use crate::{input::Input, reasons, rows};
use fernsponge::{Reason, Refusal, SheetError, SheetFault, MOST_ITEMS};
use std::{
    fmt::Display,
    io::{self, Write},
    process::ExitCode,
};

/// Why a command does not answer, and the exit status that says so.
#[derive(Debug)]
pub struct Failure {
    status: u8,
    text: String,
}

impl Failure {
    /// What a file says is refused.
    pub fn refused(text: impl Into<String>) -> Self {
        let text = text.into();
        Self { status: 1, text }
    }

    /// What a file says is refused, by the number that stands for the reason.
    pub fn numbered(place: impl Display, why: impl Display, number: u8) -> Self {
        Self::refused(format!("{place}: {why} (refusal {number})"))
    }

    /// What a file says is refused by a call; or the system has no memory for that call, which is no fault of the file.
    pub fn of_call(place: impl Display, why: impl Display, refusal: &Refusal) -> Self {
        match refusal.lacks_memory() {
            true => Self::unusable(format!("{place}: {refusal:#}")),
            false => Self::numbered(place, why, refusal.number),
        }
    }

    /// A file cannot be read or written.
    pub fn unusable(text: impl Into<String>) -> Self {
        let text = text.into();
        Self { status: 2, text }
    }

    /// A command, or none yet, is called wrongly.
    pub fn usage(command: &str, text: &str) -> Self {
        let (mut name, mut help) = (String::new(), "fernsponge --help".to_string());
        if !command.is_empty() {
            name = format!("{command}: ");
            help = format!("fernsponge {command} --help");
        }
        Self::unusable(format!("{name}{text}\n{help} tells how to call it"))
    }

    /// Writes the message to standard error; where that is closed, the exit status says enough.
    pub fn tell(&self) -> ExitCode {
        let _ = writeln!(io::stderr(), "fernsponge: {}", self.text);
        ExitCode::from(self.status)
    }
}

/// Bytes of a file as a message has them: those that can be printed as they are, and others by their numbers.
pub fn shown(bytes: &[u8]) -> String {
    let one = |byte: &u8| match byte {
        b' '..=b'~' => char::from(*byte).to_string(),
        _ => byte.escape_ascii().to_string(),
    };
    bytes.iter().map(one).collect()
}

/// Why a sheet is not read, by its own text and the error of the reader.
pub fn of_sheet(input: &Input, error: &SheetError) -> Failure {
    let (name, refusal) = (&input.name, &error.refusal);
    match error.fault {
        Some(fault) => of_fault(input, &fault, refusal.number),
        None if refusal.reason() == Reason::NoRoom => {
            Failure::of_call(name, no_room(&input.bytes), refusal)
        }
        None => Failure::numbered(name, reasons::why(refusal.number), refusal.number),
    }
}

/// What is wrong with a row, by where it was found and why, and the number that refuses it.
pub fn of_fault(input: &Input, fault: &SheetFault, number: u8) -> Failure {
    let place = place(input, fault.row, Some(fault.column));
    Failure::numbered(place, fault.why(), number)
}

/// The file, row and column, which are told from 0; the line too where it is not the row's number, as quoted fields before have line ends inside.
pub fn place(input: &Input, row: u64, column: Option<usize>) -> String {
    let mut place = format!("{}: row {}", input.name, row + 1);
    let line = rows::line_of(&input.bytes, row, column.unwrap_or(0));
    if line != row + 1 {
        place += &format!(", line {line}");
    }
    if let Some(column) = column {
        place += &format!(", column {}", column + 1);
    }
    place
}

/// Which room a sheet of good rows does not have.
fn no_room(text: &[u8]) -> String {
    let count = rows::count(text);
    if count > MOST_ITEMS {
        return format!("{count} rows, and a list has at most 2,048 items");
    }
    reasons::KEYS_OF_A_SHEET.to_string()
}
