//! The texts of `--help` and `--version`.

use crate::{args::Command, message::Failure};
use std::ffi::OsString;

/// What all commands have in common.
const COMMON: &str = "\
A lane sheet is comma-separated text without a header, a row for each item: its name, its start key and its end key,
as Range,01,05 and Key,03, are. Keys are hexadecimal, and the empty key is -; CR LF ends a row. A KRL file has two
lists of items in binary, and begins with the mark KRL.

The file name - is standard input, which can be named once. Messages count rows, columns, lines and items from 1; the
index of a refusal, as the library returns it and explain takes it, counts from 0.

The exit status is 0; or 1 where what the files say is refused; or 2 where the command is called wrongly, a file cannot be
read or written or has more than 256 MiB, or the system has no memory.
";

/// The help of all, or of the command that is named.
pub fn of(commands: &[&Command], args: &[OsString]) -> Result<Vec<u8>, Failure> {
    let Some(name) = args.first() else {
        return Ok(of_all(commands));
    };
    let found = commands
        .iter()
        .find(|command| command.name == name.as_os_str());
    match found {
        Some(command) => Ok(of_command(command)),
        None => Err(Failure::usage(
            "",
            &format!("there is no command {}", name.to_string_lossy()),
        )),
    }
}

/// The help that lists the commands.
fn of_all(commands: &[&Command]) -> Vec<u8> {
    let mut text = "\
fernsponge compares lists of lanes, packs and prices them, and plans which rows of a log to fetch again.

usage: fernsponge COMMAND [OPTION].. [OPERAND]..

"
    .to_string();
    for Command { name, about, .. } in commands {
        text += &format!("  {name:<9} {about}\n");
    }
    text += "\nfernsponge COMMAND --help tells more of a command, and fernsponge --version the version.\n\n";
    text += COMMON;
    text.into_bytes()
}

/// The help of a command.
pub fn of_command(command: &Command) -> Vec<u8> {
    let Command {
        name,
        about,
        forms,
        help,
        ..
    } = command;
    let mut text = format!("fernsponge {name}: {about}\n\n");
    for (at, form) in forms.iter().enumerate() {
        let lead = if at == 0 { "usage:" } else { "      " };
        text += &format!("{lead} fernsponge {name} {form}\n");
    }
    text += &format!("\n{help}");
    text.into_bytes()
}

/// The version.
pub fn version() -> Vec<u8> {
    format!("fernsponge {}\n", env!("CARGO_PKG_VERSION")).into_bytes()
}
