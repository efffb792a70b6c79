//! The command `fernsponge`: lists of lanes compared, packed and priced, refusals explained, and refetches planned.
//!
//! Each command has a module of its own, which takes the command line apart and answers the bytes for standard output, or a failure. What the
//! answers say comes from the crate `fernsponge`, whose calls are proved; here files are read, and messages written for people.

#![forbid(unsafe_code)]

mod args;
mod compare;
mod explain;
mod help;
mod input;
mod krl;
mod lines;
mod lists;
mod log;
mod message;
mod output;
mod pack;
mod picture;
mod rates;
mod reasons;
mod refetch;
mod rows;
mod unpack;

use args::{Command, Given};
use message::Failure;
use std::{env, ffi::OsString, process::ExitCode};

/// The commands, in the order in which the help lists them.
const COMMANDS: [&Command; 6] = [
    &compare::COMMAND,
    &pack::COMMAND,
    &unpack::COMMAND,
    &explain::COMMAND,
    &rates::COMMAND,
    &refetch::COMMAND,
];

fn main() -> ExitCode {
    let args: Vec<OsString> = env::args_os().skip(1).collect();
    match answer(&args).and_then(|bytes| output::print(&bytes)) {
        Ok(()) => ExitCode::SUCCESS,
        Err(failure) => failure.tell(),
    }
}

/// What goes to standard output.
fn answer(args: &[OsString]) -> Result<Vec<u8>, Failure> {
    let Some((first, rest)) = args.split_first() else {
        return Err(Failure::usage("", "a command is missing"));
    };
    match first.to_str().unwrap_or_default() {
        "-h" | "--help" | "help" => help::of(&COMMANDS, rest),
        "-V" | "--version" => Ok(help::version()),
        name => run(command(name, first)?, rest),
    }
}

/// The command of a name.
fn command(name: &str, told: &OsString) -> Result<&'static Command, Failure> {
    let found = COMMANDS.into_iter().find(|command| command.name == name);
    found.ok_or_else(|| {
        let text = format!("there is no command {}", told.to_string_lossy());
        Failure::usage("", &text)
    })
}

/// A command's help, or what it answers.
fn run(command: &Command, args: &[OsString]) -> Result<Vec<u8>, Failure> {
    match Given::parse(command, args)? {
        Some(given) => (command.run)(&given),
        None => Ok(help::of_command(command)),
    }
}
