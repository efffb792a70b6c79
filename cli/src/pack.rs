//! `pack`: lane sheets into one KRL file.

use crate::{
    args::{Command, Given, Opt},
    input::{self, Input},
    krl::{is_krl, Krl},
    lists::List,
    message::Failure,
    output::Targets,
};
use fernsponge::{Item, Pool};
use std::io::{self, IsTerminal};

pub const COMMAND: Command = Command {
    name: "pack",
    about: "lane sheets into one KRL file",
    forms: &["[--output FILE] OURS [THEIRS]"],
    help: "\
OURS and THEIRS are lane sheets, the two lists of the file; without THEIRS its second list is empty. The file goes to
standard output, unless that is a terminal:

  --output FILE   it goes to this file

Equal keys stand in the file once. Neither the order of the items nor that a start is below its end is asked for:
fernsponge unpack gives back the same lists. A KRL file has at most 65,536 bytes: 11, eight for each item, and the keys.
The keys of a sheet have at most 65,536 bytes while it is read by itself, equal keys counted each time.
",
    operands: (1, 2),
    options: &[Opt { name: "--output", value: Some("a file") }],
    run,
};

fn run(given: &Given) -> Result<Vec<u8>, Failure> {
    let targets = Targets::of(given, &["output"])?;
    if targets.is_empty() && io::stdout().is_terminal() {
        return Err(given.usage(
            "a KRL file is binary: name a file by --output, or send standard output to one",
        ));
    }
    let inputs = input::read(given)?;
    if let Some(input) = inputs.iter().find(|input| is_krl(&input.bytes)) {
        return Err(given.usage(&format!("{} is a KRL file already", input.name)));
    }
    let refused = |why| Failure::refused(format!("{}: {why}", input::names(&inputs)));
    let bytes = packed(&inputs)?.write().map_err(refused)?;
    match targets.is_empty() {
        true => Ok(bytes),
        false => targets.write(&[bytes]),
    }
}

/// What a KRL file of these sheets says. Equal keys stand in its pool once, in order of first use, as the pool finds those that it has.
fn packed(sheets: &[Input]) -> Result<Krl, Failure> {
    let mut pool = Pool::new();
    let mut lists: [Vec<Item>; 2] = Default::default();
    for (list, sheet) in lists.iter_mut().zip(sheets) {
        *list = List::of_sheet(sheet, &mut pool)?.items;
    }
    let [ours, theirs] = lists;
    Ok(Krl {
        pool: pool.bytes().to_vec(),
        ours,
        theirs,
    })
}
