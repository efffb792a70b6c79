//! `unpack`: the lists of a KRL file as lane sheets.

use crate::{
    args::{Command, Given, Opt},
    input,
    lists::{self, List},
    message::Failure,
    output::Targets,
};

pub const COMMAND: Command = Command {
    name: "unpack",
    about: "the lists of a KRL file as lane sheets",
    forms: &["[OPTION].. FILE.krl"],
    help: "\
The two lists are written as sheets: to standard output one after another, each behind a line with its name and the number
of its rows, as in

  ours 1
  Range,01,05
  theirs 1
  Key,03,

Every line of that ends in CR LF, and only rows have commas. Where an option names a file, nothing of this is printed, and a
list that no option names is not written:

  --ours FILE     the first list goes to this file, as a sheet
  --theirs FILE   the second one

FILE may be - for one of them: standard output then has that sheet alone. A wrapped item has no row in a sheet, and is
refused with 5.
",
    operands: (1, 1),
    options: &[
        Opt { name: "--ours", value: Some("a file") },
        Opt { name: "--theirs", value: Some("a file") },
    ],
    run,
};

fn run(given: &Given) -> Result<Vec<u8>, Failure> {
    let targets = Targets::of(given, &["ours", "theirs"])?;
    let inputs = input::read(given)?;
    let [file] = &inputs[..] else {
        return Err(given.usage("one KRL file is unpacked"));
    };
    let (pool, ours, theirs) = List::of_krl(file)?;
    let sheet = |list: &List| lists::sheet(&pool, &list.items, |refusal| list.refused(refusal));
    targets.write_sheets(vec![sheet(&ours)?, sheet(&theirs)?])
}
