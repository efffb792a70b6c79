//! `compare`: what two lists share, what only ours has, what only theirs has.

use crate::{
    args::{Command, Given, Opt},
    input::{self, Input},
    krl::is_krl,
    lists::{self, List},
    message::Failure,
    output::Targets,
    reasons,
};
use fernsponge::{intersect_many_ordered, Item, Pool, Refusal, Side, MOST_ITEMS};

pub const COMMAND: Command = Command {
    name: "compare",
    about: "what two lists of lanes share, what only ours has, what only theirs has",
    forms: &["[OPTION].. OURS THEIRS", "[OPTION].. FILE.krl"],
    help: "\
Each of OURS and THEIRS is a lane sheet, or a KRL file whose second list is empty. A KRL file that stands alone has both
lists. The three lists are written as sheets: to standard output one after another, each behind a line with its name and
the number of its rows, as in

  shared 1
  Key,03,
  ours 2
  Range,01,03
  RangeAfterTo,03,05
  theirs 0

Every line of that ends in CR LF, and only rows have commas. Where an option names a file, nothing of this is printed, and
lists that no option names are not written:

  --shared FILE   what both have goes to this file, as a sheet
  --ours FILE     what only ours has
  --theirs FILE   what only theirs has

FILE may be - for one of them: standard output then has that sheet alone. A file that is read is never written over. In
each list that is read, an item starts above the end of the one before it; wrappers in a KRL file are read through. A list
that is written has at most 2,048 items, too: a longer one is refused with 6, unless it is not asked for. The keys of a
sheet have at most 65,536 bytes while it is read by itself, equal keys counted each time, and those of both lists together
at most 65,536 bytes, equal keys counted once.
",
    operands: (1, 2),
    options: &[
        Opt { name: "--shared", value: Some("a file") },
        Opt { name: "--ours", value: Some("a file") },
        Opt { name: "--theirs", value: Some("a file") },
    ],
    run,
};

/// The number that refuses a result that has no room.
const NO_ROOM: u8 = 6;

fn run(given: &Given) -> Result<Vec<u8>, Failure> {
    let targets = Targets::of(given, &["shared", "ours", "theirs"])?;
    let inputs = input::read(given)?;
    let (pool, ours, theirs) = match &inputs[..] {
        [alone] if !is_krl(&alone.bytes) => {
            return Err(given.usage(&format!(
                "{} is no KRL file: a sheet is compared with a second one",
                alone.name
            )));
        }
        [alone] => List::of_krl(alone)?,
        [ours, theirs, ..] => two_lists(ours, theirs)?,
        [] => return Err(given.usage("the files to compare are missing")),
    };
    let lists =
        intersect_many_ordered(&pool, &ours.items, &theirs.items).map_err(
            |refusal| match refusal.side {
                Side::Ours => ours.refused(&refusal),
                Side::Theirs => theirs.refused(&refusal),
            },
        )?;
    let names = input::names(&inputs);
    let sheet = |(list, what, items): (&str, &str, &[Item])| match targets.wants(list) {
        true => lists::sheet(&pool, items, |refusal| {
            too_long(&names, what, items, refusal)
        }),
        false => Ok(Default::default()),
    };
    let sheets = [
        ("shared", "both have", &lists.shared[..]),
        ("ours", "only ours has", &lists.ours),
        ("theirs", "only theirs has", &lists.theirs),
    ];
    let sheets: Result<_, _> = sheets.into_iter().map(sheet).collect();
    targets.write_sheets(sheets?)
}

/// The lists of two files, over one pool.
fn two_lists<'a>(
    ours: &'a Input,
    theirs: &'a Input,
) -> Result<(Vec<u8>, List<'a>, List<'a>), Failure> {
    let mut pool = Pool::new();
    let ours = List::of_one(ours, &mut pool)?;
    let theirs = List::of_one(theirs, &mut pool)?;
    Ok((pool.bytes().to_vec(), ours, theirs))
}

/// The failure of a list that makes no sheet. The library counts a list of too many items as malformed; here it is a result without room, as the
/// program krl has it.
fn too_long(names: &str, what: &str, items: &[Item], refusal: &Refusal) -> Failure {
    if items.len() <= MOST_ITEMS {
        return Failure::of_call(names, reasons::why(refusal.number), refusal);
    }
    let why = format!(
        "what {what} makes {} items, and a list has at most 2,048",
        items.len()
    );
    Failure::numbered(names, why, NO_ROOM)
}
