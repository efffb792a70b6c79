//! Compares two lane sheets, files of comma-separated text: what both have, what only ours has, what only theirs has.
//!
//!     cargo run --example lanes -- OURS THEIRS
//!     cargo run --example lanes -- OURS THEIRS SHARED ONLY_OURS ONLY_THEIRS
//!
//! The first prints the three lists; the second writes each of them as a sheet into a file of its own. A row of a sheet is an item: its name, its
//! start key and its end key in hexadecimal, as `Range,01,05`, `Key,03,`, `RangeFull,,`; the empty key is `-`, and CR LF ends a row.

use fernsponge::{intersect_many_ordered, Item, Lists, Pool, Sheet, Shown, Side};
use std::{env, fs, process::ExitCode};

fn main() -> ExitCode {
    let names: Vec<String> = env::args().skip(1).collect();
    let done = match &names[..] {
        [ours, theirs] => compared(ours, theirs).map(|(pool, lists)| print(&pool, &lists)),
        [ours, theirs, written @ ..] if written.len() == 3 => {
            compared(ours, theirs).and_then(|(pool, lists)| write(&pool, &lists, written))
        }
        _ => {
            eprintln!("usage: lanes OURS THEIRS [SHARED ONLY_OURS ONLY_THEIRS]");
            return ExitCode::from(2);
        }
    };
    match done {
        Ok(()) => ExitCode::SUCCESS,
        Err(why) => {
            eprintln!("lanes: {why}");
            ExitCode::FAILURE
        }
    }
}

/// The three lists of two files, and the pool that has the keys of all of them.
fn compared(ours: &str, theirs: &str) -> Result<(Pool, Lists), String> {
    let mut pool = Pool::new();
    let our_items = read(ours, &mut pool)?;
    let their_items = read(theirs, &mut pool)?;
    let lists = intersect_many_ordered(pool.bytes(), &our_items, &their_items).map_err(|why| {
        let name = match why.side {
            Side::Ours => ours,
            Side::Theirs => theirs,
        };
        format!("{name}: row {}, counted from 0: {why}", why.index)
    })?;
    Ok((pool, lists))
}

/// The items of a file, their keys behind those that the pool has.
fn read(name: &str, pool: &mut Pool) -> Result<Vec<Item>, String> {
    let text = fs::read(name).map_err(|why| format!("cannot read {name}: {why}"))?;
    Sheet::read_into(&text, pool).map_err(|why| format!("{name}: {why}"))
}

fn print(pool: &Pool, lists: &Lists) {
    for (title, items) in [
        ("shared", &lists.shared),
        ("ours", &lists.ours),
        ("theirs", &lists.theirs),
    ] {
        println!("{title} {}", items.len());
        for &item in items {
            let pool = pool.bytes();
            println!("{}", Shown { item, pool });
        }
    }
}

/// Nothing is written where a list makes no sheet, as it has more than 2,048 items.
fn write(pool: &Pool, lists: &Lists, names: &[String]) -> Result<(), String> {
    let mut texts = vec![];
    for (name, items) in names
        .iter()
        .zip([&lists.shared, &lists.ours, &lists.theirs])
    {
        let (count, text) = (items.len(), Sheet::write(pool.bytes(), items));
        texts.push(text.map_err(|why| format!("no sheet of {count} items for {name}: {why}"))?);
    }
    for (name, text) in names.iter().zip(texts) {
        fs::write(name, text).map_err(|why| format!("cannot write {name}: {why}"))?;
    }
    Ok(())
}
