//! `compare short` takes seconds, `compare long` is the whole; with a FILE besides, the table is written there too. Exit status 1 where
//! anything disagrees. `compare record FOLDER` writes a sample of the original's answers, for programs of ours to replay. `compare cents COUNT`
//! writes so many invoices with our totals, one a line, for tools/decimal_cents to hold; `compare multiranges COUNT` so many changes of stored
//! lists with what our calls leave, for tools/multiranges; `compare sheets COUNT` so many sheets with what our call reads, for tools/csv_sheets,
//! and `compare sheets-read` puts that behind the sheets that it is given.

use compare::{invoices, multiranges, record, run, sheet_lines, table, Size, LONG, SEED, SHORT};
use std::{env, io, path::Path, process::ExitCode};

fn main() -> ExitCode {
    let arguments: Vec<String> = env::args().skip(1).collect();
    let arguments: Vec<&str> = arguments.iter().map(String::as_str).collect();
    let done = match arguments[..] {
        ["short"] => compared(&SHORT, "short", None),
        ["long"] => compared(&LONG, "long", None),
        ["long", file] => compared(&LONG, "long", Some(file)),
        ["record", folder] => record::run(Path::new(folder)).map(|()| 0),
        ["cents", count] => match count.parse() {
            Ok(count) => invoices::write(count, &mut io::stdout().lock()).map(|()| 0),
            Err(_) => return usage(),
        },
        ["multiranges", count] => match count.parse() {
            Ok(count) => multiranges::write(count, &mut io::stdout().lock()).map(|()| 0),
            Err(_) => return usage(),
        },
        ["sheets", count] => match count.parse() {
            Ok(count) => sheet_lines::write(count, &mut io::stdout().lock()).map(|()| 0),
            Err(_) => return usage(),
        },
        ["sheets-read"] => {
            sheet_lines::read(&mut io::stdin().lock(), &mut io::stdout().lock()).map(|()| 0)
        }
        _ => return usage(),
    };
    match done {
        Ok(0) => ExitCode::SUCCESS,
        Ok(failures) => {
            println!("compare: {failures} calls fail");
            ExitCode::FAILURE
        }
        Err(error) => {
            eprintln!("compare: {}: {error}", arguments[arguments.len() - 1]);
            ExitCode::FAILURE
        }
    }
}

fn usage() -> ExitCode {
    eprintln!("usage: compare short|long [FILE]|record FOLDER|cents COUNT|multiranges COUNT|sheets COUNT|sheets-read");
    ExitCode::from(2)
}

/// A run, and how many of its calls fail.
fn compared(size: &Size, name: &str, file: Option<&str>) -> io::Result<u64> {
    println!("compare {name}, seed {SEED:#X}");
    let rows = run(size);
    table::print(&rows);
    if let Some(file) = file {
        table::write(&rows, Path::new(file))?;
    }
    Ok(rows.iter().map(table::Row::failures).sum())
}
