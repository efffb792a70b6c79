//! `bench` times our calls and the original's in one run, on the same inputs and by the same driver, and a hand-written reference besides; answers
//! are held against one another before they are timed. With a FOLDER it writes BENCHMARKS.md and benchmarks.svg there. `bench quick`
//! takes seconds: lists of 128 items at most.

mod asked;
mod card;
mod chart;
mod collected;
mod hashed;
mod lists;
mod others;
mod pairs;
mod rates;
mod report;
mod sheets;
mod split;
mod stored;
mod sweep;
mod timing;

use report::Measured;
use std::{env, fs, hint::black_box, path::Path, process::ExitCode};

/// Each pass goes over the whole, so that a while in which the machine is busy meets one of them at most.
const PASSES: u32 = 3;

fn main() -> ExitCode {
    let arguments: Vec<String> = env::args().skip(1).collect();
    let arguments: Vec<&str> = arguments.iter().map(String::as_str).collect();
    let (sizes, passes, folder) = match arguments[..] {
        [] => (&lists::SIZES[..], PASSES, None),
        ["quick"] => (&lists::SIZES[..4], 1, None),
        [folder] => (&lists::SIZES[..], PASSES, Some(Path::new(folder))),
        _ => {
            eprintln!("usage: bench [quick|FOLDER]");
            return ExitCode::from(2);
        }
    };
    let mut measured = measure(sizes);
    for pass in 1..passes {
        eprintln!("bench: {pass} of {passes} passes done");
        measured = measured.least(lower(pass, &|| measure(sizes)));
    }
    let text = report::text(&measured);
    print!("{text}");
    let Some(folder) = folder else {
        return ExitCode::SUCCESS;
    };
    let written = fs::write(folder.join("BENCHMARKS.md"), text)
        .and_then(|()| fs::write(folder.join("benchmarks.svg"), chart::svg(&measured.lists)));
    match written {
        Ok(()) => ExitCode::SUCCESS,
        Err(error) => {
            eprintln!("bench: {}: {error}", folder.display());
            ExitCode::FAILURE
        }
    }
}

/// The same from so many kilobytes lower in the stack: a call can be slow where something that it keeps there lies across two pages, and the
/// places differ from one pass to the next.
fn lower(kilobytes: u32, measure: &dyn Fn() -> Measured) -> Measured {
    if kilobytes == 0 {
        return measure();
    }
    let room = black_box([0u8; 1_040]);
    let measured = lower(kilobytes - 1, measure);
    black_box(&room);
    measured
}

fn measure(sizes: &[usize]) -> Measured {
    Measured {
        lists: lists::run(sizes),
        earlier: sizes
            .iter()
            .max()
            .map_or(vec![], |items| lists::beside_earlier(*items)),
        key_comparison: others::key_comparison(),
        keys_earlier: others::keys_beside_earlier(),
        insertion: others::insertion(),
        building: others::building(),
        mismatches: others::mismatches(),
        planning: others::planning(),
        stored: stored::run(),
        asked: asked::run(),
        collected: collected::run(),
        sheets: sheets::run(),
        rates: sizes
            .iter()
            .max()
            .map_or(vec![], |items| rates::run(*items)),
    }
}
