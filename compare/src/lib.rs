//! Calls our functions and the original's that they rebuild, in one process, and counts where they agree. main.rs is the program, and
//! ../bench/ times the two sides.

// position_intervals.rs finds QueryItem in a crate of this name
extern crate self as grovedb_merk;

pub mod algebra;
mod boundaries;
mod calls;
mod card_calls;
pub mod cards;
mod collect_calls;
mod collecting;
mod departures;
pub mod earlier;
mod either_calls;
pub mod inputs;
mod insert_calls;
mod insert_differences;
mod insertion;
mod interval_calls;
pub mod invoices;
mod item_calls;
pub mod items;
mod key_order;
mod laws;
mod list_calls;
mod list_differences;
mod many;
mod many_calls;
mod many_refused;
pub mod multiranges;
mod pair_calls;
mod plan_calls;
pub mod plans;
mod position_calls;
mod position_differences;
mod positions;
pub mod random;
pub mod record;
mod refusals;
mod sheet_calls;
mod sheet_inputs;
pub mod sheet_lines;
pub mod sheets;
mod stand_ins;
pub mod stored;
mod stored_calls;
pub mod table;
pub mod timed;

// our calls, as words
pub use ::fernsponge::words as fernsponge;

// the names under which the original's files look for these
pub use stand_ins::Query;
use stand_ins::{error, error::Error, hex_to_ascii, proofs};

// the original's own files, as build.rs brings them in
include!(concat!(env!("OUT_DIR"), "/grovedb.rs"));
pub use query_item::QueryItem;

use collect_calls::{ShortLists, ALL_CODES, EACH_SHAPE};
use random::Random;
use sheet_inputs::{ShortTexts, MARKS, PIECES, ROWS};
use std::cmp::Ordering;

pub const SEED: u64 = 0x46_45_52_4E;

/// The bytes of short keys: the two ends, the neighbour of one, and the last before the sign bit.
const BYTES: [u8; 4] = [0x00, 0x01, 0x7F, 0xFF];

/// How much a run calls.
pub struct Size {
    /// the random inputs of each function
    random: u64,
    /// the most bytes of the keys that every item is asked for
    asked: usize,
    /// whether all pairs of items over keys of two bytes are tried, and not of one alone
    more_pairs: bool,
    /// the keys over which all lists of three items are tried
    listed: usize,
    /// the keys over which all pairs of accepted lists of three items are tried
    crossed: usize,
    /// the random pairs of accepted lists, and triples; how many of the pairs are long, and how long
    lists: u64,
    long_lists: u64,
    longest: usize,
    /// the keys over which every item is inserted into all lists of three items
    inserted: usize,
    /// of `few_keys`, those over which every two plain items are inserted into all lists of three items, in either order; and how many wrappers
    /// the lists' items have, plain among them
    either: &'static [(&'static [usize], u32)],
    /// the most items of all the lists over keys of two bytes that are tried as rate cards
    carded: usize,
    /// the positions over which all queries of two items are tried
    positions: usize,
    /// the rows over which plans are made of all covered and all proved ones
    logged: usize,
    /// the rows of which all missing ones are tried, with all plans that are accepted for them
    missing: usize,
    /// the rows over which all plans of three windows are tried
    windowed: usize,
    /// the rows of which all lists are covered and uncovered by all ranges, and by all two of them where there are four rows fewer
    stored: usize,
    /// the short lists that are collected, every two of them
    collected: &'static [ShortLists],
    /// the texts of few pieces that are read as sheets
    texts: &'static [ShortTexts],
    /// of rows in every form, one in so many is read
    formed: usize,
    /// whether rows are changed to every byte, and not to some alone
    more_changes: bool,
    /// the counts of items at and near the limit that lists are tried with, beside none and one
    counts: &'static [usize],
}

pub const SHORT: Size = Size {
    random: 50_000,
    asked: 2,
    more_pairs: false,
    listed: 3,
    crossed: 3,
    lists: 500,
    long_lists: 2,
    longest: 512,
    inserted: 2,
    either: &[(&[0, 1], 2), (&[0, 2], 2), (&[0, 3], 2)],
    carded: 2,
    positions: 6,
    logged: 6,
    missing: 10,
    windowed: 3,
    stored: 8,
    collected: &[
        ShortLists::of(&[0, 2, 3, 9], &ALL_CODES, 1, 2),
        ShortLists::of(&[2], &ALL_CODES, 2, 1),
        ShortLists::of(&[3, 4], &EACH_SHAPE, 2, 1),
    ],
    texts: &[
        ShortTexts::of("", &ROWS, 6, ""),
        ShortTexts::of("", &PIECES, 4, ""),
        ShortTexts::of("RangeFull,,\r\n", &MARKS, 4, ""),
        ShortTexts::of("Range,", &MARKS, 4, ",05\r\n"),
        ShortTexts::of("Range,05,", &MARKS, 4, "\r\nKey,05,"),
    ],
    formed: 51,
    more_changes: false,
    counts: &[2_049],
};

pub const LONG: Size = Size {
    random: 1_000_000,
    asked: 3,
    more_pairs: true,
    listed: 4,
    crossed: 4,
    lists: 10_000,
    long_lists: 6,
    longest: 2_048,
    inserted: 4,
    either: &[(&[0, 1, 3], 2), (&[0, 2, 3], 2), (&[0, 2], 3)],
    carded: 3,
    positions: 10,
    logged: 8,
    missing: 12,
    windowed: 5,
    stored: 12,
    collected: &[
        ShortLists::of(&[0, 1, 2, 3, 4, 5, 6, 7, 8, 9], &ALL_CODES, 1, 1),
        ShortLists::of(&[0, 2, 3, 9], &ALL_CODES, 1, 2),
        ShortLists::of(&[2, 3], &ALL_CODES, 2, 1),
        ShortLists::of(&[0, 2, 4, 8], &EACH_SHAPE, 2, 1),
    ],
    texts: &[
        ShortTexts::of("", &ROWS, 9, ""),
        ShortTexts::of("", &PIECES, 7, ""),
        ShortTexts::of("RangeFull,,\r\n", &PIECES, 6, ""),
        ShortTexts::of("", &MARKS, 6, ""),
        ShortTexts::of("Range,", &MARKS, 6, ",05\r\n"),
        ShortTexts::of("Range,05,", &MARKS, 6, ""),
        ShortTexts::of("Range,05,", &MARKS, 6, "\r\nKey,05,"),
        ShortTexts::of("", &MARKS, 6, "Key,05,\r\n"),
    ],
    formed: 1,
    more_changes: true,
    counts: &[2_047, 2_048, 2_049],
};

/// A part of a run: rows of the table.
type Part = fn(&mut Random, &Size) -> Vec<table::Row>;

const PARTS: [(&str, Part); 20] = [
    ("tables of items", |_, _| items::run()),
    ("key order", |random, size| {
        key_order::run(random, size.random)
    }),
    ("items", item_calls::run),
    ("checks of lists", list_calls::run),
    ("pairs", pair_calls::run),
    ("the three lists", many_calls::run),
    ("the three lists, refused", many_refused::run),
    ("laws of lists", laws::run),
    ("differences of lists", |_, _| list_differences::run()),
    ("insertion", insert_calls::run),
    ("insertion in either order", |_, size| {
        either_calls::run(size)
    }),
    ("differences of insertion", |_, _| insert_differences::run()),
    ("positions", position_calls::run),
    ("intervals", interval_calls::run),
    ("plans", plan_calls::run),
    ("differences of positions", |_, _| {
        position_differences::run()
    }),
    ("rate cards", card_calls::run),
    ("stored lists", stored_calls::run),
    ("collected pools", collect_calls::run),
    ("sheets", sheet_calls::run),
];

/// All parts, one after the other. How far it is, is said on standard error.
pub fn run(size: &Size) -> Vec<table::Row> {
    let random = &mut Random::new(SEED);
    let mut rows = vec![];
    for (at, (name, part)) in PARTS.iter().enumerate() {
        rows.extend(part(random, size));
        let (done, all, calls) = (at + 1, PARTS.len(), table::calls(&rows));
        eprintln!("compare: {done} of {all} parts, {name}; {calls} calls so far");
    }
    rows
}

/// Every key of at most so many of the bytes, the empty one first.
fn keys_of(bytes: &[u8], length: usize) -> Vec<Vec<u8>> {
    let mut keys = vec![vec![]];
    let mut from = 0;
    for _ in 0..length {
        let to = keys.len();
        for at in from..to {
            for byte in bytes {
                let longer = [&keys[at][..], &[*byte]].concat();
                keys.push(longer);
            }
        }
        from = to;
    }
    keys
}

/// 0 less, 1 equal, 2 greater.
fn order_number(order: Ordering) -> u64 {
    match order {
        Ordering::Less => 0,
        Ordering::Equal => 1,
        Ordering::Greater => 2,
    }
}

/// As document 01's listing has keys: upper-case hexadecimal, an empty one as `-`.
fn hexadecimal(key: &[u8]) -> String {
    match key {
        [] => "-".to_string(),
        _ => key.iter().map(|byte| format!("{byte:02X}")).collect(),
    }
}
