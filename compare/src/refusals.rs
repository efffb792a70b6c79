//! What document 01 refuses, and what is built of document 02, and in which order, read as plainly as can be. The original refuses none of this.

use crate::{
    boundaries::{bare, paper, Boundary, EXCLUSIVE_END},
    items::{has_end, has_start, keys, same, six, Words},
    positions,
};

pub const MOST_ITEMS: usize = 2_048;
pub const MOST_AMOUNT: i64 = 1_000_000_000_000;
pub const MOST_ASKED: usize = 1_000;
const MOST_POOL: usize = 65_536;
pub const MOST_KEY: u32 = 255;

#[derive(Clone, Copy, Debug, PartialEq)]
pub struct Refusal {
    pub number: u64,
    pub side: u64,
    pub index: u64,
}

pub type Checked<T> = Result<T, Refusal>;

impl Refusal {
    /// As our calls return it.
    pub fn returned(self) -> u64 {
        self.number + 256 * self.side + 65_536 * self.index
    }
}

pub fn refuse<T>(number: u64, side: u64, index: usize) -> Checked<T> {
    let index = index as u64;
    Err(Refusal {
        number,
        side,
        index,
    })
}

/// The pool's size, before all else.
pub fn pool(pool: &[u8]) -> Checked<()> {
    match pool.len() > MOST_POOL {
        true => refuse(1, 0, 0),
        false => Ok(()),
    }
}

/// Our interface has numbers for the five kinds, and no others.
pub fn kinds(kinds: &[u32]) -> Checked<()> {
    match kinds.iter().any(|kind| *kind > EXCLUSIVE_END) {
        true => refuse(1, 0, 0),
        false => Ok(()),
    }
}

/// An item on its own: the pool, then 1 and 2.
pub fn item(pool: &[u8], item: Words) -> Checked<()> {
    self::pool(pool)?;
    match fault(item, pool) {
        0 => Ok(()),
        number => refuse(number, 0, 0),
    }
}

/// Two boundaries in a pool: the pool, the kinds, then the words of a key that an unbounded one does not have, then 2.
pub fn set(pool: &[u8], words: Words) -> Checked<()> {
    self::pool(pool)?;
    kinds(&words[..2])?;
    if words != bare(words) {
        return refuse(1, 0, 0);
    }
    let start_out = key_out(pool, words[2], words[3]);
    let end_out = key_out(pool, words[4], words[5]);
    match start_out || end_out {
        true => refuse(2, 0, 0),
        false => Ok(()),
    }
}

/// Two items of the algebra: the pool, then 1, 2 and 3 of ours and those of theirs.
pub fn pair(pool: &[u8], ours: Words, theirs: Words) -> Checked<()> {
    self::pool(pool)?;
    upright(ours, pool, 0, 0)?;
    upright(theirs, pool, 1, 0)?;
    Ok(())
}

/// Two lists for the algebra: the pool, ours entirely, theirs entirely.
pub fn lists(pool: &[u8], ours: &[u32], theirs: &[u32]) -> Checked<()> {
    list(pool, ours, 0)?;
    list(pool, theirs, 1)
}

/// A list for the algebra: the pool, the shape, each item's 1, 2 and 3, and then 4.
pub fn list(pool: &[u8], words: &[u32], side: u64) -> Checked<()> {
    self::pool(pool)?;
    shape(words, side)?;
    let mut ranges = vec![];
    for (index, item) in words.chunks(6).filter_map(six).enumerate() {
        ranges.push(upright(item, pool, side, index)?);
    }
    for index in 1..ranges.len() {
        if paper::order(ranges[index - 1][1], ranges[index][0]).is_ge() {
            return refuse(4, side, index);
        }
    }
    Ok(())
}

/// A list for insertion, the first so many items of a buffer, and the new item: the pool, the count, each item's 1, 2 and 3, then 4; then 1,
/// 2 and 3 of the new item.
pub fn insertion(pool: &[u8], words: &[u32], count: usize, item: Words) -> Checked<()> {
    self::pool(pool)?;
    if count > words.len() / 6 || count > MOST_ITEMS {
        return refuse(1, 0, 0);
    }
    let mut list = vec![];
    for (index, old) in words.chunks(6).take(count).filter_map(six).enumerate() {
        list.push((old, upright(old, pool, 0, index)?));
    }
    for (index, later) in list.iter().enumerate() {
        if list[..index].iter().any(|old| clash(old, later, pool)) {
            return refuse(4, 0, index);
        }
    }
    upright(item, pool, 1, 0)?;
    Ok(())
}

/// Whether an item may not stand after an earlier one: it sorts below it, or both are plain and it does not start above the earlier one's end,
/// or the two are equal.
fn clash(
    (old, old_range): &(Words, [Boundary; 2]),
    (new, new_range): &(Words, [Boundary; 2]),
    pool: &[u8],
) -> bool {
    let below = paper::compare_items(*new_range, *old_range).is_lt();
    let plain = old[1] == 0 && new[1] == 0;
    let above = paper::order(new_range[0], old_range[1]).is_gt();
    below || (plain && !above) || same(*old, *new, pool)
}

/// A list to be written as a sheet, whose items need be neither upright nor in order: the pool, the shape, then 1, 2 and 5 of each (02 §1).
pub fn plain_items(pool: &[u8], words: &[u32]) -> Checked<()> {
    self::pool(pool)?;
    shape(words, 0)?;
    for (index, item) in words.chunks(6).filter_map(six).enumerate() {
        let number = match fault(item, pool) {
            0 if item[1] != 0 => 5,
            number => number,
        };
        if number != 0 {
            return refuse(number, 0, index);
        }
    }
    Ok(())
}

/// Two lists for collecting, which need be neither upright nor in order: the pool, ours entirely, theirs entirely (02 §6).
pub fn named_lists(pool: &[u8], ours: &[u32], theirs: &[u32]) -> Checked<()> {
    self::pool(pool)?;
    named(pool, ours, 0)?;
    named(pool, theirs, 1)
}

/// A list whose keys are read: the shape, then each item's 1 and 2.
fn named(pool: &[u8], words: &[u32], side: u64) -> Checked<()> {
    shape(words, side)?;
    for (index, item) in words.chunks(6).filter_map(six).enumerate() {
        match fault(item, pool) {
            0 => {}
            number => return refuse(number, side, index),
        }
    }
    Ok(())
}

/// A rate card: the pool, the list's shape, 1 for amounts that are not as many as the items, the rest of the list's own, and then 14 for the
/// first amount that is out of range (02 §8.9, §8.10).
pub fn card(pool: &[u8], words: &[u32], amounts: &[i64]) -> Checked<()> {
    self::pool(pool)?;
    shape(words, 0)?;
    if words.len() / 6 != amounts.len() {
        return refuse(1, 0, 0);
    }
    list(pool, words, 0)?;
    let in_range = |amount: &i64| -MOST_AMOUNT <= *amount && *amount <= MOST_AMOUNT;
    match amounts.iter().position(|amount| !in_range(amount)) {
        Some(index) => refuse(14, 0, index),
        None => Ok(()),
    }
}

/// The keys of an invoice, in the card's pool: 1 for an odd number of words, 15 for too many, then 2 for the first that is too long or past
/// the pool.
pub fn asked(pool: &[u8], keys: &[u32]) -> Checked<()> {
    if keys.len() % 2 == 1 {
        return refuse(1, 1, 0);
    }
    if keys.len() / 2 > MOST_ASKED {
        return refuse(15, 1, 0);
    }
    for (index, key) in keys.chunks(2).enumerate() {
        if key_out(pool, key[0], key[1]) {
            return refuse(2, 1, index);
        }
    }
    Ok(())
}

/// The items of a position query: the pool, the shape, then 1, 2, 5 and 7 of each.
pub fn position_items(pool: &[u8], words: &[u32]) -> Checked<()> {
    self::pool(pool)?;
    shape(words, 0)?;
    for (index, item) in words.chunks(6).filter_map(six).enumerate() {
        let no_position = |key: &[u8]| key.len() != 8;
        let (a, b) = keys(item, pool);
        let number = match fault(item, pool) {
            0 if item[1] != 0 => 5,
            0 if has_start(item[0]) && no_position(a) => 7,
            0 if has_end(item[0]) && no_position(b) => 7,
            number => number,
        };
        if number != 0 {
            return refuse(number, 0, index);
        }
    }
    Ok(())
}

/// Intervals: 1 for an odd number of words, then 9 for the first pair that does not start below its end and above the end before it.
pub fn intervals(words: &[u64]) -> Checked<()> {
    if words.len() % 2 != 0 {
        return refuse(1, 0, 0);
    }
    for (index, pair) in words.chunks(2).enumerate() {
        let apart = index == 0 || words[2 * index - 1] < pair[0];
        if !apart || pair[0] >= pair[1] {
            return refuse(9, 0, index);
        }
    }
    Ok(())
}

/// A stored list of so many pairs: 1 for more than its words have, 9 as for intervals, and then 9 for another total than that of its rows.
pub fn stored(words: &[u64], pairs: usize, total: u64) -> Checked<()> {
    if pairs > words.len() / 2 {
        return refuse(1, 0, 0);
    }
    let list = &words[..2 * pairs];
    intervals(list)?;
    match positions::paper::len(list) == total {
        true => Ok(()),
        false => refuse(9, 0, pairs),
    }
}

/// Proved positions beside intervals: 8 for the first that is not above the one before it.
pub fn proved(intervals: &[u64], proved: &[u64]) -> Checked<()> {
    self::intervals(intervals)?;
    match (1..proved.len()).find(|at| proved[*at] <= proved[at - 1]) {
        Some(index) => refuse(8, 1, index),
        None => Ok(()),
    }
}

/// Spans beside intervals: 8 for the first that starts above its end or below the end before it.
pub fn spans(intervals: &[u64], spans: &[[u64; 2]]) -> Checked<()> {
    self::intervals(intervals)?;
    for (index, [start, end]) in spans.iter().enumerate() {
        let crosses = index > 0 && *start < spans[index - 1][1];
        if crosses || start > end {
            return refuse(8, 1, index);
        }
    }
    Ok(())
}

/// The windows of a plan that is checked: 1 for an odd number of words (02 §9.9).
pub fn windows(words: &[u64]) -> Checked<()> {
    match words.len() % 2 {
        0 => Ok(()),
        _ => refuse(1, 1, 0),
    }
}

/// The most rows of a window: 16 for none (02 §9.9).
pub fn most(rows: u64) -> Checked<()> {
    match rows {
        0 => refuse(16, 0, 0),
        _ => Ok(()),
    }
}

/// The range of an item that has neither 1 nor 2 nor 3.
fn upright(item: Words, pool: &[u8], side: u64, index: usize) -> Checked<[Boundary<'_>; 2]> {
    let number = fault(item, pool);
    if number != 0 {
        return refuse(number, side, index);
    }
    let range = paper::range(item, pool);
    match paper::order(range[0], range[1]).is_gt() {
        true => refuse(3, side, index),
        false => Ok(range),
    }
}

/// Whole items, and no more than a list may have.
fn shape(words: &[u32], side: u64) -> Checked<()> {
    match words.len() % 6 != 0 || words.len() / 6 > MOST_ITEMS {
        true => refuse(1, side, 0),
        false => Ok(()),
    }
}

/// What is wrong with an item, 1 before 2, and 0 where nothing is.
fn fault(words: Words, pool: &[u8]) -> u64 {
    let [code, wrapper, start, start_length, end, end_length] = words;
    if code > 9 || wrapper > 3 {
        return 1;
    }
    if !has_start(code) && (start, start_length) != (0, 0) {
        return 1;
    }
    if !has_end(code) && (end, end_length) != (0, 0) {
        return 1;
    }
    if has_start(code) && key_out(pool, start, start_length) {
        return 2;
    }
    if has_end(code) && key_out(pool, end, end_length) {
        return 2;
    }
    0
}

/// Too long, or past the pool, also where its length is 0.
fn key_out(pool: &[u8], offset: u32, length: u32) -> bool {
    length > MOST_KEY || u64::from(offset) + u64::from(length) > pool.len() as u64
}
