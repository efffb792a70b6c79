//! Module 2: what the original answers of boundaries and items, and what document 01 says, both in plain numbers and bytes.

use crate::{
    items::{end_of, has_end, has_start, holds, start_of, Words},
    order_number,
    query_item::{
        intersect::{Direction, RangeSet, RangeSetItem},
        QueryItem,
    },
};
use std::cmp::Ordering;

/// A boundary: its kind, numbered as the original declares them, and its key. An unbounded one does without.
pub type Boundary<'a> = (u32, &'a [u8]);

pub const UNBOUNDED_START: u32 = 0;
pub const UNBOUNDED_END: u32 = 1;
pub const INCLUSIVE: u32 = 2;
pub const EXCLUSIVE_START: u32 = 3;
pub const EXCLUSIVE_END: u32 = 4;

/// Every boundary over the keys, unbounded ones beside a key among them.
pub fn all_boundaries(keys: &[Vec<u8>]) -> Vec<Boundary<'_>> {
    let of_kind = |kind| keys.iter().map(move |key| (kind, &key[..]));
    (UNBOUNDED_START..=EXCLUSIVE_END)
        .flat_map(of_kind)
        .collect()
}

/// The two boundaries that six words name in the pool: the kinds, then offset and length of each key.
pub fn boundaries_of(set: Words, pool: &[u8]) -> Option<[Boundary<'_>; 2]> {
    let at = |kind, key: Option<_>| match kind {
        UNBOUNDED_START | UNBOUNDED_END => Some((kind, &[][..])),
        _ => Some((kind, key?)),
    };
    Some([
        at(set[0], start_of(set, pool))?,
        at(set[1], end_of(set, pool))?,
    ])
}

/// The same six words, the key words of an unbounded boundary 0.
pub fn bare(set: Words) -> Words {
    let key = |kind: u32, key: [u32; 2]| match kind {
        UNBOUNDED_START | UNBOUNDED_END => [0, 0],
        _ => key,
    };
    let [start, end] = [key(set[0], [set[2], set[3]]), key(set[1], [set[4], set[5]])];
    [set[0], set[1], start[0], start[1], end[0], end[1]]
}

/// What the original answers.
pub mod rust {
    use super::*;

    pub fn compare_boundaries(x: Boundary, y: Boundary) -> u64 {
        order_number(range_set_item(x).cmp(&range_set_item(y)))
    }

    pub fn invert(kind: u32, is_start: bool) -> u32 {
        boundary_of(&range_set_item((kind, &[])).invert(is_start)).0
    }

    /// Its boundaries, handed to `of`.
    pub fn to_range_set<T>(item: &QueryItem, of: impl Fn([Boundary; 2]) -> T) -> T {
        let set = item.to_range_set();
        of([boundary_of(&set.start), boundary_of(&set.end)])
    }

    pub fn to_query_item([start, end]: [Boundary; 2]) -> Option<QueryItem> {
        let (start, end) = (range_set_item(start), range_set_item(end));
        RangeSet { start, end }.to_query_item()
    }

    /// Whether the key is held, whether it sits on an exclusive bound, and by `contains` again whether it is held.
    pub fn could_contain_key(item: &QueryItem, key: &[u8]) -> Option<[bool; 3]> {
        let answer = item.to_range_set_borrowed()?.could_contain_key(key);
        let on_bounds = answer.on_bounds_not_included;
        Some([answer.included, on_bounds, item.contains(key)])
    }

    pub fn could_have_items(item: &QueryItem, key: &[u8], left: bool) -> Option<bool> {
        let direction = match left {
            true => Direction::LeftOf,
            false => Direction::RightOf,
        };
        let range = item.to_range_set_borrowed()?;
        Some(range.could_have_items_in_direction(key, direction))
    }

    /// By start, then by end.
    pub fn compare_items(x: &QueryItem, y: &QueryItem) -> u64 {
        order_number(x.cmp(y))
    }

    pub fn collides(x: &QueryItem, y: &QueryItem) -> bool {
        x.collides_with(y)
    }

    fn boundary_of(item: &RangeSetItem) -> Boundary<'_> {
        match item {
            RangeSetItem::UnboundedStart => (UNBOUNDED_START, &[]),
            RangeSetItem::UnboundedEnd => (UNBOUNDED_END, &[]),
            RangeSetItem::Inclusive(key) => (INCLUSIVE, key),
            RangeSetItem::ExclusiveStart(key) => (EXCLUSIVE_START, key),
            RangeSetItem::ExclusiveEnd(key) => (EXCLUSIVE_END, key),
        }
    }

    fn range_set_item((kind, key): Boundary) -> RangeSetItem {
        match kind {
            UNBOUNDED_START => RangeSetItem::UnboundedStart,
            UNBOUNDED_END => RangeSetItem::UnboundedEnd,
            INCLUSIVE => RangeSetItem::Inclusive(key.to_vec()),
            EXCLUSIVE_START => RangeSetItem::ExclusiveStart(key.to_vec()),
            EXCLUSIVE_END => RangeSetItem::ExclusiveEnd(key.to_vec()),
            _ => panic!("{kind} is no kind of boundary"),
        }
    }
}

/// What document 01 says, read as plainly as can be.
pub mod paper {
    use super::*;

    /// UnboundedStart below all, UnboundedEnd above all; others by bytes, and ExclusiveEnd < Inclusive < ExclusiveStart.
    pub fn order(x: Boundary, y: Boundary) -> Ordering {
        let place = |(kind, key)| match kind {
            UNBOUNDED_START => (0, &[][..], 0),
            EXCLUSIVE_END => (1, key, 0),
            INCLUSIVE => (1, key, 1),
            EXCLUSIVE_START => (1, key, 2),
            _ => (2, &[][..], 0),
        };
        place(x).cmp(&place(y))
    }

    pub fn invert(kind: u32, is_start: bool) -> u32 {
        match (kind, is_start) {
            (INCLUSIVE, true) => EXCLUSIVE_START,
            (INCLUSIVE, false) => EXCLUSIVE_END,
            (EXCLUSIVE_START | EXCLUSIVE_END, _) => INCLUSIVE,
            (unbounded, _) => unbounded,
        }
    }

    /// The two boundaries of an item, as six words: the kinds, then the keys.
    pub fn to_range_set(item: Words) -> Words {
        let [code, _, start, start_length, end, end_length] = item;
        let [from, to] = kinds(code);
        match code {
            0 => [from, to, start, start_length, start, start_length],
            _ => [from, to, start, start_length, end, end_length],
        }
    }

    /// The boundaries themselves. What reaches past the pool is not there.
    pub fn range(item: Words, pool: &[u8]) -> [Boundary<'_>; 2] {
        let set = to_range_set(item);
        boundaries_of(set, pool).unwrap_or([(set[0], &[]), (set[1], &[])])
    }

    /// The item of two boundaries, plain; from inclusive a to inclusive a, by bytes, it is Key a, with the start's offset.
    pub fn to_query_item(set: Words, pool: &[u8]) -> Option<Words> {
        let [from, to, start, start_length, end, end_length] = set;
        let [x, y] = boundaries_of(set, pool)?;
        if x == y && from == INCLUSIVE {
            return Some([0, 0, start, start_length, 0, 0]);
        }
        let code = (1..10).find(|code| kinds(*code) == [from, to])?;
        let mut item = [code, 0, 0, 0, 0, 0];
        if has_start(code) {
            (item[2], item[3]) = (start, start_length);
        }
        if has_end(code) {
            (item[4], item[5]) = (end, end_length);
        }
        Some(item)
    }

    /// The kinds of an item's start and end.
    fn kinds(code: u32) -> [u32; 2] {
        match code {
            0 | 2 => [INCLUSIVE, INCLUSIVE],
            1 => [INCLUSIVE, EXCLUSIVE_END],
            3 => [UNBOUNDED_START, UNBOUNDED_END],
            4 => [INCLUSIVE, UNBOUNDED_END],
            5 => [UNBOUNDED_START, EXCLUSIVE_END],
            6 => [UNBOUNDED_START, INCLUSIVE],
            7 => [EXCLUSIVE_START, UNBOUNDED_END],
            8 => [EXCLUSIVE_START, EXCLUSIVE_END],
            9 => [EXCLUSIVE_START, INCLUSIVE],
            _ => panic!("{code} is no code of an item"),
        }
    }

    /// Items are a code and two keys here, the absent ones empty.
    pub fn could_contain_key(code: u32, a: &[u8], b: &[u8], key: &[u8]) -> [bool; 2] {
        let on_start = matches!(code, 7..=9) && key == a;
        let on_end = matches!(code, 1 | 5 | 8) && key == b;
        [holds(code, a, b, key), on_start || on_end]
    }

    pub fn could_have_items(code: u32, a: &[u8], b: &[u8], key: &[u8], left: bool) -> bool {
        match (left, code) {
            (true, _) => !has_start(code) || a < key,
            (false, 0) => key < a,
            (false, _) => !has_end(code) || key < b,
        }
    }

    pub fn compare_items(x: [Boundary; 2], y: [Boundary; 2]) -> Ordering {
        order(x[0], y[0]).then(order(x[1], y[1]))
    }

    /// Not disjoint: neither end is below the other start.
    pub fn collides(x: [Boundary; 2], y: [Boundary; 2]) -> bool {
        order(x[1], y[0]).is_ge() && order(y[1], x[0]).is_ge()
    }
}
