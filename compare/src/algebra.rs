//! Modules 3 and 4: what the original answers of two items and of two lists, and what document 01 says, offsets included; and what of the lists
//! document 02 leaves out.

use crate::{
    boundaries::{
        boundaries_of,
        paper::{invert, order, to_query_item, to_range_set},
        Boundary,
    },
    items::{keys, Words},
    query_item::QueryItem,
};

/// What document 01 says, read as plainly as can be. A range is two boundaries in six words: the kinds, then the keys.
pub mod paper {
    use super::*;

    /// What two ranges share, and what each has left over, left and right of it.
    struct Parts {
        shared: Option<Words>,
        ours: [Option<Words>; 2],
        theirs: [Option<Words>; 2],
    }

    /// Of equal boundaries the shared start has our offset, and the shared end theirs.
    fn pair(x: Words, y: Words, pool: &[u8]) -> Parts {
        let (at, other) = (bounds(x, pool), bounds(y, pool));
        if order(at[1], other[0]).is_lt() {
            return Parts {
                shared: None,
                ours: [Some(x), None],
                theirs: [None, Some(y)],
            };
        }
        if order(other[1], at[0]).is_lt() {
            return Parts {
                shared: None,
                ours: [None, Some(x)],
                theirs: [Some(y), None],
            };
        }
        let (starts, ends) = (order(at[0], other[0]), order(at[1], other[1]));
        let larger_start = if starts.is_ge() { start(x) } else { start(y) };
        let smaller_end = if ends.is_lt() { end(x) } else { end(y) };
        let left = |of: Words| range(start(of), inverted(larger_start, false));
        let right = |of: Words| range(inverted(smaller_end, true), end(of));
        Parts {
            shared: Some(range(larger_start, smaller_end)),
            ours: [
                starts.is_lt().then(|| left(x)),
                ends.is_gt().then(|| right(x)),
            ],
            theirs: [
                starts.is_gt().then(|| left(y)),
                ends.is_lt().then(|| right(y)),
            ],
        }
    }

    /// The parts of two items, converted: the shared one, ours left and right, theirs left and right.
    pub fn items(x: Words, y: Words, pool: &[u8]) -> [Option<Words>; 5] {
        let parts = pair(to_range_set(x), to_range_set(y), pool);
        let ([ours_left, ours_right], [theirs_left, theirs_right]) = (parts.ours, parts.theirs);
        [
            parts.shared,
            ours_left,
            ours_right,
            theirs_left,
            theirs_right,
        ]
        .map(|range| to_query_item(range?, pool))
    }

    /// Over ours in order, then theirs in order, each pair's shared item.
    fn shared(ours: &[Words], theirs: &[Words], pool: &[u8]) -> Vec<Words> {
        let mut items = vec![];
        for x in ours {
            for y in theirs {
                let shared = pair(to_range_set(*x), to_range_set(*y), pool).shared;
                items.extend(shared.and_then(|range| to_query_item(range, pool)));
            }
        }
        items
    }

    /// Each of our items with all of theirs removed, pieces ascending; cut as boundaries, and converted once at the end.
    pub fn only(ours: &[Words], theirs: &[Words], pool: &[u8]) -> Vec<Words> {
        let mut items = vec![];
        for x in ours {
            let mut pieces = vec![to_range_set(*x)];
            for y in theirs {
                let left_over = |piece: &Words| pair(*piece, to_range_set(*y), pool).ours;
                pieces = pieces.iter().flat_map(left_over).flatten().collect();
            }
            items.extend(
                pieces
                    .iter()
                    .filter_map(|range| to_query_item(*range, pool)),
            );
        }
        items
    }

    /// The three lists; theirs-only is ours-only with sides exchanged. What holds no key is left out at the end, when all is cut (02 §2.1).
    pub fn lists(ours: &[Words], theirs: &[Words], pool: &[u8]) -> [Vec<Words>; 3] {
        let mut lists = [
            shared(ours, theirs, pool),
            only(ours, theirs, pool),
            only(theirs, ours, pool),
        ];
        for list in &mut lists {
            list.retain(|item| !holds_no_key(*item, pool));
        }
        lists
    }

    /// Below the empty key, or past a key and below the same one with a zero byte behind it (02 §2.2).
    fn holds_no_key(item: Words, pool: &[u8]) -> bool {
        let (start, end) = keys(item, pool);
        match item[0] {
            5 => end.is_empty(),
            8 => end.split_last() == Some((&0, start)),
            _ => false,
        }
    }

    /// A boundary: its kind, and offset and length of its key.
    type At = [u32; 3];

    fn start(range: Words) -> At {
        [range[0], range[2], range[3]]
    }

    fn end(range: Words) -> At {
        [range[1], range[4], range[5]]
    }

    fn range(start: At, end: At) -> Words {
        [start[0], end[0], start[1], start[2], end[1], end[2]]
    }

    fn inverted([kind, offset, length]: At, is_start: bool) -> At {
        [invert(kind, is_start), offset, length]
    }

    fn bounds(range: Words, pool: &[u8]) -> [Boundary<'_>; 2] {
        boundaries_of(range, pool).expect("keys of an accepted list are parts of the pool")
    }
}

/// What the original answers.
pub mod rust {
    use super::*;

    /// What two items share, what ours has left and right of it, and what theirs has.
    pub fn pair(ours: &QueryItem, theirs: &QueryItem) -> [Option<QueryItem>; 5] {
        let parts = ours.intersect(theirs);
        [
            parts.in_both,
            parts.ours_left,
            parts.ours_right,
            parts.theirs_left,
            parts.theirs_right,
        ]
    }

    /// The three lists, as they are: shared, ours-only, theirs-only.
    pub fn lists(ours: &[QueryItem], theirs: &[QueryItem]) -> [Vec<QueryItem>; 3] {
        let result = QueryItem::intersect_many_ordered(&mut ours.to_vec(), theirs.to_vec());
        [result.in_both, result.ours, result.theirs].map(Option::unwrap_or_default)
    }

    /// The items converted, which drops wrappers and makes [a,a] the Key a.
    pub fn converted(items: &[QueryItem]) -> Vec<QueryItem> {
        let convert = |item: &QueryItem| item.to_range_set().to_query_item();
        items.iter().filter_map(convert).collect()
    }

    /// The items without those that hold no key, which the original lists and we do not (D19): everything below the empty key, and what is past a
    /// key and below the same key with a zero byte behind it.
    pub fn keyed(items: &[QueryItem]) -> Vec<QueryItem> {
        let holds_no_key = |item: &&QueryItem| match item.to_range_set().to_query_item() {
            Some(QueryItem::RangeTo(range)) => range.end.is_empty(),
            Some(QueryItem::RangeAfterTo(range)) => {
                let mut next = range.start;
                next.push(0);
                next == range.end
            }
            _ => false,
        };
        items
            .iter()
            .filter(|item| !holds_no_key(item))
            .cloned()
            .collect()
    }
}
