//! Module 5: our call of an insertion with all that it leaves, what document 01 says that it leaves, offsets included, and what the original
//! answers.

use crate::{
    calls::lent,
    fernsponge,
    items::{six, Words},
    many::items,
    query_item::QueryItem,
    refusals, Query,
};

/// What is lent: a list at the front of a buffer, and a place for the new count.
#[derive(Clone, Debug, PartialEq)]
pub struct Left {
    pub returned: u64,
    pub words: Vec<u32>,
    pub after: u64,
}

impl Left {
    /// The list, of a buffer that has so many words besides it; these, and the place of the new count, are marked.
    pub fn new(list: &[u32], besides: usize) -> Self {
        let mut words = lent(list.len() + besides);
        words[..list.len()].copy_from_slice(list);
        Self {
            returned: u64::MAX,
            words,
            after: u64::MAX,
        }
    }

    /// What our call leaves.
    pub fn call(&self, pool: &[u8], count: usize, item: Words) -> Self {
        let mut left = self.clone();
        left.returned =
            fernsponge::insert_item(pool, &mut left.words, count, &item, &mut left.after);
        left
    }

    /// The written list: none where the call refuses, or tells more items than the buffer has.
    pub fn items(&self, pool: &[u8]) -> Vec<QueryItem> {
        let words = (self.after as usize).saturating_mul(6);
        match self.returned {
            0 => items(self.words.get(..words).unwrap_or(&[]), pool),
            _ => vec![],
        }
    }
}

/// What document 01 says, read as plainly as can be.
pub mod paper {
    use super::*;
    use crate::{
        boundaries::paper::{collides, compare_items, order, range, to_query_item, to_range_set},
        items::same,
        refusals::{refuse, Checked, MOST_ITEMS},
    };

    /// The list after an insertion, and whether items have merged.
    pub struct Inserted {
        pub list: Vec<Words>,
        pub merged: bool,
    }

    /// What a call is to leave, and the insertion, where it is accepted: the list at the front; freed words up to the old count are 0, and
    /// later ones stay.
    pub fn left(pool: &[u8], lent: &Left, count: usize, item: Words) -> (Left, Option<Inserted>) {
        let mut left = lent.clone();
        match accepted(pool, &lent.words, count, item) {
            Err(refusal) => {
                left.returned = refusal.returned();
                (left, None)
            }
            Ok(inserted) => {
                let after = inserted.list.len();
                left.returned = 0;
                left.after = after as u64;
                left.words[..6 * after].copy_from_slice(&inserted.list.concat());
                if after < count {
                    left.words[6 * after..6 * count].fill(0);
                }
                (left, Some(inserted))
            }
        }
    }

    /// The insertion, or what is refused: 6 where the final count exceeds the buffer's whole items, or 2,048.
    fn accepted(pool: &[u8], words: &[u32], count: usize, item: Words) -> Checked<Inserted> {
        refusals::insertion(pool, words, count, item)?;
        let list: Vec<Words> = words[..6 * count].chunks(6).filter_map(six).collect();
        let inserted = insert(&list, item, pool);
        let after = inserted.list.len();
        match after > words.len() / 6 || after > MOST_ITEMS {
            true => refuse(6, 0, 0),
            false => Ok(inserted),
        }
    }

    /// An equal item is replaced; if either side is wrapped, both stay; plain items that are not disjoint merge. The result goes before the
    /// first item not below it.
    fn insert(list: &[Words], item: Words, pool: &[u8]) -> Inserted {
        let mut staying = vec![];
        let mut merging = vec![];
        for &old in list {
            let plain = old[1] == 0 && item[1] == 0;
            if same(old, item, pool) {
                continue;
            }
            match plain && collides(range(old, pool), range(item, pool)) {
                true => merging.push(old),
                false => staying.push(old),
            }
        }
        let merged = !merging.is_empty();
        let result = merge(item, &merging, pool);
        let below = |old: &Words| compare_items(range(*old, pool), range(result, pool)).is_lt();
        let at = staying.iter().position(|old| !below(old));
        staying.insert(at.unwrap_or(staying.len()), result);
        Inserted {
            list: staying,
            merged,
        }
    }

    /// From the smallest start to the largest end, converted; on ties the new item's offset stays. Without a merge the item stays as it is.
    fn merge(item: Words, merging: &[Words], pool: &[u8]) -> Words {
        let mut whole = to_range_set(item);
        let mut at = range(item, pool);
        for &old in merging {
            let [_, _, start, start_length, end, end_length] = to_range_set(old);
            let other = range(old, pool);
            if order(other[0], at[0]).is_lt() {
                (at[0], whole[0]) = (other[0], other[0].0);
                (whole[2], whole[3]) = (start, start_length);
            }
            if order(other[1], at[1]).is_gt() {
                (at[1], whole[1]) = (other[1], other[1].0);
                (whole[4], whole[5]) = (end, end_length);
            }
        }
        match merging.is_empty() {
            true => item,
            false => to_query_item(whole, pool).expect("merged items have an item"),
        }
    }
}

/// What the original answers.
pub mod rust {
    use super::*;

    pub fn insert(list: Vec<QueryItem>, item: QueryItem) -> Vec<QueryItem> {
        let mut query = Query { items: list };
        query.insert_item(item);
        query.items
    }

    /// D11: whether two lists have the same items, and differ only in the places of some that have equal ranges.
    pub fn differ_in_place(x: &[QueryItem], y: &[QueryItem]) -> bool {
        let in_place = x.iter().zip(y).all(|(one, other)| one.cmp(other).is_eq());
        x.len() == y.len() && in_place && x.iter().all(|item| y.contains(item))
    }
}
