//! Module 4: our call on two lists, with all that it leaves, and what document 01 says that it leaves; and a list in its three forms.

use crate::{
    calls::lent,
    fernsponge,
    items::{list_holds, read, Words},
    query_item::QueryItem,
    refusals::{refuse, Checked},
};

/// The returned number, all the words lent for shared, for ours only and for theirs only, and their counts.
#[derive(Debug, PartialEq)]
pub struct Left {
    pub returned: u64,
    pub words: [Vec<u32>; 3],
    pub counts: [u64; 3],
}

/// What is lent: so many words for each list. All is marked so that what is written shows.
fn marked(room: [usize; 3]) -> Left {
    Left {
        returned: u64::MAX,
        words: room.map(lent),
        counts: [u64::MAX - 1, u64::MAX - 2, u64::MAX - 3],
    }
}

/// What our call leaves.
pub fn call(pool: &[u8], ours: &[u32], theirs: &[u32], room: [usize; 3]) -> Left {
    let mut left = marked(room);
    let words = left.words.each_mut().map(|words| &mut words[..]);
    left.returned = fernsponge::intersect_many(pool, ours, theirs, words, &mut left.counts);
    left
}

/// What document 01 says: the lists at the front, or 6 where one of them has more items than its room; a refused call writes nothing.
pub fn paper(lists: Checked<&[Vec<Words>; 3]>, room: [usize; 3]) -> Left {
    let mut left = marked(room);
    let passes = |lists: &[Vec<Words>; 3]| (0..3).any(|at| lists[at].len() > room[at] / 6);
    let fitting = lists.and_then(|lists| match passes(lists) {
        true => refuse(6, 0, 0),
        false => Ok(lists),
    });
    match fitting {
        Err(refusal) => left.returned = refusal.returned(),
        Ok(lists) => {
            left.returned = 0;
            for (at, list) in lists.iter().enumerate() {
                left.words[at][..6 * list.len()].copy_from_slice(&list.concat());
                left.counts[at] = list.len() as u64;
            }
        }
    }
    left
}

impl Left {
    /// The words of one of the three lists: none where the call refuses, or tells more items than there is room for.
    pub fn list(&self, at: usize) -> &[u32] {
        let words = (self.counts[at] as usize).saturating_mul(6);
        match self.returned {
            0 => self.words[at].get(..words).unwrap_or(&[]),
            _ => &[],
        }
    }
}

/// An accepted list: its items, as words and as the original's, and which of the asked keys they hold.
pub struct List {
    pub items: Vec<Words>,
    pub words: Vec<u32>,
    pub rust: Vec<QueryItem>,
    pub held: Vec<bool>,
}

/// Where two lists stand: their pool, and the keys that they are asked for.
pub struct In<'a> {
    pub pool: &'a [u8],
    pub asked: &'a [Vec<u8>],
}

impl List {
    pub fn new(items: Vec<Words>, here: &In) -> Self {
        let words = items.concat();
        let holds = |key: &Vec<u8>| list_holds(&words, here.pool, key);
        let held = here.asked.iter().map(holds).collect();
        let rust = self::items(&words, here.pool);
        Self {
            items,
            words,
            rust,
            held,
        }
    }
}

/// The items of words, as the original's.
pub fn items(words: &[u32], pool: &[u8]) -> Vec<QueryItem> {
    words
        .chunks(6)
        .filter_map(|item| read(item, pool))
        .collect()
}
