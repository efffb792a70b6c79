//! Module 5: our call on every item and all lists over few keys, on random lists, short and long, and on what is refused or nearly so. Where
//! items merge, and where a call is refused, it is held against document 01 alone.

use crate::{
    hexadecimal,
    inputs::{
        bad_items, bad_lists, counting_pools, damage, damage_word, disorder, even_pools, few_keys,
        limit_items, lists_of, plain_items, Keys,
    },
    insertion::{paper, rust, Left},
    items::{item_of, Words},
    many::items,
    random::Random,
    refusals,
    table::{Against, Held, Row},
    Size,
};

struct Rows {
    inserted: Row,
    merged: Row,
    refused: Row,
    calls: usize,
}

pub fn run(random: &mut Random, size: &Size) -> Vec<Row> {
    let mut rows = Rows {
        inserted: Row::new("insert_item").differing("D11"),
        merged: Row::new("insert_item, merged"),
        refused: Row::new("insert_item, refused"),
        calls: 0,
    };
    rows.all_lists(size.inserted, 2);
    rows.all_lists(1, 4);
    rows.any_lists();
    rows.edges();
    rows.full(size);
    rows.long_keys();
    for at in 0..size.random / 4 {
        let most = match at % 2_500 {
            0 => size.longest,
            _ => 1 + random.below(12),
        };
        rows.random(random, most);
    }
    vec![rows.inserted, rows.merged, rows.refused]
}

impl Rows {
    /// Every item into all lists of at most three items in insertion order, over so many keys and wrappers.
    fn all_lists(&mut self, keys: usize, wrappers: u32) {
        let (pool, keys) = few_keys(keys);
        let items = wrapped_items(&keys, wrappers);
        let full = [3, 0, 0, 0, 0, 0];
        let in_order =
            |list: &[Words]| refusals::insertion(&pool, &list.concat(), list.len(), full).is_ok();
        for list in lists_of(&items, 3, in_order) {
            let words = list.concat();
            for &item in &items {
                self.calls += 1;
                let lent = Left::new(&words, 6 + self.calls % 8);
                self.hold(&pool, &lent, list.len(), item);
                if self.calls % 4 == 0 {
                    let lent = Left::new(&words, self.calls / 4 % 6);
                    self.hold(&pool, &lent, list.len(), item);
                }
            }
        }
    }

    /// All lists of at most three items over one key, in insertion order or not, each with one new item.
    fn any_lists(&mut self) {
        let (pool, keys) = few_keys(1);
        let items = wrapped_items(&keys, 4);
        for list in lists_of(&items, 3, |_| true) {
            self.calls += 1;
            let lent = Left::new(&list.concat(), 6);
            let item = items[self.calls % items.len()];
            self.hold(&pool, &lent, list.len(), item);
        }
    }

    /// Every fault of a list beside every fault of the new item, in pools, counts and rooms at the limits.
    fn edges(&mut self) {
        for pool in &counting_pools() {
            for words in bad_lists() {
                let count = words.len() / 6;
                if count > 2_000 {
                    continue;
                }
                for item in bad_items() {
                    for besides in [0, 1, 6] {
                        let lent = Left::new(&words, besides);
                        let room = lent.words.len() / 6;
                        let most = [count.saturating_sub(1), count, room, room + 1, usize::MAX];
                        for count in most {
                            self.hold(pool, &lent, count, item);
                        }
                    }
                }
            }
        }
    }

    /// Lists at the limit, all of whose items are keys of two bytes, two apart, and items that are refused, replaced, merged or put first,
    /// between and last; the buffer is full, or has room for one more, just so or with words to spare, or lacks one word of it.
    fn full(&mut self, size: &Size) {
        let pool = &counting_pools()[1];
        let at = |key: u32| 256 + 2 * key;
        let key = |key: u32, wrapper: u32| [0, wrapper, at(key), 2, 0, 0];
        let range = |from: u32, to: u32| [2, 0, at(from), 2, at(to), 2];
        let new = [
            key(0, 0),
            key(1, 0),
            key(1, 1),
            key(2_000, 0),
            key(2_001, 3),
            key(4_098, 0),
            range(100, 102),
            range(100, 106),
            range(2, 2),
            [3, 0, 0, 0, 0, 0],
            [1, 0, at(5), 2, at(5), 2],
        ];
        for (turn, item) in new.into_iter().enumerate() {
            for count in [0, 1, 2_047, 2_048, 2_049] {
                let words: Vec<u32> = (0..count).flat_map(|n| key(2 * n + 1, 0)).collect();
                let count = count as usize;
                for (at, besides) in [0, 6, 5, 13].into_iter().enumerate() {
                    // short lists, and those of the whole run, have all; else each has one
                    if count < 2 || size.more_pairs || at == (turn + count) % 4 {
                        self.hold(pool, &Left::new(&words, besides), count, item);
                    }
                }
            }
        }
    }

    /// Every item with keys at the limits of length into none and into each such item, in pools at the limit.
    fn long_keys(&mut self) {
        for pool in &even_pools() {
            let items = limit_items(pool);
            for &new in &items {
                self.hold(pool, &Left::new(&[], 6), 0, new);
                for old in &items {
                    self.calls += 1;
                    self.hold(pool, &Left::new(old, [6, 5, 0][self.calls % 3]), 1, new);
                }
            }
        }
    }

    /// A list that is accepted more often than not, and an item that is often one of its own.
    fn random(&mut self, random: &mut Random, most: usize) {
        let keys = Keys::new(random, most);
        let mut list = keys.insertion_list(random, most);
        let wrapper = random.one_of(&[0, 0, 0, 1, 2, 3]);
        let mut item = keys.item(random, wrapper);
        if !list.is_empty() && random.below(4) == 0 {
            item = random.one_of(&list);
            item[1] = random.one_of(&[item[1], wrapper]);
        }
        if random.below(8) == 0 {
            disorder(random, &mut list);
        }
        if random.below(16) == 0 {
            damage_word(random, &mut item, &keys.pool);
        }
        let mut count = list.len();
        let mut words = list.concat();
        if random.below(16) == 0 {
            damage(random, &mut words, &keys.pool);
        }
        if random.below(16) == 0 {
            count = random.below(count + 3);
        }
        let lent = Left::new(&words, random.below(16));
        self.hold(&keys.pool, &lent, count, item);
    }

    fn hold(&mut self, pool: &[u8], lent: &Left, count: usize, item: Words) {
        let ours = lent.call(pool, count, item);
        let (paper, inserted) = paper::left(pool, lent, count, item);
        let (row, alone) = match inserted {
            None => (&mut self.refused, true),
            Some(inserted) if inserted.merged => (&mut self.merged, true),
            Some(_) => (&mut self.inserted, false),
        };
        let by_rust = || {
            let list = items(&lent.words[..6 * count], pool);
            Some(Held {
                ours: ours.items(pool),
                other: rust::insert(list, item_of(item, pool)?),
            })
        };
        let rust = if alone { None } else { by_rust() };
        let in_place = |held: &Held<Vec<_>>| rust::differ_in_place(&held.ours, &held.other);
        let against = Against {
            listed: rust.as_ref().is_some_and(in_place),
            rust,
            paper: Some(Held { ours, other: paper }),
        };
        row.hold(
            || {
                let (words, pool) = (&lent.words, hexadecimal(pool));
                format!("{item:?} into {count} of {words:?} in {pool}")
            },
            against,
        );
    }
}

/// Every item over the keys with each of so many wrappers, upright or not.
pub fn wrapped_items(keys: &[[u32; 2]], wrappers: u32) -> Vec<Words> {
    let wrapped = |[code, _, a, b, c, d]: Words| {
        (0..wrappers).map(move |wrapper| [code, wrapper, a, b, c, d])
    };
    plain_items(keys).into_iter().flat_map(wrapped).collect()
}
