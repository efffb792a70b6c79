//! Inputs: pools by chance in which keys begin alike, keys, items and accepted lists in them, damaged words, all lists of few items, positions,
//! and rate cards.

use crate::{
    boundaries::paper::{compare_items, range},
    items::{end_of, has_end, has_start, same, start_of, Words},
    random::Random,
    refusals::{MOST_AMOUNT, MOST_ASKED},
    Size, BYTES,
};

/// Lengths of keys and of pools at document 01's limits, one below and one above them.
pub const KEY_LENGTHS: [usize; 5] = [0, 1, 254, 255, 256];
pub const POOL_LENGTHS: [usize; 3] = [65_535, 65_536, 65_537];

/// A pool of one piece of bytes over and over, a few of them changed, so that parts of it begin alike.
pub struct Pool {
    pub bytes: Vec<u8>,
    piece: usize,
}

impl Pool {
    pub fn new(random: &mut Random) -> Self {
        let (length, piece) = (random.below(600), 1 + random.below(40));
        let piece = bytes(random, piece);
        let mut bytes: Vec<u8> = piece.iter().copied().cycle().take(length).collect();
        for _ in 0..random.below(4) {
            if let Some(byte) = bytes.get_mut(random.below(length + 1)) {
                *byte = random.one_of(&BYTES);
            }
        }
        let piece = piece.len();
        Self { bytes, piece }
    }

    /// Offset and length of a key, which often starts where the piece does.
    pub fn key(&self, random: &mut Random) -> [u32; 2] {
        let length = self.bytes.len();
        let offset = match random.below(4) {
            0 => random.below(length + 1),
            _ => self.piece * random.below(length / self.piece + 1),
        };
        let most = (length - offset).min(255);
        [offset as u32, random.below(most + 1) as u32]
    }

    /// The words of an item that is accepted, upright or not.
    pub fn item(&self, random: &mut Random) -> Words {
        let code = random.below(10) as u32;
        let wrapper = random.one_of(&[0, 0, 0, 1, 2, 3]);
        let mut item = [code, wrapper, 0, 0, 0, 0];
        if has_start(code) {
            [item[2], item[3]] = self.key(random);
        }
        if has_end(code) {
            [item[4], item[5]] = self.key(random);
        }
        item
    }

    /// A key to ask an item for: one of its own, or one that begins so.
    pub fn asked(&self, random: &mut Random, item: Words) -> Vec<u8> {
        let own = match random.below(2) {
            0 => start_of(item, &self.bytes),
            _ => end_of(item, &self.bytes),
        };
        let mut key = own.unwrap_or(&[]).to_vec();
        match random.below(4) {
            0 => {}
            1 => drop(key.pop()),
            2 => {
                let more = 1 + random.below(300);
                key.extend(bytes(random, more));
            }
            _ => {
                key.pop();
                key.push(random.one_of(&BYTES));
            }
        }
        key
    }
}

/// Bytes of `BYTES`.
pub fn bytes(random: &mut Random, length: usize) -> Vec<u8> {
    (0..length).map(|_| random.one_of(&BYTES)).collect()
}

/// A word changed to one that is wrong, or nearly so, or a word too few or too many.
pub fn damage(random: &mut Random, words: &mut Vec<u32>, pool: &[u8]) {
    match random.below(10) {
        0 => drop(words.pop()),
        1 => words.push(near(random, pool)),
        _ => damage_word(random, words, pool),
    }
}

/// A word changed to one that is wrong, or nearly so.
pub fn damage_word(random: &mut Random, words: &mut [u32], pool: &[u8]) {
    let word = near(random, pool);
    let at = random.below(words.len() + 1);
    if let Some(old) = words.get_mut(at) {
        *old = word;
    }
}

/// A word near a limit.
fn near(random: &mut Random, pool: &[u8]) -> u32 {
    let end = pool.len() as u32;
    random.one_of(&[0, 1, 3, 4, 5, 9, 10, 255, 256, end, end + 1, u32::MAX])
}

/// Two items exchanged, or one written over another, or the two keys of one exchanged.
pub fn disorder(random: &mut Random, list: &mut [Words]) {
    if list.is_empty() {
        return;
    }
    let (x, y) = (random.below(list.len()), random.below(list.len()));
    match random.below(3) {
        0 => list.swap(x, y),
        1 => list[x] = list[y],
        _ => {
            let [code, wrapper, start, start_length, end, end_length] = list[x];
            list[x] = [code, wrapper, end, end_length, start, start_length];
        }
    }
}

/// Pools at the limit with every single byte at its own offset, and ascending keys of two bytes after these.
pub fn counting_pools() -> [Vec<u8>; 3] {
    POOL_LENGTHS.map(|length| {
        let byte = |at: u32| match at {
            0..256 => at as u8,
            _ => ((at - 256) / 2).to_be_bytes()[2 + at as usize % 2],
        };
        (0..length as u32).map(byte).collect()
    })
}

/// The key of a counting pool that has this number, and a range from one to another, without the end.
pub fn counted_key(number: usize) -> Words {
    [0, 0, counted(number), 2, 0, 0]
}

pub fn counted_range(from: usize, to: usize) -> Words {
    [1, 0, counted(from), 2, counted(to), 2]
}

fn counted(number: usize) -> u32 {
    256 + 2 * number as u32
}

/// So many ranges of a counting pool for ours and for theirs, of which each meets the other list's at the same index by half.
pub fn half_meeting(ours: usize, theirs: usize) -> [Vec<Words>; 2] {
    let ranges = |count, from| {
        let range = |at| counted_range(4 * at + from, 4 * at + from + 2);
        (0..count).map(range).collect()
    };
    [ranges(ours, 0), ranges(theirs, 1)]
}

/// None, one, and counts at the limit as the run has them.
pub fn counts(size: &Size) -> impl Iterator<Item = usize> {
    [0, 1].into_iter().chain(size.counts.iter().copied())
}

/// Pools at the limit whose parts all begin alike, but for the last byte.
pub fn even_pools() -> [Vec<u8>; 3] {
    POOL_LENGTHS.map(|length| {
        let mut pool = vec![0x7F; length];
        pool[length - 1] = 0xFF;
        pool
    })
}

/// Keys at the limits of length in a pool: at its front, and at its end or, where it says so, one byte past that.
pub fn limit_keys(pool: &[u8], past: usize) -> Vec<[u32; 2]> {
    let at = |length: usize| {
        let ends = (0..=past).map(move |past| pool.len() - length + past);
        [0].into_iter()
            .chain(ends)
            .map(move |offset| [offset as u32, length as u32])
    };
    KEY_LENGTHS.into_iter().flat_map(at).collect()
}

/// Every plain item whose start stands at the front of the pool and whose end at its end, with keys at the limits of length.
pub fn limit_items(pool: &[u8]) -> Vec<Words> {
    let of = |present: bool, front: bool| match present {
        false => vec![[0, 0]],
        true => KEY_LENGTHS
            .map(|length| {
                [
                    if front { 0 } else { pool.len() - length } as u32,
                    length as u32,
                ]
            })
            .to_vec(),
    };
    let mut items = vec![];
    for code in 0..10 {
        for start in of(has_start(code), true) {
            for end in of(has_end(code), false) {
                items.push([code, 0, start[0], start[1], end[0], end[1]]);
            }
        }
    }
    items
}

/// Items with a fault of every kind, and some with none, in such a pool.
pub fn bad_items() -> impl Iterator<Item = Words> {
    [
        [0, 0, 5, 1, 0, 0],
        [2, 3, 1, 1, 9, 1],
        [3, 0, 0, 0, 0, 0],
        [4, 0, 0, 254, 0, 0],
        // to the end of a pool of 65,535 bytes, and of one of 65,536
        [0, 0, 65_280, 255, 0, 0],
        [1, 0, 0, 255, 65_281, 255],
        // 1: an unknown code or wrapper, an absent key that is not 0
        [10, 0, 0, 0, 0, 0],
        [u32::MAX, 0, 5, 1, 0, 0],
        [0, 4, 5, 1, 0, 0],
        [3, 0, 1, 0, 0, 0],
        [0, 0, 5, 1, 0, 1],
        [6, 0, 0, 1, 5, 1],
        // 2: a key that is too long, or past the pool
        [0, 0, 0, 256, 0, 0],
        [1, 0, 5, 1, 0, 256],
        [7, 0, 65_537, 1, 0, 0],
        [5, 0, 0, 0, 65_538, 0],
        [4, 0, u32::MAX, u32::MAX, 0, 0],
        // 3: from 05 to 03, and ranges that are empty
        [2, 0, 5, 1, 3, 1],
        [1, 0, 5, 1, 5, 1],
        [8, 1, 5, 1, 5, 1],
        [9, 2, 5, 1, 5, 1],
    ]
    .into_iter()
}

/// Lists with a fault of every kind, alone, before and after others, and some with none; the pool counts up from 00.
pub fn bad_lists() -> Vec<Vec<u32>> {
    let key = |byte: u32| [0, 0, byte, 1, 0, 0];
    let range = |from: u32, to: u32| [2, 0, from, 1, to, 1];
    let (upside_down, unknown, outside) = (range(5, 3), [10, 0, 0, 0, 0, 0], [0, 0, 0, 256, 0, 0]);
    let mut lists = vec![
        vec![],
        vec![key(1), key(5)],
        vec![range(1, 3), range(5, 9)],
        // not strict, at 1 or at 2
        vec![key(5), key(3)],
        vec![key(5), key(5)],
        vec![range(1, 5), range(5, 9)],
        vec![key(1), key(5), key(3)],
        // which of two decides
        vec![key(5), key(3), upside_down],
        vec![upside_down, unknown],
        vec![key(1), outside, unknown],
        vec![key(1), unknown, outside],
        vec![[10, 0, 0, 256, 0, 0]],
        vec![[2, 0, 5, 1, 0, 256]],
    ];
    lists.extend(bad_items().map(|item| vec![item]));
    let mut lists: Vec<Vec<u32>> = lists.iter().map(|list| list.concat()).collect();
    // no multiple of six
    for length in [1, 5, 7, 11] {
        lists.push([key(1), key(5)].concat()[..length].to_vec());
        lists.push([unknown, unknown].concat()[..length].to_vec());
    }
    // past the limit, in keys of two bytes that ascend
    let many = (0..2_049).flat_map(|at| [0, 0, 256 + 2 * at, 2, 0, 0]);
    lists.push(many.collect());
    lists.push([unknown; 2_049].concat());
    lists
}

/// A small pool, and so many keys in it: 05 at two offsets, a key that begins so, and the empty one.
pub fn few_keys(count: usize) -> (Vec<u8>, Vec<[u32; 2]>) {
    let mut keys = vec![[0, 1], [1, 1], [1, 2], [3, 0]];
    keys.truncate(count);
    (vec![0x05, 0x05, 0x00], keys)
}

/// Every plain item over the keys, upright or not.
pub fn plain_items(keys: &[[u32; 2]]) -> Vec<Words> {
    let of = |present: bool| match present {
        true => keys.to_vec(),
        false => vec![[0, 0]],
    };
    let mut items = vec![];
    for code in 0..10 {
        for start in of(has_start(code)) {
            for end in of(has_end(code)) {
                items.push([code, 0, start[0], start[1], end[0], end[1]]);
            }
        }
    }
    items
}

/// Every list of at most three plain items over the keys, accepted or not.
pub fn all_lists(keys: &[[u32; 2]]) -> Vec<Vec<Words>> {
    lists_of(&plain_items(keys), 3, |_| true)
}

/// Every list of at most so many of the things that passes, and that each list which it starts with passes too.
pub fn lists_of<T: Copy>(items: &[T], most: usize, passes: impl Fn(&[T]) -> bool) -> Vec<Vec<T>> {
    let mut lists: Vec<Vec<T>> = vec![vec![]];
    let mut from = 0;
    for _ in 0..most {
        let to = lists.len();
        for at in from..to {
            for item in items {
                let longer = [&lists[at][..], &[*item]].concat();
                if passes(&longer) {
                    lists.push(longer);
                }
            }
        }
        from = to;
    }
    lists
}

/// Every pair of points.
pub fn spans_between(points: &[u64]) -> Vec<[u64; 2]> {
    let pairs = |start: &u64| {
        points
            .iter()
            .map(|end| [*start, *end])
            .collect::<Vec<[u64; 2]>>()
    };
    points.iter().flat_map(pairs).collect()
}

/// So many positions at most, from a base on and within a width, that ascend strictly.
pub fn ascending(random: &mut Random, base: u64, width: u64, count: usize) -> Vec<u64> {
    let mut points: Vec<u64> = (0..count)
        .map(|_| base + random.next() % (width + 1))
        .collect();
    points.sort();
    points.dedup();
    points
}

/// So many canonical intervals at most, from a base on and within a width, as words.
pub fn ascending_pairs(random: &mut Random, base: u64, width: u64, count: usize) -> Vec<u64> {
    let mut words = ascending(random, base, width, 2 * count);
    words.truncate(words.len() / 2 * 2);
    words
}

/// Every eighth time: two numbers change places, one is written over another, or the last one is lost.
pub fn damage_numbers(random: &mut Random, list: &mut Vec<u64>) {
    if !list.is_empty() && random.below(8) == 0 {
        let (x, y) = (random.below(list.len()), random.below(list.len()));
        match random.below(3) {
            0 => list.swap(x, y),
            1 => list[x] = list[y],
            _ => drop(list.pop()),
        }
    }
}

/// A range whose ends are those of a list or next to them, or any within bounds; sometimes turned round.
pub fn some_rows(random: &mut Random, list: &[u64], [first, last]: [u64; 2]) -> [u64; 2] {
    let mut end = || match random.below(16) {
        0 => random.one_of(&[0, u64::MAX - 1, u64::MAX]),
        1..=8 if !list.is_empty() => {
            let near = random.one_of(list);
            random.one_of(&[near.saturating_sub(1), near, near, near.saturating_add(1)])
        }
        _ => first + random.next() % (last - first).max(1),
    };
    let [one, other] = [end(), end()];
    // mostly a few pairs, and not half of all
    let near = match random.below(4) {
        0 => other,
        _ => one.saturating_add(random.next() % ((last - first) / 16).max(4)),
    };
    match random.below(16) {
        0 => [one.max(near), one.min(near)],
        _ => [one.min(near), one.max(near)],
    }
}

/// So many ascending keys of one length, up to 8,192, that all begin alike: zeros, then two other bytes, then zeros. Those with the most
/// zeros come first. They overlap, so that a pool of 65,536 bytes suffices.
pub fn alike_keys(length: usize, count: usize) -> (Vec<u8>, Vec<[u32; 2]>) {
    let pieces = 65_536 / length;
    let piece = |at: usize| {
        let mut piece = vec![0; length];
        piece[length - 2] = 1 + (at / 255) as u8;
        piece[length - 1] = 1 + (at % 255) as u8;
        piece
    };
    let pool: Vec<u8> = (0..pieces).flat_map(piece).collect();
    let starts = (0..length - 1).flat_map(|fewer| (0..pieces).map(move |at| at * length + fewer));
    let whole = starts.filter(|start| start + length <= pool.len());
    let keys = whole.map(|start| [start as u32, length as u32]);
    let keys = keys.take(count).collect();
    (pool, keys)
}

/// So many ascending keys of one length, up to 8,192, that differ in their first bytes: parts of random bytes, sorted.
pub fn early_keys(random: &mut Random, length: usize, count: usize) -> (Vec<u8>, Vec<[u32; 2]>) {
    let pool: Vec<u8> = (0..65_536).map(|_| random.next() as u8).collect();
    let mut keys: Vec<&[u8]> = pool.windows(length).step_by(7).collect();
    let at = |key: &[u8]| key.as_ptr() as usize - pool.as_ptr() as usize;
    keys.sort();
    keys.dedup();
    let keys = keys.iter().map(|key| [at(key) as u32, length as u32]);
    let keys = keys.take(count).collect();
    (pool, keys)
}

/// Ascending keys, each at two places of a pool.
pub struct Keys {
    pub pool: Vec<u8>,
    keys: Vec<[[u32; 2]; 2]>,
}

impl Keys {
    /// Enough for lists of so many items.
    pub fn new(random: &mut Random, items: usize) -> Self {
        // short ones for few, so that many are equal or begin alike; long ones for many, or too few would be left
        let (least, most) = if items > 100 { (5, 8) } else { (0, 3) };
        let mut all: Vec<Vec<u8>> = vec![];
        for _ in 0..items {
            let length = least + random.below(most - least + 1);
            all.push(bytes(random, length));
        }
        all.sort();
        all.dedup();
        let mut pool = vec![];
        let mut place = |key: &Vec<u8>| {
            pool.extend(key);
            [(pool.len() - key.len()) as u32, key.len() as u32]
        };
        let first: Vec<_> = all.iter().map(&mut place).collect();
        let both = all.iter().zip(first);
        let keys = both.map(|(key, first)| [first, place(key)]).collect();
        Self { pool, keys }
    }

    /// A list that is accepted, of at most so many items. It goes along the boundaries in their order: at each key the end before it,
    /// the key, and the start after it.
    pub fn list(&self, random: &mut Random, most: usize) -> Vec<Words> {
        let step = 1 + random.below(5);
        let mut list = vec![];
        let mut from = 0;
        while list.len() < most {
            let unbounded = from == 0 && random.below(4) == 0;
            let mut start = from + random.below(step);
            if start % 3 == 0 {
                start += 1;
            }
            let mut end = start + random.below(step);
            if end % 3 == 2 {
                end += 1;
            }
            let last = end / 3 >= self.keys.len();
            if last && (start / 3 >= self.keys.len() || random.below(2) == 0) {
                break;
            }
            let code = match (unbounded, start % 3, last, end % 3) {
                (false, 1, false, 1) if start == end => random.one_of(&[0, 2]),
                (false, 1, false, 0) => 1,
                (false, 1, false, _) => 2,
                (true, _, true, _) => 3,
                (false, 1, true, _) => 4,
                (true, _, false, 0) => 5,
                (true, _, false, _) => 6,
                (false, _, true, _) => 7,
                (false, _, false, 0) => 8,
                (false, _, false, _) => 9,
            };
            let wrapper = random.one_of(&[0, 0, 0, 0, 0, 1, 2, 3]);
            let mut item = [code, wrapper, 0, 0, 0, 0];
            if has_start(code) {
                [item[2], item[3]] = self.keys[start / 3][random.below(2)];
            }
            if has_end(code) {
                [item[4], item[5]] = self.keys[end / 3][random.below(2)];
            }
            list.push(item);
            if last {
                break;
            }
            from = end + 1;
        }
        list
    }

    /// An upright item.
    pub fn item(&self, random: &mut Random, wrapper: u32) -> Words {
        let (x, y) = (random.below(self.keys.len()), random.below(self.keys.len()));
        let code = match random.below(10) as u32 {
            // from a key to itself there are no others
            1 | 8 | 9 if x == y => 2,
            code => code,
        };
        let mut item = [code, wrapper, 0, 0, 0, 0];
        if has_start(code) {
            [item[2], item[3]] = self.keys[x.min(y)][random.below(2)];
        }
        if has_end(code) {
            [item[4], item[5]] = self.keys[x.max(y)][random.below(2)];
        }
        item
    }

    /// A list in insertion order, of at most so many items: plain ones that are strict, and wrapped ones anywhere, some of equal range.
    pub fn insertion_list(&self, random: &mut Random, most: usize) -> Vec<Words> {
        let wrapped = random.below(most + 1);
        let mut list = self.list(random, most - wrapped);
        for item in &mut list {
            item[1] = 0;
        }
        for _ in 0..wrapped {
            let wrapper = 1 + random.below(3) as u32;
            let item = match random.below(2) {
                0 if !list.is_empty() => {
                    let [code, _, a, b, c, d] = random.one_of(&list);
                    [code, wrapper, a, b, c, d]
                }
                _ => self.item(random, wrapper),
            };
            list.insert(random.below(list.len() + 1), item);
        }
        let range = |item: &Words| range(*item, &self.pool);
        list.sort_by(|x, y| compare_items(range(x), range(y)));
        let mut once: Vec<Words> = vec![];
        for item in list {
            // equal ones stand among those of equal range
            let alike = once.iter().rev();
            let mut alike = alike.take_while(|old| range(old) == range(&item));
            if !alike.any(|old| same(*old, item, &self.pool)) {
                once.push(item);
            }
        }
        once
    }

    /// One of the keys, at one of its places.
    pub fn place(&self, random: &mut Random) -> [u32; 2] {
        random.one_of(&self.keys)[random.below(2)]
    }

    /// One of the keys, or one that is longer or shorter by few bytes and still in the pool.
    fn near_place(&self, random: &mut Random) -> [u32; 2] {
        let [offset, length] = self.place(random);
        let near = match random.below(4) {
            0 => random.below(4) as u32,
            1 => length.saturating_sub(1),
            2 => length + 1,
            _ => length,
        };
        [offset, near.min(self.pool.len() as u32 - offset)]
    }

    /// One of the keys, or one near it: a byte shorter, a byte longer, longer than any key of an item, with another last byte, or the empty one.
    pub fn near(&self, random: &mut Random) -> Vec<u8> {
        let [offset, length] = self.place(random);
        let mut key = self.pool[offset as usize..][..length as usize].to_vec();
        match random.below(8) {
            0 => drop(key.pop()),
            1 => key.push(random.one_of(&BYTES)),
            2 => {
                key.pop();
                key.push(random.one_of(&BYTES));
            }
            3 => {
                let more = 250 + random.below(60);
                key.extend(bytes(random, more));
            }
            4 => key.clear(),
            _ => {}
        }
        key
    }

    /// A few of the keys.
    pub fn some(&self, random: &mut Random, count: usize) -> Vec<Vec<u8>> {
        let mut some = vec![];
        for _ in 0..count {
            let [[offset, length], _] = random.one_of(&self.keys);
            some.push(self.pool[offset as usize..][..length as usize].to_vec());
        }
        some
    }
}

/// Amounts that no card has.
pub const OUTSIDE: [i64; 4] = [MOST_AMOUNT + 1, -MOST_AMOUNT - 1, i64::MAX, i64::MIN];

/// An amount of a card: small, at a limit, or any; many end in half a cent.
pub fn some_amount(random: &mut Random) -> i64 {
    let width = random.one_of(&[1_000, 100_000, MOST_AMOUNT, MOST_AMOUNT]) as u64;
    let amount = (random.next() % (2 * width + 1)) as i64 - width as i64;
    match random.below(8) {
        0 => random.one_of(&[0, 50, -50, MOST_AMOUNT, -MOST_AMOUNT]),
        1..4 => (amount / 200 * 100 + 50) * random.one_of(&[1, -1]),
        _ => amount,
    }
}

/// A list and an amount for each of its items, and words of keys that are asked of it; some of it damaged.
pub struct SomeCard {
    pub keys: Keys,
    pub words: Vec<u32>,
    pub amounts: Vec<i64>,
    pub asked: Vec<u32>,
}

impl SomeCard {
    /// A card of so many items at most.
    pub fn new(random: &mut Random, most: usize) -> Self {
        let keys = Keys::new(random, most);
        let mut list = keys.list(random, most);
        let mut amounts: Vec<i64> = list.iter().map(|_| some_amount(random)).collect();
        let often = random.below(8);
        if often == 0 {
            disorder(random, &mut list);
        }
        let mut words = list.concat();
        if often == 1 {
            damage(random, &mut words, &keys.pool);
        }
        // beside what is wrong with the list too
        if often < 3 && random.below(2) == 0 {
            damage_amounts(random, &mut amounts);
        }
        let count = match random.below(100) {
            0 => MOST_ASKED - 1 + random.below(3),
            1..5 => random.below(300),
            _ => random.below(12),
        };
        let mut asked = vec![];
        for _ in 0..count {
            asked.extend(keys.near_place(random));
        }
        if random.below(8) == 0 {
            damage(random, &mut asked, &keys.pool);
        }
        Self {
            keys,
            words,
            amounts,
            asked,
        }
    }
}

/// One amount too few or too many, or one that is out of range.
fn damage_amounts(random: &mut Random, amounts: &mut Vec<i64>) {
    match random.below(5) {
        0 => drop(amounts.pop()),
        1 => amounts.push(0),
        _ => {
            let at = random.below(amounts.len() + 1);
            if let Some(amount) = amounts.get_mut(at) {
                *amount = random.one_of(&OUTSIDE);
            }
        }
    }
}
