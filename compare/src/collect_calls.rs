//! Our call that collects the pool (02 §6): on all short lists over few keys, with every fault, at the limits, and on random lists, short and
//! long. Held against document 02 alone: the original has none of this.

use crate::{
    calls::{Calls, WIDE_MARK},
    collecting::{paper, Collected, Lent},
    fernsponge, hexadecimal,
    inputs::{
        alike_keys, bad_items, bad_lists, counting_pools, counts, damage, disorder, early_keys,
        even_pools, half_meeting, limit_keys, lists_of, plain_items, Keys, Pool,
    },
    insert_calls::wrapped_items,
    insertion::Left,
    items::{has_end, has_start, keys, shown, Shown, Words},
    many,
    random::Random,
    refusals::Checked,
    table::{Against, Row},
    Size,
};

struct All {
    collect: Calls,
    again: Row,
    shows: Row,
    checks: Row,
    three: Row,
    inserted: Row,
    inputs: usize,
    calls: usize,
}

/// Two lists over a pool, accepted or not.
struct Two<'a> {
    pool: &'a [u8],
    ours: &'a [u32],
    theirs: &'a [u32],
}

pub fn run(random: &mut Random, size: &Size) -> Vec<Row> {
    let mut all = All {
        collect: Calls::new("collect", "collect, refused"),
        again: Row::new("collect: again, which changes nothing"),
        shows: Row::again("collect: every item shows the same"),
        checks: Row::new("collect: check_list says the same"),
        three: Row::new("collect: the three lists show the same"),
        inserted: Row::new("collect: an insertion shows the same"),
        inputs: 0,
        calls: 0,
    };
    for lists in size.collected {
        all.short_lists(lists);
    }
    all.faults();
    all.late_faults();
    all.keys_at_limits();
    all.items_at_limits(size);
    all.full_pools();
    for _ in 0..size.random / 32 {
        all.any_items(random, 12);
        all.accepted_lists(random, 12);
    }
    for _ in 0..size.long_lists {
        all.any_items(random, 2_048);
        all.accepted_lists(random, size.longest);
        all.long_lists(random, 2_048);
    }
    let mut rows: Vec<Row> = all.collect.rows().into();
    rows.extend([all.shows, all.again, all.checks, all.three, all.inserted]);
    rows
}

/// Lists of at most so many items, by codes, wrappers and keys, which are some of `equal_keys`.
pub struct ShortLists {
    keys: &'static [usize],
    codes: &'static [u32],
    items: usize,
    wrappers: u32,
}

pub const ALL_CODES: [u32; 10] = [0, 1, 2, 3, 4, 5, 6, 7, 8, 9];

/// A code with a start alone, with both keys, with none, and with an end alone.
pub const EACH_SHAPE: [u32; 4] = [0, 1, 3, 6];

impl ShortLists {
    pub const fn of(
        keys: &'static [usize],
        codes: &'static [u32],
        items: usize,
        wrappers: u32,
    ) -> Self {
        Self {
            keys,
            codes,
            items,
            wrappers,
        }
    }

    /// The words of each, over all keys.
    fn all(&self, keys: &[[u32; 2]]) -> Vec<Vec<u32>> {
        let keys: Vec<[u32; 2]> = self.keys.iter().map(|at| keys[*at]).collect();
        let mut items = wrapped_items(&keys, self.wrappers);
        items.retain(|item| self.codes.contains(&item[0]));
        let lists = lists_of(&items, self.items, |_| true);
        lists.iter().map(|list| list.concat()).collect()
    }
}

/// A small pool, and keys in it: three at two places each, which overlap, one that has the same bytes in another order, and the empty one at
/// the front, between and at the end.
fn equal_keys() -> (Vec<u8>, [[u32; 2]; 10]) {
    let keys = [
        [0, 1],
        [2, 1],
        [0, 2],
        [2, 2],
        [1, 2],
        [0, 3],
        [2, 3],
        [0, 0],
        [3, 0],
        [5, 0],
    ];
    (vec![0x05, 0x07, 0x05, 0x07, 0x05], keys)
}

impl All {
    /// Every two of the lists.
    fn short_lists(&mut self, lists: &ShortLists) {
        let (pool, keys) = equal_keys();
        let (lists, news) = (lists.all(&keys), plain_items(&keys));
        for ours in &lists {
            for theirs in &lists {
                let two = Two {
                    pool: &pool,
                    ours,
                    theirs,
                };
                self.held_and_laws(&two, news[self.calls % news.len()]);
            }
        }
    }

    /// Every fault of ours beside every fault of theirs, in pools at the limit, and fresh ones with room, without any, and over the limit.
    fn faults(&mut self) {
        let lists = bad_lists();
        for pool in &counting_pools() {
            for ours in &lists {
                for theirs in &lists {
                    let two = Two { pool, ours, theirs };
                    // of the longer lists less is tried
                    let rooms: &[usize] = match ours.len() < 12 && theirs.len() < 12 {
                        true => &[65_535, 65_536, 65_537],
                        false => &[],
                    };
                    self.held(&two, rooms);
                }
            }
        }
    }

    /// Every fault of an item at the first, the second and later places of a list, up to the last that a list has, in ours, theirs and both.
    fn late_faults(&mut self) {
        let [_, pool, _] = &counting_pools();
        for bad in bad_items() {
            for at in [0, 1, 4, 2_046, 2_047] {
                let mut list = vec![[2, 1, 7, 1, 8, 2]; at + 1];
                list[at] = bad;
                let list = list.concat();
                for [ours, theirs] in [[&list[..], &[]], [&[], &list], [&list, &list]] {
                    self.held(&Two { pool, ours, theirs }, &[]);
                }
            }
        }
    }

    /// Items with keys at the limits of length, at the front of a pool, at its end and one byte past that, in ours and in theirs.
    fn keys_at_limits(&mut self) {
        for pool in &even_pools() {
            for item in plain_items(&limit_keys(pool, 1)) {
                for [ours, theirs] in [[&item[..], &[]], [&[], &item[..]], [&item, &item]] {
                    self.held(&Two { pool, ours, theirs }, &[]);
                }
            }
        }
    }

    /// None, one, and items at the limit against each of these, all of whose keys differ, in pools at the limit.
    fn items_at_limits(&mut self, size: &Size) {
        for pool in &counting_pools() {
            for x in counts(size) {
                for y in counts(size) {
                    let [ours, theirs] = half_meeting(x, y).map(|list| list.concat());
                    let (ours, theirs) = (&ours[..], &theirs[..]);
                    self.held(&Two { pool, ours, theirs }, &[65_536]);
                }
            }
        }
    }

    /// Keys that fill the largest fresh pool, and some more than fit: as many as there can be of eight bytes, and of the longest.
    fn full_pools(&mut self) {
        for (length, counts) in [
            (8, &[8_192][..]),
            (9, &[7_280, 7_284]),
            (254, &[256, 260]),
            (255, &[256, 260, 8_192]),
        ] {
            let (pool, keys) = alike_keys(length, 8_192);
            for count in counts {
                let ranges = |keys: &[[u32; 2]]| -> Vec<u32> {
                    let range =
                        |ends: &[[u32; 2]]| [1, 0, ends[0][0], ends[0][1], ends[1][0], ends[1][1]];
                    keys.chunks_exact(2).flat_map(range).collect()
                };
                let [ours, theirs] = [&keys[..count / 2], &keys[count / 2..*count]].map(ranges);
                let two = Two {
                    pool: &pool,
                    ours: &ours,
                    theirs: &theirs,
                };
                self.held(&two, &[65_535, 65_536]);
            }
        }
    }

    /// Lists of any items, upright or not and in no order; keys are up to 255 bytes long, and many are equal. Some are damaged.
    fn any_items(&mut self, random: &mut Random, most: usize) {
        let pool = Pool::new(random);
        let [ours, theirs] = [(); 2].map(|()| {
            let count = random.below(most + 1);
            let list: Vec<Words> = (0..count).map(|_| pool.item(random)).collect();
            damaged(random, list, &pool.bytes)
        });
        let two = Two {
            pool: &pool.bytes,
            ours: &ours,
            theirs: &theirs,
        };
        self.held_and_laws(&two, pool.item(random));
    }

    /// Lists that the algebra accepts, or an insertion; some are out of order or damaged.
    fn accepted_lists(&mut self, random: &mut Random, most: usize) {
        let keys = Keys::new(random, most);
        let [ours, theirs] = [(); 2].map(|()| {
            let mut list = match random.below(2) {
                0 => keys.list(random, most),
                _ => keys.insertion_list(random, most),
            };
            if random.below(8) == 0 {
                disorder(random, &mut list);
            }
            damaged(random, list, &keys.pool)
        });
        let wrapper = random.one_of(&[0, 0, 1, 3]);
        let two = Two {
            pool: &keys.pool,
            ours: &ours,
            theirs: &theirs,
        };
        self.held_and_laws(&two, keys.item(random, wrapper));
    }

    /// So many items a list, whose keys are any parts of many bytes: short ones, most of which differ, and long ones, of which there are few,
    /// or more than fit.
    fn long_lists(&mut self, random: &mut Random, count: usize) {
        for (longest, places) in LONG_KEYS {
            let (pool, _) = early_keys(random, 8, 1);
            let [ours, theirs] = [(); 2].map(|()| -> Vec<u32> {
                let mut item = |at| some_item(random, at, longest, places);
                (0..count).flat_map(&mut item).collect()
            });
            let two = Two {
                pool: &pool,
                ours: &ours,
                theirs: &theirs,
            };
            self.held_and_laws(&two, [2, 0, 0, 1, 8, 1]);
        }
    }

    /// Two lists in fresh pools of every size that makes a difference, exactly full, a byte short and some to spare, every fourth two in none at
    /// all, and in others.
    /// Tells what is collected, of lists that are accepted.
    fn held(&mut self, two: &Two, rooms: &[usize]) -> Option<Collected> {
        self.inputs += 1;
        let collected = Collected::new(two.pool, two.ours, two.theirs);
        let needed = collected.as_ref().map_or(0, |it| it.packed.len());
        let mut all = vec![
            needed,
            needed.saturating_sub(1),
            needed + 1 + self.inputs % 9,
        ];
        if self.inputs % 4 == 0 {
            all.push(0);
        }
        all.extend(rooms);
        all.sort();
        all.dedup();
        for room in all {
            self.held_in(two, collected.as_ref().map_err(|refusal| *refusal), room);
        }
        collected.ok()
    }

    /// A call held against what it is to leave: the fresh pool, every word of both lists, and the number's place.
    fn held_in(&mut self, two: &Two, collected: Checked<&Collected>, room: usize) {
        let lent = self.lent(two, room);
        let answer = paper(two.pool, &lent, collected);
        self.collect.hold_paper(
            || format!("{}, {room} bytes lent", two.told()),
            lent,
            |left| left.call(two.pool),
            answer,
        );
    }

    /// A fresh pool of so many bytes, and the lists. In it stand marks, or zeros, or what stands in the old one.
    fn lent(&mut self, two: &Two, room: usize) -> Lent {
        self.calls += 1;
        let mark = |at: usize| match self.calls / 3 % 3 {
            0 => 0xC0 + (at % 16) as u8,
            1 => 0,
            _ => *two.pool.get(at).unwrap_or(&0xA0),
        };
        Lent {
            fresh: (0..room).map(mark).collect(),
            ours: two.ours.to_vec(),
            theirs: two.theirs.to_vec(),
            used: WIDE_MARK,
        }
    }

    /// The same, and what our calls say of one another before and after.
    fn held_and_laws(&mut self, two: &Two, new: Words) {
        let Some(collected) = self.held(two, &[]) else {
            return;
        };
        let mut left = self.lent(two, collected.packed.len() + self.inputs % 5);
        if left.call(two.pool) == 0 {
            self.laws(two, &left, new);
        }
    }

    /// Two lists before and after: each item shows the same and is checked the same, the three lists show the same where the two are accepted,
    /// and an insertion shows the same, or is refused alike. Collected again, nothing changes.
    fn laws(&mut self, two: &Two, left: &Lent, new: Words) {
        let input = || two.told();
        let after = Two {
            pool: left.packed(),
            ours: &left.ours,
            theirs: &left.theirs,
        };
        self.shows
            .hold(input, Against::paper(after.shown(), two.shown()));
        self.collected_again(two, left);
        self.checks
            .hold(input, Against::paper(after.checked(), two.checked()));
        if let Some(three) = two.three() {
            self.three
                .hold(input, Against::paper(after.three(), Some(three)));
        }
        self.inserted_after(two, &after, new);
    }
}

impl All {
    /// What is collected, collected again into a fresh pool of marks: the same bytes and words, and the marks behind them stay.
    fn collected_again(&mut self, two: &Two, left: &Lent) {
        let spare = [0xE1, 0xE2, 0xE3];
        let mut again = left.clone();
        again.used = WIDE_MARK;
        again.fresh = [&vec![0xE0; left.packed().len()], &spare[..self.inputs % 4]].concat();
        let expected = Lent {
            fresh: [left.packed(), &spare[..self.inputs % 4]].concat(),
            ..left.clone()
        };
        let returned = again.call(&left.fresh);
        self.again.hold(
            || two.told(),
            Against::paper((returned, again), (0, expected)),
        );
    }

    /// An insertion into a list, ours or theirs, before and after, where it is accepted before: and refused alike, where it is not.
    fn inserted_after(&mut self, two: &Two, after: &Two, new: Words) {
        let (pool, item) = appended(after.pool, new, two.pool);
        for (before, now) in [(two.ours, after.ours), (two.theirs, after.theirs)] {
            let told = || format!("{new:?} into {before:?} of {}", two.told());
            let answers = [inserted(&pool, now, item), inserted(two.pool, before, new)];
            let [now, before] = answers;
            self.inserted.hold(told, Against::paper(now, before));
        }
    }
}

impl Two<'_> {
    fn told(&self) -> String {
        let Self { pool, ours, theirs } = self;
        format!("{ours:?} and {theirs:?} in {}", hexadecimal(pool))
    }

    fn shown(&self) -> [Vec<Option<Shown>>; 2] {
        [self.ours, self.theirs].map(|list| shown(list, self.pool))
    }

    fn checked(&self) -> [u64; 2] {
        let Self { pool, ours, theirs } = self;
        [
            fernsponge::check_list(pool, ours, false),
            fernsponge::check_list(pool, theirs, true),
        ]
    }

    /// What our call shows of the three lists, where it accepts the two.
    fn three(&self) -> Option<[Vec<Option<Shown>>; 3]> {
        let room = [self.ours.len() + self.theirs.len(); 3];
        let left = many::call(self.pool, self.ours, self.theirs, room);
        let show = |at| shown(left.list(at), self.pool);
        (left.returned == 0).then(|| [0, 1, 2].map(show))
    }
}

/// What our call shows of a list after an insertion, or what it refuses.
fn inserted(pool: &[u8], list: &[u32], item: Words) -> Result<Vec<Option<Shown>>, u64> {
    let left = Left::new(list, 6).call(pool, list.len() / 6, item);
    let written = left.words.get(..6 * left.after as usize);
    match left.returned {
        0 => Ok(shown(written.unwrap_or(&[]), pool)),
        refused => Err(refused),
    }
}

/// An item whose keys are put behind the packed ones, and the pool with them.
fn appended(packed: &[u8], item: Words, pool: &[u8]) -> (Vec<u8>, Words) {
    let [code, wrapper, ..] = item;
    let (start, end) = keys(item, pool);
    let mut words = [code, wrapper, 0, 0, 0, 0];
    if has_start(code) {
        [words[2], words[3]] = [packed.len(), start.len()].map(|word| word as u32);
    }
    if has_end(code) {
        [words[4], words[5]] = [packed.len() + start.len(), end.len()].map(|word| word as u32);
    }
    ([packed, start, end].concat(), words)
}

/// The most bytes of a key, and so many places at which keys start.
const LONG_KEYS: [(usize, usize); 6] = [
    (3, 60_000),
    (8, 60_000),
    (15, 8_192),
    (255, 64),
    (255, 300),
    (255, 1_000),
];

/// An item of a long list: most have both keys, of every eight one has a start alone, one an end alone, and one neither.
fn some_item(random: &mut Random, at: usize, longest: usize, places: usize) -> Words {
    let [[a, b], [c, d]] = [(); 2].map(|()| {
        let offset = random.below(places);
        // mostly those of one place are equal
        let length = match random.below(64) {
            0 => random.below(longest + 1),
            _ => 7 * offset % (longest + 1),
        };
        [offset as u32, length as u32]
    });
    match at % 8 {
        0 => [0, 2, a, b, 0, 0],
        1 => [6, 0, 0, 0, c, d],
        2 => [3, 0, 0, 0, 0, 0],
        _ => [[1, 2, 8, 9][at % 4], 0, a, b, c, d],
    }
}

/// The words of a list; one list in eight is damaged.
fn damaged(random: &mut Random, list: Vec<Words>, pool: &[u8]) -> Vec<u32> {
    let mut words = list.concat();
    if random.below(8) == 0 {
        damage(random, &mut words, pool);
    }
    words
}
