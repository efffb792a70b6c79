//! The three lists: ranges over ascending keys, as many of ours as of theirs.

use crate::{
    sweep,
    timing::{calls, least, prepared},
};
use compare::{
    algebra::rust::keyed,
    earlier::{Call, CALLS},
    fernsponge,
    inputs::{alike_keys, damage, disorder, early_keys, Keys},
    items::{read, Words},
    random::Random,
    QueryItem, SEED,
};
use std::{array::from_fn, hint::black_box};

pub const LENGTHS: [usize; 3] = [8, 32, 200];
pub const SIZES: [usize; 8] = [16, 32, 64, 128, 256, 512, 1_024, 2_048];

#[derive(Clone, Copy, PartialEq)]
pub enum Arrangement {
    Disjoint,
    Interleaved,
    HalfOverlapping,
}

pub const ARRANGEMENTS: [Arrangement; 3] = [
    Arrangement::Disjoint,
    Arrangement::Interleaved,
    Arrangement::HalfOverlapping,
];

impl Arrangement {
    pub fn name(self) -> &'static str {
        match self {
            Self::Disjoint => "disjoint",
            Self::Interleaved => "interleaved",
            Self::HalfOverlapping => "half-overlapping",
        }
    }

    /// The keys, by their numbers, from and to which the item at an index of `count` goes: of ours, and of theirs. Every key is used once.
    fn ends(self, count: usize, at: usize) -> [[usize; 2]; 2] {
        match self {
            Self::Disjoint => {
                let theirs = 2 * (count + at);
                [[2 * at, 2 * at + 1], [theirs, theirs + 1]]
            }
            Self::Interleaved => [[4 * at, 4 * at + 1], [4 * at + 2, 4 * at + 3]],
            Self::HalfOverlapping => [[4 * at, 4 * at + 2], [4 * at + 1, 4 * at + 3]],
        }
    }
}

/// The least times of one call on lists of so many items, in nanoseconds.
pub struct Timed {
    pub length: usize,
    /// the keys all begin alike; else they differ in their first bytes
    pub alike: bool,
    pub arrangement: Arrangement,
    pub items: usize,
    pub ours: f64,
    pub rust: f64,
    pub trusting: f64,
    pub checking: f64,
}

pub fn run(sizes: &[usize]) -> Vec<Timed> {
    hold_sweep();
    let mut all = vec![];
    for length in LENGTHS {
        for arrangement in ARRANGEMENTS {
            for &items in sizes {
                all.push(timed(length, true, arrangement, items));
            }
        }
    }
    for length in LENGTHS {
        for arrangement in ARRANGEMENTS {
            let longest = sizes.iter().max();
            all.extend(longest.map(|items| timed(length, false, arrangement, *items)));
        }
    }
    all
}

/// Two lists of items of one kind.
fn two_lists(
    arrangement: Arrangement,
    items: usize,
    kind: u32,
    keys: &[[u32; 2]],
) -> [Vec<u32>; 2] {
    [0, 1].map(|side| {
        let item = |at| {
            let [from, to] = arrangement.ends(items, at)[side].map(|end| keys[end]);
            [kind, 0, from[0], from[1], to[0], to[1]]
        };
        (0..items).flat_map(item).collect()
    })
}

/// The least times of one call on lists of so many items of a kind, ours and an earlier library's, in nanoseconds.
pub struct Earlier {
    pub length: usize,
    pub arrangement: Arrangement,
    pub kind: &'static str,
    pub items: usize,
    pub ours: f64,
    pub earlier: f64,
}

/// A few hundredths are looked for beside an earlier library: so many times the runs of other rows.
const TURNS: usize = 8;

/// Ours beside an earlier library, where there is one: items that hold their start, and items open at both ends.
pub fn beside_earlier(items: usize) -> Vec<Earlier> {
    let Some([ours, earlier]) = CALLS else {
        return vec![];
    };
    let mut all = vec![];
    for length in LENGTHS {
        for arrangement in ARRANGEMENTS {
            for (code, kind) in [(1, "Range"), (2, "RangeInclusive"), (8, "RangeAfterTo")] {
                let (pool, keys) = alike_keys(length, 4 * items);
                let [x, y] = &two_lists(arrangement, items, code, &keys);
                let pool = &pool;
                hold_both([ours, earlier], pool, x, y);
                let side = |call: Call| {
                    let mut lent = Lent::new(x, y);
                    calls(move || {
                        let (words, counts) = lent.lend();
                        call(black_box(pool), x, y, words, counts)
                    })
                };
                let turns: [_; TURNS] = from_fn(|_| least([side(ours), side(earlier)]));
                let [ours, earlier] = [0, 1].map(|at| {
                    turns
                        .map(|turn| turn[at])
                        .into_iter()
                        .fold(f64::MAX, f64::min)
                });
                all.push(Earlier {
                    length,
                    arrangement,
                    kind,
                    items,
                    ours,
                    earlier,
                });
            }
        }
    }
    all
}

/// Both libraries answer, and leave the same.
fn hold_both(both: [Call; 2], pool: &[u8], ours: &[u32], theirs: &[u32]) {
    let [one, other] = both.map(|call| {
        let mut lent = Lent::new(ours, theirs);
        let (words, counts) = lent.lend();
        assert_eq!(call(pool, ours, theirs, words, counts), 0);
        lent
    });
    assert_eq!(one, other, "{ours:?} and {theirs:?}");
}

fn timed(length: usize, alike: bool, arrangement: Arrangement, items: usize) -> Timed {
    let (pool, keys) = match alike {
        true => alike_keys(length, 4 * items),
        false => early_keys(&mut Random::new(SEED), length, 4 * items),
    };
    let [ours, theirs] = two_lists(arrangement, items, 1, &keys);
    hold(&pool, &ours, &theirs);
    let [our_items, their_items] = [&ours, &theirs].map(|words| read_all(words, &pool));
    if items <= MOST_HELD {
        hold_rust(&pool, [&ours, &theirs], [&our_items, &their_items]);
    }
    let (pool, ours, theirs) = (&pool[..], &ours[..], &theirs[..]);
    let [mut a, mut b, mut c] = [(); 3].map(|()| Lent::new(ours, theirs));
    let [ours, trusting, checking, rust] = least([
        calls(move || {
            let (words, counts) = a.lend();
            fernsponge::intersect_many(black_box(pool), ours, theirs, words, counts)
        }),
        calls(move || {
            let (words, counts) = b.lend();
            sweep::trusting(black_box(pool), ours, theirs, words, counts)
        }),
        calls(move || {
            let (words, counts) = c.lend();
            sweep::checking(black_box(pool), ours, theirs, words, counts)
        }),
        prepared(
            || (our_items.clone(), Some(their_items.clone())),
            |(ours, theirs)| {
                QueryItem::intersect_many_ordered(ours, theirs.take().unwrap_or_default())
            },
        ),
    ]);
    Timed {
        length,
        alike,
        arrangement,
        items,
        ours,
        rust,
        trusting,
        checking,
    }
}

/// Buffers with room for as many items as both lists have, which is always enough.
#[derive(Clone, Debug, PartialEq)]
struct Lent {
    words: [Vec<u32>; 3],
    counts: [u64; 3],
}

impl Lent {
    fn new(ours: &[u32], theirs: &[u32]) -> Self {
        Self {
            words: [(); 3].map(|()| vec![0; ours.len() + theirs.len()]),
            counts: [0; 3],
        }
    }

    fn lend(&mut self) -> ([&mut [u32]; 3], &mut [u64; 3]) {
        (
            self.words.each_mut().map(|words| &mut words[..]),
            &mut self.counts,
        )
    }
}

/// Of lists up to this the original's answer is held against ours before it is timed.
const MOST_HELD: usize = 128;

fn read_all(words: &[u32], pool: &[u8]) -> Vec<QueryItem> {
    words
        .chunks(6)
        .filter_map(|item| read(item, pool))
        .collect()
}

/// The original shares, and leaves of ours, what our call does, but for what holds no key (D19). Its theirs-only is another list (D8).
fn hold_rust(pool: &[u8], [ours, theirs]: [&[u32]; 2], items: [&[QueryItem]; 2]) {
    let mut lent = Lent::new(ours, theirs);
    let (words, counts) = lent.lend();
    let _ = fernsponge::intersect_many(pool, ours, theirs, words, counts);
    let [shared, only, _] = [0, 1, 2].map(|at| {
        let words = 6 * lent.counts[at] as usize;
        read_all(&lent.words[at][..words], pool)
    });
    let rust = QueryItem::intersect_many_ordered(&mut items[0].to_vec(), items[1].to_vec());
    let rust = [rust.in_both, rust.ours].map(|list| keyed(&list.unwrap_or_default()));
    assert_eq!([shared, only], rust, "{ours:?} and {theirs:?}");
}

/// The reference leaves what our call leaves: on random lists, accepted and damaged, with room and without.
fn hold_sweep() {
    let random = &mut Random::new(SEED);
    for _ in 0..20_000 {
        let most = 1 + random.below(30);
        let keys = Keys::new(random, most);
        let [ours, theirs] = [(); 2].map(|()| {
            let mut list: Vec<Words> = keys.list(random, most);
            let often = random.below(4);
            if often == 0 {
                disorder(random, &mut list);
            }
            let mut words = list.concat();
            if often == 1 {
                damage(random, &mut words, &keys.pool);
            }
            words
        });
        hold(&keys.pool, &ours, &theirs);
        let mut room = Lent::new(&ours, &theirs);
        room.words = [(); 3].map(|()| vec![7; random.below(6 * most + 2)]);
        hold_in(&keys.pool, &ours, &theirs, &room);
    }
}

/// The reference leaves what our call leaves, with room.
fn hold(pool: &[u8], ours: &[u32], theirs: &[u32]) {
    let lent = Lent::new(ours, theirs);
    if hold_in(pool, ours, theirs, &lent) == 0 {
        let (mut one, mut other) = (lent.clone(), lent);
        let (words, counts) = one.lend();
        let _ = fernsponge::intersect_many(pool, ours, theirs, words, counts);
        let (words, counts) = other.lend();
        sweep::trusting(pool, ours, theirs, words, counts);
        assert_eq!(one, other, "the trusting sweep on {ours:?} and {theirs:?}");
    }
}

fn hold_in(pool: &[u8], ours: &[u32], theirs: &[u32], lent: &Lent) -> u64 {
    let (mut one, mut other) = (lent.clone(), lent.clone());
    let (words, counts) = one.lend();
    let returned = fernsponge::intersect_many(pool, ours, theirs, words, counts);
    // the copy of ours that an earlier library is timed beside is no other library
    if let Some([copied, _]) = CALLS {
        let mut copy = lent.clone();
        let (words, counts) = copy.lend();
        let again = copied(pool, ours, theirs, words, counts);
        assert_eq!((returned, &one), (again, &copy), "the copy of ours");
    }
    let (words, counts) = other.lend();
    let swept = sweep::checking(pool, ours, theirs, words, counts);
    assert_eq!(
        (returned, one),
        (swept, other),
        "the checking sweep on {ours:?} and {theirs:?}"
    );
    returned
}
