//! Collecting the pool: two lists that name so many keys together, in several orders, beside the reference.

use crate::{
    hashed,
    timing::{least, prepared},
};
use compare::{fernsponge, inputs::early_keys, random::Random, SEED};
use std::hint::black_box;

/// The bytes of a key.
pub const LENGTH: usize = 8;

/// The keys that two lists name together: at the limit they fill a pool.
const SIZES: [usize; 4] = [1_024, 2_048, 4_096, 8_192];

/// So many keys differ where most are equal.
pub const FEW: usize = 64;

/// The order in which keys are first used.
#[derive(Clone, Copy, PartialEq)]
pub enum Order {
    Ascending,
    TakingTurns,
    Mixed,
    Descending,
    Few,
}

const ORDERS: [Order; 5] = [
    Order::Ascending,
    Order::TakingTurns,
    Order::Mixed,
    Order::Descending,
    Order::Few,
];

impl Order {
    pub fn name(self) -> &'static str {
        match self {
            Self::Ascending => "ascending",
            Self::TakingTurns => "ascending in each list, in turns",
            Self::Mixed => "mixed",
            Self::Descending => "descending",
            Self::Few => "few differ",
        }
    }

    /// The numbers of the keys as the lists name them, of so many: ours have the first half.
    fn numbers(self, count: usize) -> Vec<usize> {
        let random = &mut Random::new(SEED);
        match self {
            Self::Ascending => (0..count).collect(),
            Self::TakingTurns => {
                let side = |theirs: usize| (0..count / 2).map(move |at| 2 * at + theirs);
                side(0).chain(side(1)).collect()
            }
            Self::Mixed => {
                let mut numbers: Vec<usize> = (0..count).collect();
                for at in 1..count {
                    numbers.swap(at, random.below(at + 1));
                }
                numbers
            }
            Self::Descending => (0..count).rev().collect(),
            Self::Few => (0..count).map(|_| random.below(FEW)).collect(),
        }
    }
}

/// The least times of one call on lists that name so many keys, in nanoseconds.
pub struct Packed {
    pub order: Order,
    pub keys: usize,
    pub ours: f64,
    pub hashed: f64,
}

impl Packed {
    pub fn least(&mut self, other: Self) {
        self.ours = self.ours.min(other.ours);
        self.hashed = self.hashed.min(other.hashed);
    }

    pub fn ratio(&self) -> f64 {
        self.ours / self.hashed
    }
}

pub fn run() -> Vec<Packed> {
    let mut all = vec![];
    for order in ORDERS {
        for keys in SIZES {
            all.push(timed(order, keys));
        }
    }
    all
}

/// What is lent for writing.
#[derive(Clone, Debug, PartialEq)]
struct Lent {
    fresh: Vec<u8>,
    ours: Vec<u32>,
    theirs: Vec<u32>,
}

/// Two lists of ranges over so many ascending keys, and a fresh pool of so many bytes.
fn lent(order: Order, keys: &[[u32; 2]], room: usize) -> Lent {
    let words = |numbers: &[usize]| -> Vec<u32> {
        let range = |ends: &[usize]| {
            let [from, to] = [keys[ends[0]], keys[ends[1]]];
            [1, 0, from[0], from[1], to[0], to[1]]
        };
        numbers.chunks_exact(2).flat_map(range).collect()
    };
    let numbers = order.numbers(keys.len());
    let (ours, theirs) = numbers.split_at(keys.len() / 2);
    Lent {
        fresh: vec![0; room],
        ours: words(ours),
        theirs: words(theirs),
    }
}

fn timed(order: Order, count: usize) -> Packed {
    let (pool, keys) = &early_keys(&mut Random::new(SEED), LENGTH, count);
    assert_eq!(keys.len(), count, "there are so many keys");
    let lists = &lent(order, keys, LENGTH * count);
    hold(pool, lists);
    let [ours, hashed] = least([
        prepared(
            || lists.clone(),
            |lent| ours(black_box(pool), black_box(lent)),
        ),
        prepared(
            || lists.clone(),
            |lent| by_hash(black_box(pool), black_box(lent)),
        ),
    ]);
    Packed {
        order,
        keys: count,
        ours,
        hashed,
    }
}

fn ours(pool: &[u8], lent: &mut Lent) -> Option<usize> {
    let Lent {
        fresh,
        ours,
        theirs,
    } = lent;
    let mut used = 0;
    let returned = fernsponge::collect(pool, fresh, ours, theirs, &mut used);
    (returned == 0).then_some(used as usize)
}

fn by_hash(pool: &[u8], lent: &mut Lent) -> Option<usize> {
    hashed::collect(pool, &mut lent.fresh, &mut lent.ours, &mut lent.theirs)
}

/// Both sides leave the same: in the room that is timed, in just so much, and in a byte too little.
fn hold(pool: &[u8], lists: &Lent) {
    let needed = ours(pool, &mut lists.clone()).expect("there is room");
    for room in [lists.fresh.len(), needed, needed - 1] {
        let fresh = vec![0xFE; room];
        let [mut one, mut other] = [(); 2].map(|()| Lent {
            fresh: fresh.clone(),
            ..lists.clone()
        });
        let told = (ours(pool, &mut one), by_hash(pool, &mut other));
        assert_eq!(told.0, (room >= needed).then_some(needed));
        assert_eq!((told.0, one), (told.1, other));
    }
}
