//! The rate card: an invoice of 1,000 keys, the rate of one, and the search for one, beside the reference.

use crate::{
    card,
    lists::LENGTHS,
    timing::{calls, least},
};
use compare::{
    fernsponge::{self, Invoice},
    inputs::{alike_keys, early_keys, some_amount, SomeCard},
    random::Random,
    SEED,
};
use std::hint::black_box;

/// The keys of an invoice.
const ASKED: usize = 1_000;

/// So many invoices are asked in turn: of one alone, again and again, the processor would learn which way each comparison goes.
const INVOICES: usize = 64;

/// Our time of one call, and the reference's, in nanoseconds.
#[derive(Clone, Copy)]
pub struct Both {
    pub ours: f64,
    pub by_hand: f64,
}

impl Both {
    pub fn least(self, other: Self) -> Self {
        Self {
            ours: self.ours.min(other.ours),
            by_hand: self.by_hand.min(other.by_hand),
        }
    }

    pub fn ratio(self) -> f64 {
        self.ours / self.by_hand
    }
}

/// The least times of calls on a card of so many items.
pub struct Rated {
    pub length: usize,
    /// the keys all begin alike; else they differ in their first bytes
    pub alike: bool,
    pub kind: Kind,
    pub items: usize,
    pub invoice: Both,
    /// the same invoice in each call
    pub again: Both,
    /// an invoice of no keys: the check of the card
    pub none: Both,
    pub rate: Both,
    pub find: Both,
}

/// What the items of a card are.
#[derive(Clone, Copy, PartialEq)]
pub enum Kind {
    Ranges,
    Keys,
    TakingTurns,
}

pub const KINDS: [Kind; 3] = [Kind::Ranges, Kind::Keys, Kind::TakingTurns];

impl Kind {
    pub fn name(self) -> &'static str {
        match self {
            Self::Ranges => "ranges",
            Self::Keys => "keys",
            Self::TakingTurns => "both, in turns",
        }
    }

    fn is_range(self, at: usize) -> bool {
        match self {
            Self::Ranges => true,
            Self::Keys => false,
            Self::TakingTurns => at % 2 == 1,
        }
    }
}

pub fn run(items: usize) -> Vec<Rated> {
    hold_reference();
    let mut all = vec![];
    for alike in [true, false] {
        for length in LENGTHS {
            for kind in KINDS {
                all.push(timed(length, alike, kind, items));
            }
        }
    }
    all
}

/// A card, and keys that are asked of it.
struct Card {
    pool: Vec<u8>,
    words: Vec<u32>,
    amounts: Vec<i64>,
    invoices: Vec<Vec<u32>>,
}

/// A card of so many items, each of which has four of the keys in rising order: a range is from the first on, below the third, and a single key
/// is the first. The keys are asked by chance, half of them such that an item holds them.
fn card(length: usize, alike: bool, kind: Kind, items: usize) -> Card {
    let random = &mut Random::new(SEED);
    let (pool, keys) = match alike {
        true => alike_keys(length, 4 * items),
        false => early_keys(random, length, 4 * items),
    };
    let item = |at: usize| {
        let [from, below] = [keys[4 * at], keys[4 * at + 2]];
        match kind.is_range(at) {
            true => [1, 0, from[0], from[1], below[0], below[1]],
            false => [0, 0, from[0], from[1], 0, 0],
        }
    };
    let words = (0..items).flat_map(item).collect();
    let amounts = (0..items).map(|_| some_amount(random)).collect();
    let ask = |random: &mut Random, number: usize| {
        let at = random.below(items);
        let place = match (number < ASKED / 2, kind.is_range(at)) {
            (true, true) => random.below(2),
            (true, false) => 0,
            (false, _) => 2 + random.below(2),
        };
        keys[4 * at + place]
    };
    let mut invoices = vec![];
    for _ in 0..INVOICES {
        let mut asked: Vec<[u32; 2]> = (0..ASKED).map(|number| ask(random, number)).collect();
        for at in 1..ASKED {
            asked.swap(at, random.below(at + 1));
        }
        invoices.push(asked.concat());
    }
    Card {
        pool,
        words,
        amounts,
        invoices,
    }
}

fn timed(length: usize, alike: bool, kind: Kind, items: usize) -> Rated {
    let Card {
        pool,
        words,
        amounts,
        invoices,
    } = &card(length, alike, kind, items);
    let (pool, words, amounts) = (&pool[..], &words[..], &amounts[..]);
    for asked in invoices {
        let totals = hold_invoice(pool, words, amounts, asked);
        assert_eq!(totals.map(|totals| totals.without), Some(ASKED as u64 / 2));
    }
    let key = |key: &[u32]| &pool[key[0] as usize..][..key[1] as usize];
    let keys: Vec<&[u8]> = invoices[0].chunks_exact(2).map(key).collect();
    for key in &keys {
        hold_key(pool, words, amounts, key);
    }
    let [invoice, again, none] = [&invoices[..], &invoices[..1], &[vec![]]].map(|invoices| {
        let (mut a, mut b) = (turns(invoices), turns(invoices));
        let (mut one, mut other) = (Invoice::default(), Invoice::default());
        both(
            move || fernsponge::invoice(black_box(pool), words, amounts, a(), &mut one),
            move || card::invoice(black_box(pool), words, amounts, b(), &mut other),
        )
    });
    let (mut a, mut b) = (turns(&keys), turns(&keys));
    let ([mut has, mut had], [mut amount, mut other]) = ([0; 2], [0; 2]);
    let rate = both(
        move || fernsponge::rate(black_box(pool), words, amounts, a(), &mut has, &mut amount),
        move || card::rate(black_box(pool), words, amounts, b(), &mut had, &mut other),
    );
    let (mut a, mut b) = (turns(&keys), turns(&keys));
    let [mut one, mut two] = [[0; 2]; 2];
    let find = both(
        move || fernsponge::find_item(black_box(pool), words, a(), &mut one),
        move || card::find_item(black_box(pool), words, b(), &mut two),
    );
    Rated {
        length,
        alike,
        kind,
        items,
        invoice,
        again,
        none,
        rate,
        find,
    }
}

/// One after the other, and then from the first on again.
fn turns<'a, T>(all: &'a [T]) -> impl FnMut() -> &'a T + 'a {
    let mut all = all.iter().cycle();
    move || all.next().expect("there is one")
}

fn both<R, S>(ours: impl FnMut() -> R, by_hand: impl FnMut() -> S) -> Both {
    let [ours, by_hand] = least([calls(ours), calls(by_hand)]);
    Both { ours, by_hand }
}

/// The reference answers, refuses and leaves what our calls do: on random cards, accepted and damaged.
fn hold_reference() {
    let random = &mut Random::new(SEED);
    for _ in 0..20_000 {
        let most = 1 + random.below(30);
        let some = SomeCard::new(random, most);
        let pool = &some.keys.pool;
        hold_invoice(pool, &some.words, &some.amounts, &some.asked);
        let key = some.keys.near(random);
        hold_key(pool, &some.words, &some.amounts, &key);
    }
    for pool in [65_536, 65_537].map(|length| vec![0; length]) {
        hold_invoice(&pool, &[], &[], &[65_536, 0]);
        hold_key(&pool, &[], &[], &[]);
    }
    for amount in -1_000..=1_000 {
        assert_eq!(card::cents(amount), fernsponge::to_cents(amount));
    }
}

/// Tells the totals, where they are not refused.
fn hold_invoice(pool: &[u8], words: &[u32], amounts: &[i64], asked: &[u32]) -> Option<Invoice> {
    let lent = Invoice {
        sum: 7,
        without: 7,
        cents: 7,
    };
    let (mut one, mut other) = (lent, lent);
    let ours = fernsponge::invoice(pool, words, amounts, asked, &mut one);
    let by_hand = card::invoice(pool, words, amounts, asked, &mut other);
    assert_eq!(
        (ours, one),
        (by_hand, other),
        "an invoice of {asked:?}, items {words:?}, amounts {amounts:?}"
    );
    (ours == 0).then_some(one)
}

fn hold_key(pool: &[u8], words: &[u32], amounts: &[i64], key: &[u8]) {
    let ([mut has, mut had], [mut amount, mut other]) = ([7; 2], [7; 2]);
    let ours = fernsponge::rate(pool, words, amounts, key, &mut has, &mut amount);
    let by_hand = card::rate(pool, words, amounts, key, &mut had, &mut other);
    assert_eq!(
        (ours, has, amount),
        (by_hand, had, other),
        "the rate of {key:?}, items {words:?}, amounts {amounts:?}"
    );
    let [mut one, mut two] = [[7; 2]; 2];
    let ours = fernsponge::find_item(pool, words, key, &mut one);
    let by_hand = card::find_item(pool, words, key, &mut two);
    assert_eq!((ours, one), (by_hand, two), "{key:?} in {words:?}");
}
