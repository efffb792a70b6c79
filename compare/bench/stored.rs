//! Stored lists: covers and uncovers by chance, beside the reference, and the check of the whole list that is in each of our calls.

use crate::{
    pairs::Pairs,
    timing::{least, prepared},
};
use compare::{
    fernsponge,
    random::Random,
    stored::{Change, Rows, Stored, CHANGES},
    SEED,
};
use std::{array::from_fn, hint::black_box};

/// So many changes are timed together.
pub const CHANGED: usize = 1_000;

/// So many sequences of them take turns: of one alone, again and again, the processor would learn its branches.
const SEQUENCES: usize = 16;

/// What is left without the check is the difference of two long times: so many times the runs of other rows.
const TURNS: usize = 4;

/// The rows from one interval to the next, of which about half are covered.
const STEP: u64 = 100;

/// How wide ranges are.
#[derive(Clone, Copy, PartialEq)]
pub enum Width {
    Short,
    Step,
    Wide,
}

impl Width {
    pub fn name(self) -> &'static str {
        match self {
            Self::Short => "1 to 8 rows",
            Self::Step => "50 to 150 rows",
            Self::Wide => "500 to 1,500 rows",
        }
    }

    fn rows(self, random: &mut Random) -> u64 {
        match self {
            Self::Short => 1 + random.next() % 8,
            Self::Step => 50 + random.next() % 101,
            Self::Wide => 500 + random.next() % 1_001,
        }
    }
}

/// The least times of so many changes of lists of so many pairs, in nanoseconds.
pub struct Changed {
    pub pairs: usize,
    pub width: Width,
    pub ours: f64,
    /// our check alone, as often as it is in them
    pub check: f64,
    pub by_hand: f64,
}

impl Changed {
    pub fn least(&mut self, other: Self) {
        self.ours = self.ours.min(other.ours);
        self.check = self.check.min(other.check);
        self.by_hand = self.by_hand.min(other.by_hand);
    }

    pub fn unchecked(&self) -> f64 {
        self.ours - self.check
    }

    pub fn ratio(&self) -> f64 {
        self.unchecked() / self.by_hand
    }
}

pub fn run() -> Vec<Changed> {
    let rows = [
        (200, Width::Step),
        (2_000, Width::Short),
        (2_000, Width::Step),
        (2_000, Width::Wide),
        (20_000, Width::Step),
    ];
    rows.map(|(pairs, width)| timed(pairs, width)).into()
}

/// The changes of one list, one after the other.
type Changes = Vec<(Change, Rows)>;

/// A list of so many pairs, with a buffer that has room for the changes of one list: a hundredth of its pairs, so that it stays about as long.
fn stored(random: &mut Random, pairs: usize) -> Stored {
    let pair = |at| {
        let start = STEP * at + random.next() % 25;
        [start, start + 38 + random.next() % 25]
    };
    let list: Vec<u64> = (0..pairs as u64).flat_map(pair).collect();
    Stored::new(&list, list.len() + 2 * (pairs / 100), |_| 0)
}

/// So many changes in all, of as many lists as that takes.
fn sequence(random: &mut Random, pairs: usize, width: Width) -> Vec<Changes> {
    let mut change = || {
        let start = random.next() % (STEP * pairs as u64);
        let rows = [start, start + width.rows(random)];
        (random.one_of(&CHANGES), rows)
    };
    let of_a_list = pairs / 100;
    let mut changes = || (0..of_a_list).map(|_| change()).collect();
    (0..CHANGED / of_a_list).map(|_| changes()).collect()
}

fn timed(pairs: usize, width: Width) -> Changed {
    let random = &mut Random::new(SEED);
    let stored = stored(random, pairs);
    let by_hand = Pairs::new(stored.list(), stored.total);
    let sequences: Vec<Vec<Changes>> = (0..SEQUENCES)
        .map(|_| sequence(random, pairs, width))
        .collect();
    for changes in sequences.iter().flatten() {
        hold(&stored, &by_hand, changes);
    }
    let turns: [_; TURNS] = from_fn(|_| turn(&stored, &by_hand, &sequences));
    let [ours, check, by_hand] = [0, 1, 2].map(|at| {
        let times = turns.iter().map(|turn| turn[at]);
        times.fold(f64::MAX, f64::min)
    });
    Changed {
        pairs,
        width,
        ours,
        check,
        by_hand,
    }
}

/// The least times of ours, of the check alone and of the reference, of one sequence after the other.
fn turn(stored: &Stored, by_hand: &Pairs, sequences: &[Vec<Changes>]) -> [f64; 3] {
    let halfway: Vec<Vec<Checks>> = sequences.iter().map(|it| checks(stored, it)).collect();
    let [mut a, mut b] = [(); 2].map(|()| sequences.iter().cycle());
    let mut c = halfway.iter().cycle();
    least([
        prepared(
            || copies(stored, a.next()),
            |lists| lists.iter_mut().for_each(|(it, of)| change_all(it, of)),
        ),
        prepared(
            || c.next().cloned(),
            |lists| lists.iter().flatten().for_each(check_all),
        ),
        prepared(
            || copies(by_hand, b.next()),
            |lists| lists.iter_mut().for_each(|(it, of)| change_by_hand(it, of)),
        ),
    ])
}

/// A list for each of the changes of a sequence.
fn copies<'a, T: Clone>(list: &T, sequence: Option<&'a Vec<Changes>>) -> Vec<(T, &'a Changes)> {
    let changes = sequence.into_iter().flatten();
    changes.map(|changes| (list.clone(), changes)).collect()
}

/// A list, and how often it is checked.
type Checks = (Stored, usize);

/// The lists after half of their changes: on the average as long as they are when our calls check them.
fn checks(stored: &Stored, sequence: &[Changes]) -> Vec<Checks> {
    let half = |changes: &Changes| {
        let mut stored = stored.clone();
        change_all(&mut stored, &changes[..changes.len() / 2]);
        (stored, changes.len())
    };
    sequence.iter().map(half).collect()
}

fn check_all((stored, count): &Checks) {
    for _ in 0..*count {
        let (words, mut rows) = (black_box(&stored.words), 0);
        let _ = fernsponge::stored_total(words, stored.pairs, stored.total, &mut rows);
        black_box(rows);
    }
}

fn change_all(stored: &mut Stored, changes: &[(Change, Rows)]) {
    for &(change, [start, end]) in changes {
        let (words, pairs, total) = (&mut stored.words, stored.pairs, stored.total);
        let (mut new_pairs, mut new) = (0, 0);
        let returned = match change {
            Change::Cover => {
                fernsponge::cover(words, pairs, total, start, end, &mut new_pairs, &mut new)
            }
            Change::Uncover => {
                fernsponge::uncover(words, pairs, total, start, end, &mut new_pairs, &mut new)
            }
        };
        assert_eq!(returned, 0, "there is room");
        (stored.pairs, stored.total) = (new_pairs as usize, new);
    }
}

fn change_by_hand(pairs: &mut Pairs, changes: &[(Change, Rows)]) {
    for (change, rows) in changes {
        pairs.change(*change, *rows);
    }
}

/// Both sides end with the same list, which is about as long as before.
fn hold(stored: &Stored, by_hand: &Pairs, changes: &[(Change, Rows)]) {
    let (mut ours, mut pairs) = (stored.clone(), by_hand.clone());
    change_all(&mut ours, changes);
    change_by_hand(&mut pairs, changes);
    let list = pairs.pairs.iter().flat_map(|pair| [pair.0, pair.1]);
    let list: Vec<u64> = list.collect();
    assert_eq!((ours.list(), ours.total), (&list[..], pairs.total));
    let (before, after) = (stored.pairs, ours.pairs);
    assert!(after * 20 > before * 17 && after * 20 < before * 23);
}
