//! What intervals are asked: membership beside a `partition_point`, and how many rows there are; each also by the call that checks its input.

use crate::timing::{calls, least};
use ::fernsponge::PositionIntervals;
use compare::{fernsponge, random::Random, SEED};
use std::{cell::Cell, hint::black_box, ops::Range};

/// So many positions are asked in turn: of a few, the processor would learn the branches.
const ASKED: usize = 4_096;

/// The rows from one interval to the next, of which half are covered.
const STEP: u64 = 100;

pub struct Asked {
    pub intervals: usize,
    pub contains: f64,
    pub partition_point: f64,
    pub contains_checking: f64,
    pub len: f64,
    pub len_checking: f64,
}

impl Asked {
    /// The lesser of two times, one by one.
    pub fn least(&mut self, other: Self) {
        self.contains = self.contains.min(other.contains);
        self.partition_point = self.partition_point.min(other.partition_point);
        self.contains_checking = self.contains_checking.min(other.contains_checking);
        self.len = self.len.min(other.len);
        self.len_checking = self.len_checking.min(other.len_checking);
    }
}

pub fn run() -> Vec<Asked> {
    [10, 2_000, 100_000].map(asked).into()
}

fn asked(intervals: usize) -> Asked {
    let ranges: Vec<Range<u64>> = (0..intervals as u64)
        .map(|at| at * STEP..at * STEP + STEP / 2)
        .collect();
    let ranges = &ranges[..];
    let held = PositionIntervals::from_ranges(ranges);
    let held = &held.expect("they ascend and stand apart");
    let random = &mut Random::new(SEED);
    let last = intervals as u64 * STEP;
    let positions: Vec<u64> = (0..ASKED)
        .map(|_| random.below(last as usize) as u64)
        .collect();
    let (turn, positions) = (Cell::new(0), &positions[..]);
    let turn = &turn;
    let next = move || {
        turn.set((turn.get() + 1) % ASKED);
        positions[turn.get()]
    };
    for position in positions {
        assert_eq!(held.contains(*position), by_hand(ranges, *position));
        assert_eq!(held.contains(*position), checking(held, *position));
    }
    let [contains, partition_point, contains_checking, len, len_checking] = least([
        calls(move || black_box(held).contains(next())),
        calls(move || by_hand(black_box(ranges), next())),
        calls(move || checking(black_box(held), next())),
        calls(move || black_box(held).len()),
        calls(move || {
            let mut rows = 0;
            fernsponge::len(black_box(held.pair_words()), &mut rows) + rows
        }),
    ]);
    Asked {
        intervals,
        contains,
        partition_point,
        contains_checking,
        len,
        len_checking,
    }
}

fn by_hand(ranges: &[Range<u64>], position: u64) -> bool {
    let past = ranges.partition_point(|range| range.end <= position);
    ranges
        .get(past)
        .is_some_and(|range| range.start <= position)
}

fn checking(held: &PositionIntervals, position: u64) -> bool {
    let mut yes = 0;
    fernsponge::contains(held.pair_words(), position, &mut yes) == 0 && yes == 1
}
