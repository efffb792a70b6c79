//! The original's calls on positions as ../bench/ times them: what they are handed stands ready, and what they answer is handed on as it is.

use crate::{
    position_intervals::{PositionIntervals, PositionMismatch},
    positions::rust,
    query_item::QueryItem,
};
use std::collections::BTreeSet;

/// What a query covers.
pub struct Covered(PositionIntervals);

impl Covered {
    pub fn new(items: &[QueryItem], count: u64) -> Self {
        let intervals = PositionIntervals::from_query_items(items, count);
        Self(intervals.expect("plain items with keys of 8 bytes are accepted"))
    }

    pub fn pairs(&self) -> Vec<u64> {
        rust::pairs(&self.0)
    }

    pub fn rows(&self) -> u64 {
        self.0.len()
    }
}

/// How many positions are off, and the smallest of them.
pub struct Off(PositionMismatch);

impl Off {
    pub fn told(&self) -> (u64, &[u64]) {
        (self.0.total, &self.0.examples)
    }
}

/// Intervals, and proved positions in the three forms in which the original takes them.
pub struct Positions {
    intervals: PositionIntervals,
    list: Vec<u64>,
    set: BTreeSet<u64>,
    spans: Vec<(u64, u64)>,
}

impl Positions {
    /// Canonical intervals, and positions that ascend.
    pub fn new(intervals: &[u64], proved: &[u64], spans: &[[u64; 2]]) -> Self {
        Self {
            intervals: rust::intervals(intervals),
            list: proved.to_vec(),
            set: proved.iter().copied().collect(),
            spans: spans.iter().map(|span| (span[0], span[1])).collect(),
        }
    }

    pub fn missing_from(&self) -> Off {
        Off(self.intervals.missing_from(&self.set))
    }

    pub fn missing_from_spans(&self) -> Off {
        Off(self.intervals.missing_from_spans(&self.spans))
    }

    pub fn extra_in(&self) -> Off {
        Off(self.intervals.extra_in(self.list.iter()))
    }
}
