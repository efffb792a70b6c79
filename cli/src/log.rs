//! The library's types for rows of a log, kept here: the rest of the command has rows as plain numbers.

use fernsponge::{PositionIntervals, Ranges, RefetchPlan, Refusal};
use std::ops::Range;

/// Which rows of a log are covered, and which are proved.
pub struct Log {
    covered: PositionIntervals,
    proved: Vec<u64>,
}

/// How many rows are covered, how many of these are not proved, and how many proved ones are not covered.
pub struct Totals {
    /// Those of the ranges.
    pub covered: u64,
    /// Covered and not proved.
    pub missing: u64,
    /// Proved and not covered.
    pub extra: u64,
}

impl Log {
    /// The log of covered ranges; those that are empty, out of order or not apart are refused with 9.
    pub fn new(covered: &[Range<u64>], proved: Vec<u64>) -> Result<Self, Refusal> {
        let covered = PositionIntervals::from_ranges(covered)?;
        Ok(Self { covered, proved })
    }

    /// The plan of windows of at most `width` rows that fetch the missing rows again. More windows than so many are refused with 6.
    pub fn plan(&self, width: u64, most: usize) -> Result<RefetchPlan, Refusal> {
        self.covered.plan_refetch(&self.proved, width, most)
    }

    /// The totals of rows.
    pub fn totals(&self) -> Result<Totals, Refusal> {
        Ok(Totals {
            covered: number(self.covered.len()),
            missing: number(self.covered.missing_from(&self.proved)?.total()),
            extra: number(self.covered.extra_in(&self.proved)?.total()),
        })
    }

    /// The covered ranges.
    pub fn ranges(&self) -> Ranges<'_> {
        self.covered.iter()
    }

    /// The proved rows.
    pub fn proved(&self) -> &[u64] {
        &self.proved
    }
}

/// A count of rows as a number.
fn number(count: impl Into<u64>) -> u64 {
    count.into()
}
