//! Document 02's plans to fetch missing rows again, read as plainly as can be: row by row where they are few, and else by runs of rows.

use crate::{
    positions::paper,
    refusals::{self, refuse, Checked},
};

/// Rows from a start on, below an end.
pub type Window = [u64; 2];

/// Rows are read one by one in logs that cover at most so many.
const FEW: u64 = 64;

/// Covered rows as intervals, and proved ones, accepted or not.
#[derive(Debug)]
pub struct Log {
    pub intervals: Vec<u64>,
    pub proved: Vec<u64>,
    /// what is missing, read in each way that can be; the first is what our calls are held against
    readings: Checked<Vec<Missing>>,
}

/// The rows that are covered and not proved, in rising order.
#[derive(Debug)]
pub enum Missing {
    Rows(Vec<u64>),
    /// each run is longer than nothing, and none crosses another
    Runs(Vec<Window>),
}

impl Log {
    pub fn new(intervals: Vec<u64>, proved: Vec<u64>) -> Self {
        let readings = refusals::proved(&intervals, &proved).map(|()| {
            let runs = Missing::Runs(runs(&intervals, &proved));
            match paper::len(&intervals) <= FEW {
                true => vec![Missing::Rows(rows(&intervals, &proved)), runs],
                false => vec![runs],
            }
        });
        Self {
            intervals,
            proved,
            readings,
        }
    }

    fn missing(&self) -> Checked<&Missing> {
        self.readings.as_ref().map(|of| &of[0]).map_err(|it| *it)
    }

    /// An answer by runs and the same row by row, where there are both.
    pub fn both<T>(&self, answer: impl Fn(&Missing) -> T) -> Option<[T; 2]> {
        match self.readings.as_deref() {
            Ok([rows, runs]) => Some([answer(runs), answer(rows)]),
            _ => None,
        }
    }

    /// The first windows of our planner, at most so many; none of what is refused.
    pub fn windows(&self, most: u64, count: usize) -> Vec<Window> {
        let missing = self.missing().ok().filter(|_| most > 0);
        missing.map_or(vec![], |missing| missing.windows(most, count))
    }

    /// So many windows are always enough for our planner: covered rows / `most` + intervals, where these are accepted.
    pub fn enough(&self, most: u64) -> Option<usize> {
        self.missing().ok()?;
        let full = paper::len(&self.intervals).checked_div(most)?;
        Some((full as usize).saturating_add(self.intervals.len() / 2))
    }

    /// The lent numbers with the windows at the front, and how many there are; 6 where they have no room (02 §9.9).
    pub fn plan_refetch(&self, most: u64, lent: &[u64]) -> Checked<(Vec<u64>, u64)> {
        let missing = self.missing()?;
        refusals::most(most)?;
        let windows = missing.windows(most, lent.len() / 2 + 1);
        if windows.len() > lent.len() / 2 {
            return refuse(6, 0, 0);
        }
        let mut out = lent.to_vec();
        out[..2 * windows.len()].copy_from_slice(windows.as_flattened());
        Ok((out, windows.len() as u64))
    }

    /// Whether a plan is accepted, of words that are windows where they are even.
    pub fn check_plan(&self, most: u64, words: &[u64]) -> Checked<bool> {
        refusals::intervals(&self.intervals)?;
        refusals::windows(words)?;
        let missing = self.missing()?;
        refusals::most(most)?;
        let plan: Vec<Window> = words.chunks(2).map(|it| [it[0], it[1]]).collect();
        Ok(missing.accepts(most, &plan))
    }
}

fn rows(intervals: &[u64], proved: &[u64]) -> Vec<u64> {
    let covered = intervals.chunks(2).flat_map(|pair| pair[0]..pair[1]);
    covered.filter(|row| !proved.contains(row)).collect()
}

/// Each interval, cut at the proved rows that lie in it.
fn runs(intervals: &[u64], proved: &[u64]) -> Vec<Window> {
    let mut runs = vec![];
    for pair in intervals.chunks(2) {
        let mut from = pair[0];
        let within = proved.partition_point(|row| *row < pair[0]);
        for &row in proved[within..].iter().take_while(|row| **row < pair[1]) {
            runs.push([from, row]);
            from = row + 1;
        }
        runs.push([from, pair[1]]);
    }
    runs.retain(|[start, end]| start < end);
    runs
}

impl Missing {
    /// The first windows of our planner, at most so many, each of at least one row and at most `most` (02 §9.7).
    pub fn windows(&self, most: u64, count: usize) -> Vec<Window> {
        let mut windows = vec![];
        let mut first = self.first_from(0);
        while let Some(start) = first.filter(|_| windows.len() < count) {
            let end = self.last_within(start, most) + 1;
            windows.push([start, end]);
            first = self.first_from(end);
        }
        windows
    }

    /// The first missing row that is not below a row.
    fn first_from(&self, from: u64) -> Option<u64> {
        match self {
            Self::Rows(rows) => rows.iter().copied().find(|row| *row >= from),
            Self::Runs(runs) => {
                let run = runs.get(runs.partition_point(|[_, end]| *end <= from))?;
                Some(run[0].max(from))
            }
        }
    }

    /// The last missing row of the so many rows that begin with a missing one.
    fn last_within(&self, start: u64, most: u64) -> u64 {
        match self {
            Self::Rows(rows) => {
                let within = |row: &u64| *row >= start && *row - start < most;
                rows.iter().copied().filter(within).max().unwrap_or(start)
            }
            Self::Runs(runs) => {
                let begun = runs.partition_point(|run| run[0] <= start || run[0] - start < most);
                let last = runs[begun - 1][1] - 1;
                start + (last - start).min(most - 1)
            }
        }
    }

    /// Whether a plan is accepted (02 §9.2).
    pub fn accepts(&self, most: u64, plan: &[Window]) -> bool {
        // 02 §9.4 and 02 §9.5
        let stands = |[start, end]: &Window| {
            start < end && end - start <= most && self.has(*start) && self.has(end - 1)
        };
        // 02 §9.3 and 02 §9.6
        let ascend = plan.windows(2).all(|two| two[0][1] <= two[1][0]);
        plan.iter().all(stands) && ascend && self.all_within(plan)
    }

    /// Whether a row is missing.
    fn has(&self, row: u64) -> bool {
        match self {
            Self::Rows(rows) => rows.contains(&row),
            Self::Runs(runs) => holding(runs, row).is_some(),
        }
    }

    /// Whether windows that ascend contain every missing row.
    fn all_within(&self, plan: &[Window]) -> bool {
        let within = |row: &u64| plan.iter().any(|[start, end]| start <= row && row < end);
        match self {
            Self::Rows(rows) => rows.iter().all(within),
            Self::Runs(runs) => runs.iter().all(|run| run_within(*run, plan)),
        }
    }
}

/// Whether windows that ascend contain a run of rows, one window after the other.
fn run_within([mut from, end]: Window, plan: &[Window]) -> bool {
    while from < end {
        match holding(plan, from) {
            Some(window) => from = window[1],
            None => return false,
        }
    }
    true
}

/// The one that contains a row, of windows that ascend.
fn holding(windows: &[Window], row: u64) -> Option<&Window> {
    let next = windows.get(windows.partition_point(|[_, end]| *end <= row))?;
    (next[0] <= row).then_some(next)
}
