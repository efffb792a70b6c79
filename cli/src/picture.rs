//! A log as a picture in text: a mark for so many rows. What it takes does not grow with the rows, but with ranges, proved rows, windows and marks.

use crate::log::Log;
use fernsponge::{Ranges, Refusal};
use std::ops::Range;

/// The columns before the marks, and the fewest and the most marks.
const LABEL: usize = 8;
const FEWEST: usize = 10;
const MOST: usize = 10_000;

/// The rows that are drawn, and the marks that they are drawn with.
struct Scale {
    rows: Range<u64>,
    marks: usize,
}

impl Scale {
    /// From the first covered row to the last, with no more marks than rows.
    fn of(mut ranges: Ranges, columns: usize) -> Option<Self> {
        let last = ranges.clone().next_back()?;
        let rows = ranges.next()?.start..last.end;
        let most = columns.saturating_sub(LABEL).clamp(FEWEST, MOST);
        let fewer = usize::try_from(rows.end - rows.start).unwrap_or(usize::MAX);
        Some(Self {
            rows,
            marks: most.min(fewer),
        })
    }

    /// Which mark a row is drawn by.
    fn mark_of(&self, row: u64) -> usize {
        let (length, before) = (
            u128::from(self.rows.end - self.rows.start),
            u128::from(row - self.rows.start),
        );
        (before * self.marks as u128 / length) as usize
    }

    /// The first row of a mark; of the one past the last, the end.
    fn start_of(&self, mark: usize) -> u64 {
        let length = u128::from(self.rows.end - self.rows.start);
        self.rows.start + (mark as u128 * length).div_ceil(self.marks as u128) as u64
    }

    /// How many rows a mark has.
    fn rows_of(&self, mark: usize) -> u64 {
        self.start_of(mark + 1) - self.start_of(mark)
    }

    /// How many rows of ascending ranges that share no row are drawn by each mark.
    fn counts(&self, ranges: Ranges) -> Vec<u64> {
        let mut counts = vec![0; self.marks];
        for range in ranges {
            for (mark, count) in counts
                .iter_mut()
                .enumerate()
                .take(self.mark_of(range.end - 1) + 1)
                .skip(self.mark_of(range.start))
            {
                *count +=
                    range.end.min(self.start_of(mark + 1)) - range.start.max(self.start_of(mark));
            }
        }
        counts
    }

    /// A line: `#` where all rows of a mark are meant, `+` where some are, `.` where none is.
    fn drawn(&self, counts: &[u64]) -> String {
        let drawn = counts.iter().enumerate().map(|(mark, count)| match *count {
            0 => '.',
            count if count == self.rows_of(mark) => '#',
            _ => '+',
        });
        drawn.collect()
    }

    /// The line of windows: `[` where one opens, `*` where several do, `=` where one goes on, `.` where there is none.
    fn windows(&self, windows: Ranges) -> String {
        let mut opened = vec![0_usize; self.marks];
        for window in windows.clone() {
            opened[self.mark_of(window.start)] += 1;
        }
        let marks = self
            .counts(windows)
            .into_iter()
            .zip(opened)
            .map(|pair| match pair {
                (0, _) => '.',
                (_, 0) => '=',
                (_, 1) => '[',
                _ => '*',
            });
        marks.collect()
    }
}

/// The picture of a log, with its totals.
pub fn of(log: &Log, windows: Ranges, columns: usize) -> Result<String, Refusal> {
    let (ranges, totals) = (log.ranges(), log.totals()?);
    let columns = columns.max(LABEL + FEWEST);
    let Some(scale) = Scale::of(ranges.clone(), columns) else {
        return Ok("no row is covered\n".to_string());
    };
    let covered = scale.counts(ranges.clone());
    let present = present(&scale, ranges, log.proved());
    let missing: Vec<u64> = covered
        .iter()
        .zip(&present)
        .map(|(covered, present)| covered - present)
        .collect();
    let mut text = wrapped(&head(&scale), columns);
    text += &format!("covered {}\n", scale.drawn(&covered));
    text += &format!("present {}\n", scale.drawn(&present));
    text += &format!("missing {}\n", scale.drawn(&missing));
    text += &format!("windows {}\n", scale.windows(windows.clone()));
    let mut sums = format!(
        "covered {}, present {}, missing {}, windows {}",
        totals.covered,
        totals.covered - totals.missing,
        totals.missing,
        windows.len()
    );
    if totals.extra > 0 {
        sums += &format!("; proved and not covered {}", totals.extra);
    }
    text += &wrapped(&sums, columns);
    text += &wrapped(LEGEND, columns);
    Ok(text)
}

/// What the marks mean.
const LEGEND: &str =
    "# all rows of a mark, + some, . none; [ a window opens, * several do, = goes on";

/// A text in lines of at most so many columns, each but the last of which ends in a comma or semicolon. What has none inside is not cut.
fn wrapped(text: &str, columns: usize) -> String {
    let (mut lines, mut line) = (String::new(), String::new());
    for part in text.split_inclusive([',', ';']) {
        if !line.is_empty() && line.len() + part.len() > columns {
            lines += &format!("{line}\n");
            line.clear();
        }
        line += if line.is_empty() {
            part.trim_start()
        } else {
            part
        };
    }
    format!("{lines}{line}\n")
}

/// Which rows are drawn, and how many to a mark.
fn head(scale: &Scale) -> String {
    let Scale { rows, marks } = scale;
    let length = rows.end - rows.start;
    let each = match length.div_ceil(*marks as u64) {
        1 => "one row".to_string(),
        most if length % *marks as u64 == 0 => format!("{most} rows"),
        most => format!("{} or {most} rows", most - 1),
    };
    format!("rows {}..{}, {each} to a mark", rows.start, rows.end)
}

/// How many covered rows that are proved are drawn by each mark. Both ascend.
fn present(scale: &Scale, ranges: Ranges, proved: &[u64]) -> Vec<u64> {
    let mut counts = vec![0; scale.marks];
    let mut ranges = ranges.peekable();
    for row in proved {
        while ranges.next_if(|range| range.end <= *row).is_some() {}
        if ranges.peek().is_some_and(|range| range.start <= *row) {
            counts[scale.mark_of(*row)] += 1;
        }
    }
    counts
}
