//! Module 6: what document 01 says of positions and of reports on them, and what the original answers.

use crate::{
    fernsponge::{Report, Span},
    items::Words,
    position_intervals::PositionIntervals,
    query_item::QueryItem,
    Error,
};

/// A pool that holds positions, each as a key of 8 bytes.
pub fn position_pool(positions: &[u64]) -> Vec<u8> {
    positions.iter().flat_map(|at| at.to_be_bytes()).collect()
}

/// Offset and length of the keys in such a pool.
pub fn position_keys(positions: &[u64]) -> Vec<[u32; 2]> {
    (0..positions.len() as u32).map(|at| [8 * at, 8]).collect()
}

/// A report with these positions, the smallest of so many.
pub fn report(total: u64, positions: &[u64]) -> Report {
    let mut examples = [0; 16];
    examples[..positions.len()].copy_from_slice(positions);
    Report {
        total,
        count: positions.len() as u64,
        examples,
    }
}

/// What document 01 says, read as plainly as can be.
pub mod paper {
    use super::*;
    use crate::{
        items::{keys, six},
        refusals::{self, refuse, Checked},
    };

    /// What a query leaves in the lent numbers, how many pairs, and how many rows they cover: pairs merged away are 0, later numbers stay.
    pub fn from_query_items(
        pool: &[u8],
        words: &[u32],
        count: u64,
        lent: &[u64],
    ) -> Checked<(Vec<u64>, u64, u64)> {
        refusals::position_items(pool, words)?;
        let ranges = ranges(pool, words, count);
        if ranges.len() > lent.len() / 2 {
            return refuse(6, 0, 0);
        }
        let mut out = lent.to_vec();
        out[..2 * ranges.len()].fill(0);
        let pairs = canonical(ranges);
        for (at, [start, end]) in pairs.iter().enumerate() {
            (out[2 * at], out[2 * at + 1]) = (*start, *end);
        }
        Ok((out, pairs.len() as u64, len(pairs.as_flattened())))
    }

    /// The ranges of accepted items that are not empty, clipped to the count.
    pub fn ranges(pool: &[u8], words: &[u32], count: u64) -> Vec<[u64; 2]> {
        let items = words.chunks(6).filter_map(six);
        items.filter_map(|item| range(item, pool, count)).collect()
    }

    /// The positions below the count that an item holds, from a start on, below an end, if there are any.
    fn range(item: Words, pool: &[u8], count: u64) -> Option<[u64; 2]> {
        let (a, b) = keys(item, pool);
        let (a, b) = (number(a), number(b));
        let start = match item[0] {
            0 | 1 | 2 | 4 => a,
            7..=9 => a + 1,
            _ => 0,
        };
        let end = match item[0] {
            0 => a + 1,
            1 | 5 | 8 => b,
            2 | 6 | 9 => b + 1,
            _ => 1 << 64,
        };
        let end = end.min(u128::from(count));
        (start < end).then_some([start as u64, end as u64])
    }

    /// The position of a key; that of an absent one is not asked for.
    fn number(key: &[u8]) -> u128 {
        key.iter()
            .fold(0, |number, byte| 256 * number + u128::from(*byte))
    }

    /// 7 for a key of other than 8 bytes.
    pub fn be_u64(key: &[u8]) -> Checked<u64> {
        match key.len() {
            8 => Ok(number(key) as u64),
            _ => refuse(7, 0, 0),
        }
    }

    /// Ascending, and joined where one does not end below the next start.
    pub fn canonical(mut ranges: Vec<[u64; 2]>) -> Vec<[u64; 2]> {
        ranges.sort();
        let mut pairs: Vec<[u64; 2]> = vec![];
        for [start, end] in ranges {
            match pairs.last_mut() {
                Some(last) if start <= last[1] => last[1] = last[1].max(end),
                _ => pairs.push([start, end]),
            }
        }
        pairs
    }

    pub fn contains(intervals: &[u64], position: u64) -> bool {
        let mut pairs = intervals.chunks(2);
        pairs.any(|pair| pair[0] <= position && position < pair[1])
    }

    pub fn len(intervals: &[u64]) -> u64 {
        intervals.chunks(2).map(|pair| pair[1] - pair[0]).sum()
    }

    /// The covered positions that are not proved: how many, and the smallest.
    pub fn missing_from(intervals: &[u64], proved: &[u64]) -> Report {
        let present = proved.iter().filter(|at| contains(intervals, **at)).count();
        let covered = intervals.chunks(2).flat_map(|pair| pair[0]..pair[1]);
        let missing = covered.filter(|at| proved.binary_search(at).is_err());
        let smallest: Vec<u64> = missing.take(16).collect();
        report(len(intervals) - present as u64, &smallest)
    }

    /// The covered positions that no span contains, of spans that do not cross: how many, and the smallest.
    pub fn missing_from_spans(intervals: &[u64], spans: &[Span]) -> Report {
        let mut missing = len(intervals);
        let mut smallest = vec![];
        for pair in intervals.chunks(2) {
            for [start, end] in spans {
                missing -= pair[1].min(*end).saturating_sub(pair[0].max(*start));
            }
            let mut at = pair[0];
            while at < pair[1] && smallest.len() < 16 {
                match spans.iter().find(|[start, end]| *start <= at && at < *end) {
                    Some(span) => at = span[1],
                    None => {
                        smallest.push(at);
                        at += 1;
                    }
                }
            }
        }
        report(missing, &smallest)
    }

    /// The proved positions that are not covered: how many, and the smallest.
    pub fn extra_in(intervals: &[u64], proved: &[u64]) -> Report {
        let extra = proved.iter().filter(|at| !contains(intervals, **at));
        let extra: Vec<u64> = extra.copied().collect();
        report(extra.len() as u64, &extra[..extra.len().min(16)])
    }

    /// The lent bytes with the text at the front, and its length: 1 for more than 16 examples, then 6 where the text has no room.
    pub fn describe(report: &Report, lent: &[u8]) -> Checked<(Vec<u8>, u64)> {
        if report.count > 16 {
            return refuse(1, 0, 0);
        }
        let examples = &report.examples[..report.count as usize];
        let first = match report.total > report.count {
            true => format!(", first {}", report.count),
            false => String::new(),
        };
        let numbers: Vec<String> = examples.iter().map(u64::to_string).collect();
        let text = format!(
            "{} positions{first}: [{}]",
            report.total,
            numbers.join(", ")
        );
        if text.len() > lent.len() {
            return refuse(6, 0, 0);
        }
        let mut out = lent.to_vec();
        out[..text.len()].copy_from_slice(text.as_bytes());
        Ok((out, text.len() as u64))
    }
}

/// What the original answers.
pub mod rust {
    use super::*;
    use crate::position_intervals::PositionMismatch;
    use std::collections::BTreeSet;

    /// The pairs of a query and their rows, or document 01's number for the text that it is refused with: 5 or 7.
    pub fn from_query_items(items: &[QueryItem], count: u64) -> Result<(Vec<u64>, u64), u64> {
        match PositionIntervals::from_query_items(items, count) {
            Ok(intervals) => Ok((pairs(&intervals), intervals.len())),
            Err(error) if text(&error).starts_with("position key must be") => Err(7),
            Err(error) if text(&error).starts_with("Aggregate") => Err(5),
            Err(error) => panic!("the original refuses with {error:?}"),
        }
    }

    pub fn text(error: &Error) -> &'static str {
        match error {
            Error::InvalidInput(text) | Error::InvalidOperation(text) => text,
        }
    }

    /// The position of a key, as the end of the positions below it.
    pub fn be_u64(key: &[u8]) -> Result<u64, u64> {
        let below = QueryItem::RangeTo(..key.to_vec());
        let (pairs, _) = from_query_items(&[below], u64::MAX)?;
        Ok(pairs.get(1).copied().unwrap_or(0))
    }

    /// Canonical pairs as the original's, which has them only from a query.
    pub fn intervals(words: &[u64]) -> PositionIntervals {
        let key = |at: u64| at.to_be_bytes().to_vec();
        let range = |pair: &[u64]| QueryItem::Range(key(pair[0])..key(pair[1]));
        let items: Vec<QueryItem> = words.chunks(2).map(range).collect();
        let intervals = PositionIntervals::from_query_items(&items, u64::MAX)
            .expect("keys of 8 bytes are accepted");
        assert_eq!(pairs(&intervals), words, "canonical pairs stay");
        intervals
    }

    pub fn pairs(intervals: &PositionIntervals) -> Vec<u64> {
        let ranges = intervals.ranges().iter();
        ranges.flat_map(|(start, end)| [*start, *end]).collect()
    }

    pub fn missing_from(intervals: &PositionIntervals, proved: &[u64]) -> Report {
        let proved: BTreeSet<u64> = proved.iter().copied().collect();
        in_places(&intervals.missing_from(&proved))
    }

    pub fn missing_from_spans(intervals: &PositionIntervals, spans: &[Span]) -> Report {
        let spans: Vec<(u64, u64)> = spans.iter().map(|[start, end]| (*start, *end)).collect();
        in_places(&intervals.missing_from_spans(&spans))
    }

    pub fn extra_in(intervals: &PositionIntervals, proved: &[u64]) -> Report {
        in_places(&intervals.extra_in(proved.iter()))
    }

    fn in_places(mismatch: &PositionMismatch) -> Report {
        report(mismatch.total, &mismatch.examples)
    }

    /// The text of a report with 16 examples at most.
    pub fn describe(report: &Report) -> String {
        let examples = report.examples[..report.count as usize].to_vec();
        let total = report.total;
        PositionMismatch { total, examples }.describe()
    }
}
