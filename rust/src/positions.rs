//! Positions of a log: which are covered, which of them are missing or extra, and in which windows to fetch the missing ones again.

use crate::{
    detail::{self, Detail, Fault, Name, Part, Use},
    item::Item,
    limits,
    memory::zeros,
    quantities::{LogPosition, RowCount},
    refusal::{Reason, Refusal},
    words::{self, Report},
};
use std::{
    fmt,
    hash::{Hash, Hasher},
    iter::FusedIterator,
    ops::Range,
};

/// The position that a key names: its 8 bytes, the first the greatest. O(1).
///
/// # Errors
///
/// Refused with 7 where the key has not 8 bytes.
///
/// ```
/// assert_eq!(fernsponge::position_of(&[0, 0, 0, 0, 0, 0, 1, 2])?, 258);
/// assert!(fernsponge::position_of(b"short").is_err());
/// # Ok::<(), fernsponge::Refusal>(())
/// ```
pub fn position_of(key: &[u8]) -> Result<LogPosition, Refusal> {
    let mut position = 0;
    Refusal::looked(words::be_u64(key, &mut position), |_| {
        let fault = Fault::NoPosition(Part::Itself, key.len());
        Some(Detail::Thing(Name::AskedKey, fault))
    })?;
    Ok(LogPosition(position))
}

/// Positions from a start on, below an end, that a proof spans. It may be empty. Its ends are plain numbers, as those of a range are.
#[derive(Clone, Copy, Debug, Default, PartialEq, Eq, Hash)]
#[repr(C)]
pub struct Span {
    /// The first position.
    pub start: u64,
    /// The first position past it.
    pub end: u64,
}

/// Covered positions: intervals that are not empty, ascend, and stand apart, with the total of the positions in them.
///
/// Fewer intervals would not do: no list of half-open ranges, sorted or not, overlapping or not, empty ranges included, that covers the same
/// positions has fewer, and no other list of intervals that are not empty, ascend and stand apart covers them. Both are proved of the calls that
/// make one of items, of ranges or of stored words, and of any covering and uncovering after that.
///
/// Below, n is the number of intervals. How many positions they have costs nothing.
///
/// ```
/// use fernsponge::{PositionIntervals, Span};
///
/// let covered = PositionIntervals::from_ranges(&[0..20])?;
/// assert_eq!(covered.len(), 20);
/// let missing = covered.missing_from(&[3])?;
/// assert_eq!(missing.total(), 19);
/// assert_eq!(missing.examples()[..4], [0, 1, 2, 4]);
/// assert_eq!(covered.missing_from_spans(&[Span { start: 0, end: 18 }])?.examples(), [18, 19]);
/// assert_eq!(covered.extra_in(&[7, 20])?.to_string(), "1 positions: [20]");
/// # Ok::<(), fernsponge::Refusal>(())
/// ```
///
/// More can be covered and uncovered; the total is kept:
///
/// ```
/// use fernsponge::{Item, Pool, PositionIntervals};
///
/// let mut pool = Pool::new();
/// let mut key = |position: u64| pool.add(&position.to_be_bytes());
/// let items = [Item::range(key(0)?, key(10)?), Item::range(key(20)?, key(24)?)];
/// let mut covered = PositionIntervals::from_query_items(pool.bytes(), &items, 100)?;
/// assert_eq!(covered.len(), 14);
/// covered.cover(8..20)?;
/// assert_eq!((covered.iter().collect::<Vec<_>>(), covered.len()), (vec![0..24], 24));
/// covered.uncover(3..5)?;
/// assert_eq!((covered.iter().collect::<Vec<_>>(), covered.len()), (vec![0..3, 5..24], 22));
/// # Ok::<(), fernsponge::Refusal>(())
/// ```
///
/// Two of them are equal where their intervals are, whatever room their buffers have.
#[derive(Default)]
pub struct PositionIntervals {
    /// The list stands at the front; what spare words behind it hold is of no account.
    words: Vec<u64>,
    pairs: usize,
    total: u64,
}

impl PositionIntervals {
    /// The positions below `count` that items cover, whose keys are 8 bytes. Items may stand in any order.
    ///
    /// It costs O(items) where their ranges ascend and stand apart, and O(items · log items) where they have to be sorted.
    ///
    /// # Errors
    ///
    /// Refused with 1 where the pool has more than 65,536 bytes or the list more than 2,048 items; then, item by item, with 1 where one is malformed,
    /// with 2 where a key is longer than 255 bytes or reaches past the pool, with 5 where it is wrapped, and with 7 where a key has not 8 bytes.
    pub fn from_query_items(
        pool: &[u8],
        items: &[Item],
        count: impl Into<RowCount>,
    ) -> Result<Self, Refusal> {
        let mut words = vec![0; 2 * items.len()];
        let (mut pairs, mut total) = (0, 0);
        Refusal::looked(
            words::from_query_items(
                pool,
                words::of_items(items),
                count.into().0,
                &mut words,
                &mut pairs,
                &mut total,
            ),
            |refusal| detail::list(refusal, pool, items, Use::Positions),
        )?;
        let pairs = pairs as usize;
        Ok(Self {
            words,
            pairs,
            total,
        })
    }

    /// Of intervals that are so already. O(n).
    ///
    /// # Errors
    ///
    /// Refused with 9 and its index where an interval is empty, or does not start above the end of the one before it.
    pub fn from_ranges(ranges: &[Range<u64>]) -> Result<Self, Refusal> {
        let words = pairs_of(ranges);
        let mut total = 0;
        Refusal::looked(words::len(&words, &mut total), |refusal| {
            detail::intervals(refusal, &words)
        })?;
        let pairs = ranges.len();
        Ok(Self {
            words,
            pairs,
            total,
        })
    }

    /// Of words that were stored: the first so many pairs of them, start and end of each interval, and the total that was stored beside them.
    /// Words behind these pairs are spare room, and may hold anything. Everything is checked, O(n).
    ///
    /// # Errors
    ///
    /// More pairs than the words have are refused with 1, the first pair that is not as it should be with 9 and its index, and then a total that is
    /// not the number of covered positions with 9 and the number of pairs as index.
    ///
    /// ```
    /// use fernsponge::{PositionIntervals, Reason};
    ///
    /// let stored = |words: &[u64], pairs, total| PositionIntervals::from_stored(words.to_vec(), pairs, total);
    /// assert_eq!(stored(&[0, 10, 20, 24], 2, 14)?.len(), 14);
    /// assert_eq!(stored(&[0, 10, 20, 24], 3, 14).unwrap_err().reason(), Reason::Malformed);
    /// let touching = stored(&[0, 10, 10, 24], 2, 24).unwrap_err();
    /// assert_eq!((touching.reason(), touching.index), (Reason::NotCanonical, 1));
    /// let wrong_total = stored(&[0, 10, 20, 24], 2, 15).unwrap_err();
    /// assert_eq!((wrong_total.reason(), wrong_total.index), (Reason::NotCanonical, 2));
    /// # Ok::<(), fernsponge::Refusal>(())
    /// ```
    pub fn from_stored(
        words: Vec<u64>,
        pairs: usize,
        total: impl Into<RowCount>,
    ) -> Result<Self, Refusal> {
        let (total, mut checked) = (total.into().0, 0);
        Refusal::looked(
            words::stored_total(&words, pairs, total, &mut checked),
            |refusal| detail::stored(refusal, &words, pairs, total),
        )?;
        Ok(Self {
            words,
            pairs,
            total: checked,
        })
    }

    /// What [`from_stored`](Self::from_stored) takes: the whole buffer, how many pairs stand at its front, and the total.
    #[must_use]
    pub fn into_stored(self) -> (Vec<u64>, usize, u64) {
        (self.words, self.pairs, self.total)
    }

    /// The words of the intervals alone, start and end of each: what to store, beside the total, which is [`len`](Self::len).
    #[must_use]
    pub fn pair_words(&self) -> &[u64] {
        &self.words[..2 * self.pairs]
    }

    /// The intervals, in rising order.
    pub fn iter(&self) -> Ranges<'_> {
        Ranges {
            rest: self.pair_words(),
        }
    }

    /// Whether a position is covered, O(log n): the intervals were accepted when they were made or changed, and are not checked again.
    #[must_use]
    pub fn contains(&self, position: impl Into<LogPosition>) -> bool {
        words::contains_accepted(self.pair_words(), position.into().0)
    }

    /// How many positions are covered. It is read and not counted, O(1): the total comes from proved calls alone, which tell it when intervals
    /// are made or changed, and it is what counting them afresh gives.
    #[must_use]
    pub fn len(&self) -> u64 {
        self.total
    }

    /// Whether none is. O(1).
    #[must_use]
    pub fn is_empty(&self) -> bool {
        self.pairs == 0
    }

    /// Covers the positions of a range too. A range whose start is not below its end changes nothing; one may end at `u64::MAX`, a position
    /// that is never covered.
    ///
    /// The call checks the intervals each time, O(n), though here they cannot be wrong; the change itself is O(log n) and the intervals that are
    /// touched or moved. Where there is no room for one more interval the buffer grows to twice its length.
    ///
    /// # Errors
    ///
    /// Only where the system grants no memory for that, the call is refused with 6, and nothing has changed.
    pub fn cover(&mut self, range: Range<impl Into<LogPosition>>) -> Result<(), Refusal> {
        self.change(words::cover, range.start.into(), range.end.into())
    }

    /// Covers the positions of a range no longer, in the same way and at the same cost. Where an interval is cut in its middle, there is one
    /// more of them.
    ///
    /// # Errors
    ///
    /// As [`cover`](Self::cover) is refused.
    ///
    /// ```
    /// use fernsponge::PositionIntervals;
    ///
    /// let mut covered = PositionIntervals::from_ranges(&[0..10])?;
    /// covered.uncover(4..6)?;
    /// covered.uncover(7..7)?;
    /// assert_eq!((covered.iter().collect::<Vec<_>>(), covered.len()), (vec![0..4, 6..10], 8));
    /// # Ok::<(), fernsponge::Refusal>(())
    /// ```
    pub fn uncover(&mut self, range: Range<impl Into<LogPosition>>) -> Result<(), Refusal> {
        self.change(words::uncover, range.start.into(), range.end.into())
    }

    /// The change of a call, in more room where it needs some: no change makes more than one pair, so that growing once is enough.
    fn change(
        &mut self,
        call: Change,
        start: LogPosition,
        end: LogPosition,
    ) -> Result<(), Refusal> {
        match self.change_in_room(call, start, end) {
            Err(refusal) if refusal.reason() == Reason::NoRoom && self.grow() => {
                self.change_in_room(call, start, end)
            }
            changed => changed,
        }
    }

    /// The same in the room that there is.
    fn change_in_room(
        &mut self,
        call: Change,
        start: LogPosition,
        end: LogPosition,
    ) -> Result<(), Refusal> {
        let (mut pairs, mut total) = (0, 0);
        let returned = call(
            &mut self.words,
            self.pairs,
            self.total,
            start.0,
            end.0,
            &mut pairs,
            &mut total,
        );
        Refusal::looked(returned, |refusal| {
            // it is told only where the buffer could not grow
            (refusal.number == 6).then_some(Detail::Memory("one more interval"))
        })?;
        self.pairs = pairs as usize;
        self.total = total;
        Ok(())
    }

    /// Makes the buffer twice as long, or long enough for a few pairs, and says whether there was memory for it.
    fn grow(&mut self) -> bool {
        let length = self.words.len().saturating_mul(2).max(2 * FEW_PAIRS);
        let more = length - self.words.len();
        let granted = self.words.try_reserve_exact(more).is_ok();
        if granted {
            self.words.resize(length, 0);
        }
        granted
    }

    /// Which covered positions are not among the proved ones, which ascend strictly. O(n + proved).
    ///
    /// # Errors
    ///
    /// Refused with 8 and its index where a proved position does not stand above the one before it.
    pub fn missing_from(&self, proved: &[u64]) -> Result<PositionMismatch, Refusal> {
        report(
            |off| words::missing_from(self.pair_words(), proved, off),
            |refusal| detail::proved(refusal, proved),
        )
    }

    /// Which covered positions lie in none of the spans, each of which starts at or past the end of the one before it. O(n + spans).
    ///
    /// # Errors
    ///
    /// Refused with 8 and its index where a span ends below its start, or starts below the end of the one before it.
    pub fn missing_from_spans(&self, spans: &[Span]) -> Result<PositionMismatch, Refusal> {
        report(
            |off| words::missing_from_spans(self.pair_words(), words::of_spans(spans), off),
            |refusal| detail::spans(refusal, spans),
        )
    }

    /// Which proved positions, which ascend strictly, are not covered. O(n + proved).
    ///
    /// # Errors
    ///
    /// As [`missing_from`](Self::missing_from) is refused.
    pub fn extra_in(&self, proved: &[u64]) -> Result<PositionMismatch, Refusal> {
        report(
            |off| words::extra_in(self.pair_words(), proved, off),
            |refusal| detail::proved(refusal, proved),
        )
    }

    /// The windows, each of at most `most` rows, that fetch every missing position again: those that are covered and not among the proved
    /// ones, which ascend strictly. Each window opens at the first missing position that is not yet planned, and ends behind the last one
    /// within its rows.
    ///
    /// A plan may have as many windows as positions are covered, so `room` tells how many calls the caller is ready to make. Memory is taken for
    /// 4,096 windows at first; for a longer plan it is taken for as many as `room` allows, but no more than always suffice, covered
    /// positions / `most` + intervals. O(n + proved + windows).
    ///
    /// # Errors
    ///
    /// Refused with 8 and its index where a proved position does not stand above the one before it, with 16 where `most` is 0, and with 6 where the
    /// plan has more windows than `room`, or the system grants no memory for them.
    ///
    /// ```
    /// use fernsponge::PositionIntervals;
    ///
    /// let covered = PositionIntervals::from_ranges(&[0..10])?;
    /// let plan = covered.plan_refetch(&[3, 4], 4, 100)?;
    /// assert_eq!(plan.windows().collect::<Vec<_>>(), [0..3, 5..9, 9..10]);
    /// assert!(plan.check(&covered, &[3, 4], 4)?);
    /// assert_eq!(covered.plan_refetch(&[3, 4], 4, 2).unwrap_err().number, 6);
    /// # Ok::<(), fernsponge::Refusal>(())
    /// ```
    pub fn plan_refetch(
        &self,
        proved: &[u64],
        most: impl Into<RowCount>,
        room: usize,
    ) -> Result<RefetchPlan, Refusal> {
        let most = most.into().0;
        let room = room.min(self.always_enough(most));
        match self.plan_in(proved, most, room.min(FEW_WINDOWS)) {
            Err(refusal) if refusal.reason() == Reason::NoRoom && room > FEW_WINDOWS => {
                self.plan_in(proved, most, room)
            }
            planned => planned,
        }
    }

    /// The same in room for so many windows.
    fn plan_in(&self, proved: &[u64], most: u64, room: usize) -> Result<RefetchPlan, Refusal> {
        let mut pairs = zeros(room.saturating_mul(2));
        let mut written = 0;
        let returned =
            words::plan_refetch(self.pair_words(), proved, most, &mut pairs, &mut written);
        Refusal::looked(returned, |refusal| match refusal.number {
            6 if pairs.len() / 2 < room => Some(Detail::Memory("the windows of the plan")),
            6 => Some(Detail::RoomOfWindows(room)),
            _ => detail::proved(refusal, proved),
        })?;
        pairs.truncate(2 * written as usize);
        Ok(RefetchPlan { pairs })
    }

    /// No plan of ours has more windows, of at most so many rows each.
    fn always_enough(&self, most: u64) -> usize {
        let full = self.total.checked_div(most).unwrap_or(0);
        let full = usize::try_from(full).unwrap_or(usize::MAX);
        full.saturating_add(self.pairs)
    }
}

/// A call that changes a stored list: [`words::cover`] or [`words::uncover`].
type Change = fn(&mut [u64], usize, u64, u64, u64, &mut u64, &mut u64) -> u64;

/// A buffer that grows has room for so many pairs at least.
const FEW_PAIRS: usize = 8;

/// A plan that has no more windows takes no more memory than these need.
const FEW_WINDOWS: usize = 4_096;

/// The two numbers of each range.
fn pairs_of(ranges: &[Range<u64>]) -> Vec<u64> {
    ranges.iter().flat_map(|r| [r.start, r.end]).collect()
}

fn report(
    call: impl FnOnce(&mut Report) -> u64,
    look: impl FnOnce(Refusal) -> Option<Detail>,
) -> Result<PositionMismatch, Refusal> {
    let mut off = Report::default();
    Refusal::looked(call(&mut off), look)?;
    Ok(PositionMismatch::of(&off))
}

// by the list alone: a copy has no spare room, and what spare words hold tells nothing

impl Clone for PositionIntervals {
    fn clone(&self) -> Self {
        Self {
            words: self.pair_words().to_vec(),
            pairs: self.pairs,
            total: self.total,
        }
    }
}

impl PartialEq for PositionIntervals {
    fn eq(&self, other: &Self) -> bool {
        self.pair_words() == other.pair_words()
    }
}

impl Eq for PositionIntervals {}

impl Hash for PositionIntervals {
    fn hash<H: Hasher>(&self, state: &mut H) {
        self.pair_words().hash(state);
    }
}

impl fmt::Debug for PositionIntervals {
    fn fmt(&self, f: &mut fmt::Formatter<'_>) -> fmt::Result {
        f.write_str("PositionIntervals ")?;
        f.debug_list().entries(self).finish()
    }
}

impl<'a> IntoIterator for &'a PositionIntervals {
    type Item = Range<u64>;
    type IntoIter = Ranges<'a>;

    fn into_iter(self) -> Ranges<'a> {
        self.iter()
    }
}

/// The intervals of a [`PositionIntervals`], in rising order, or the windows of a [`RefetchPlan`], in its order.
/// From either end; how many are left is known.
#[derive(Clone, Debug)]
#[must_use = "nothing is told before it is asked"]
pub struct Ranges<'a> {
    /// Two words each.
    rest: &'a [u64],
}

impl Iterator for Ranges<'_> {
    type Item = Range<u64>;

    fn next(&mut self) -> Option<Range<u64>> {
        let (&[start, end], rest) = self.rest.split_first_chunk::<2>()?;
        self.rest = rest;
        Some(start..end)
    }

    fn size_hint(&self) -> (usize, Option<usize>) {
        let left = self.rest.len() / 2;
        (left, Some(left))
    }
}

impl DoubleEndedIterator for Ranges<'_> {
    fn next_back(&mut self) -> Option<Range<u64>> {
        let (rest, &[start, end]) = self.rest.split_last_chunk::<2>()?;
        self.rest = rest;
        Some(start..end)
    }
}

impl ExactSizeIterator for Ranges<'_> {}

impl FusedIterator for Ranges<'_> {}

/// Windows of rows to fetch again: our planner's ([`PositionIntervals::plan_refetch`]), or another's, of which nothing is known before it is
/// checked.
#[derive(Clone, Debug, Default, PartialEq, Eq, Hash)]
pub struct RefetchPlan {
    pairs: Vec<u64>,
}

impl RefetchPlan {
    /// A plan made elsewhere, of any ranges.
    #[must_use]
    pub fn from_windows(windows: &[Range<u64>]) -> Self {
        Self {
            pairs: pairs_of(windows),
        }
    }

    /// The windows, in the plan's order.
    pub fn windows(&self) -> Ranges<'_> {
        Ranges { rest: &self.pairs }
    }

    /// How many windows there are: the calls that the plan takes.
    #[must_use]
    pub fn len(&self) -> usize {
        self.pairs.len() / 2
    }

    /// Whether there is none.
    #[must_use]
    pub fn is_empty(&self) -> bool {
        self.pairs.is_empty()
    }

    /// Whether the plan is accepted: its windows ascend and share no row, each has a row and at most `most` of them, each begins and ends on
    /// a missing position, and together they contain every missing one. Missing are the covered positions that are not among the proved
    /// ones, which ascend strictly. O(intervals + proved + windows).
    ///
    /// # Errors
    ///
    /// Refused with 8 and its index where a proved position does not stand above the one before it, and with 16 where `most` is 0. What is wrong with
    /// the plan is no error: the answer is no.
    ///
    /// ```
    /// use fernsponge::{PositionIntervals, RefetchPlan};
    ///
    /// let covered = PositionIntervals::from_ranges(&[0..10])?;
    /// let accepted = |windows: &[_]| RefetchPlan::from_windows(windows).check(&covered, &[3, 4], 4);
    /// assert!(accepted(&[0..3, 5..7, 7..10])?);
    /// // 4 is not missing, and 9 is in no window
    /// assert!(!accepted(&[0..3, 4..8, 8..10])?);
    /// assert!(!accepted(&[0..3, 5..9])?);
    /// # Ok::<(), fernsponge::Refusal>(())
    /// ```
    pub fn check(
        &self,
        covered: &PositionIntervals,
        proved: &[u64],
        most: impl Into<RowCount>,
    ) -> Result<bool, Refusal> {
        let (most, mut yes) = (most.into().0, 0);
        Refusal::looked(
            words::check_plan(covered.pair_words(), proved, most, &self.pairs, &mut yes),
            |refusal| detail::proved(refusal, proved),
        )?;
        Ok(yes == 1)
    }
}

impl<'a> IntoIterator for &'a RefetchPlan {
    type Item = Range<u64>;
    type IntoIter = Ranges<'a>;

    fn into_iter(self) -> Ranges<'a> {
        self.windows()
    }
}

/// Positions that are off: how many, and the smallest of them, [sixteen](Self::MAX_REPORTED_POSITIONS) at most. Its text is the original's.
#[derive(Clone, Copy, Debug, Default, PartialEq, Eq, Hash)]
pub struct PositionMismatch {
    total: RowCount,
    /// How many places of `examples` are used; the others are 0.
    count: usize,
    examples: [LogPosition; limits::MAX_REPORTED_POSITIONS],
}

impl PositionMismatch {
    /// The most positions that a report tells one by one.
    pub const MAX_REPORTED_POSITIONS: usize = limits::MAX_REPORTED_POSITIONS;

    /// The report that nothing is off.
    #[must_use]
    pub fn empty() -> Self {
        let mut report = Report::default();
        let refused = words::empty_report(&mut report);
        debug_assert_eq!(refused, 0, "it refuses nothing");
        Self::of(&report)
    }

    /// How many positions are off.
    #[must_use]
    pub fn total(&self) -> RowCount {
        self.total
    }

    /// The smallest of them, in rising order.
    #[must_use]
    pub fn examples(&self) -> &[LogPosition] {
        &self.examples[..self.count]
    }

    /// Whether none is.
    #[must_use]
    pub fn is_empty(&self) -> bool {
        self.total == 0
    }

    /// The report of a call's numbers.
    fn of(report: &Report) -> Self {
        Self {
            total: RowCount(report.total),
            count: report.count as usize,
            examples: report.examples.map(LogPosition),
        }
    }
}

impl fmt::Display for PositionMismatch {
    fn fmt(&self, f: &mut fmt::Formatter<'_>) -> fmt::Result {
        let report = Report {
            total: self.total.0,
            count: self.count as u64,
            examples: self.examples.map(u64::from),
        };
        let mut text = [0; limits::MOST_REPORT_BYTES];
        let mut length = 0;
        let refused = words::describe(&report, &mut text, &mut length);
        debug_assert_eq!(
            refused, 0,
            "a report has at most 16 examples, and its text at most so many bytes"
        );
        f.write_str(&String::from_utf8_lossy(&text[..length as usize]))
    }
}
