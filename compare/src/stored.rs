//! Document 02's stored lists of intervals, read as plainly as can be: of few rows as a set of bits, and else as ranges, of which each change
//! makes the whole list anew.

use crate::{
    fernsponge,
    positions::paper,
    refusals::{self, refuse, Checked},
};

/// Rows from a start on, below an end; none where the start is not below the end.
pub type Rows = [u64; 2];

/// Words, how many pairs at their front are the list, and the total of its rows beside them; accepted or not.
#[derive(Clone, Debug, PartialEq)]
pub struct Stored {
    pub words: Vec<u64>,
    pub pairs: usize,
    pub total: u64,
}

#[derive(Clone, Copy, Debug, PartialEq)]
pub enum Change {
    Cover,
    Uncover,
}

pub const CHANGES: [Change; 2] = [Change::Cover, Change::Uncover];

impl Change {
    /// The call of ours that makes it.
    pub fn call(self, stored: &Stored, rows: Rows, left: &mut (Vec<u64>, u64, u64)) -> u64 {
        let call = match self {
            Self::Cover => fernsponge::cover,
            Self::Uncover => fernsponge::uncover,
        };
        let (words, new_pairs, new_total) = left;
        let [start, end] = rows;
        let (pairs, total) = (stored.pairs, stored.total);
        call(words, pairs, total, start, end, new_pairs, new_total)
    }

    /// The canonical list that it makes of one.
    pub fn of_list(self, list: &[u64], [start, end]: Rows) -> Vec<u64> {
        if start >= end {
            return list.to_vec();
        }
        let mut ranges: Vec<Rows> = list.chunks(2).map(|pair| [pair[0], pair[1]]).collect();
        match self {
            Self::Cover => ranges.push([start, end]),
            Self::Uncover => ranges = ranges.iter().flat_map(|it| cut(*it, start, end)).collect(),
        }
        paper::canonical(ranges).concat()
    }

    /// The set that it makes of one, where rows are bits.
    pub fn of_bits(self, bits: u64, rows: u64) -> u64 {
        match self {
            Self::Cover => bits | rows,
            Self::Uncover => bits & !rows,
        }
    }
}

/// What is left of a range below a start, and from an end on.
fn cut(range: Rows, start: u64, end: u64) -> impl Iterator<Item = Rows> {
    let below = [range[0], range[1].min(start)];
    let above = [range[0].max(end), range[1]];
    [below, above].into_iter().filter(|[from, to]| from < to)
}

/// The set of the rows of a range, of which the bit at 0 is the base's.
pub fn bits_of(base: u64, [start, end]: Rows) -> u64 {
    let within = |at: &u64| start <= base + at && base + at < end;
    (0..32).filter(within).map(|at| 1 << at).sum()
}

/// The list of a set of fewer than 32 rows: there is a word wherever a row is covered and the one before it is not, or the other way round.
pub fn list_of(base: u64, bits: u64) -> Vec<u64> {
    let turns = bits ^ bits << 1;
    let at = (0..33).filter(|at| turns >> at & 1 == 1);
    at.map(|at| base + at).collect()
}

impl Stored {
    /// A canonical list with its total, at the front of a buffer of so many words, too few of them maybe; behind it stands what is given.
    pub fn new(list: &[u64], room: usize, behind: impl Fn(u64) -> u64) -> Self {
        let behind = (0..room as u64).map(behind);
        Self {
            words: list.iter().copied().chain(behind).take(room).collect(),
            pairs: list.len() / 2,
            total: paper::len(list),
        }
    }

    /// The words of the list, of one that is accepted.
    pub fn list(&self) -> &[u64] {
        &self.words[..2 * self.pairs]
    }

    pub fn check(&self) -> Checked<()> {
        refusals::stored(&self.words, self.pairs, self.total)
    }

    /// What a change leaves: words, how many pairs, and their total.
    pub fn changed(&self, change: Change, rows: Rows) -> Checked<(Vec<u64>, u64, u64)> {
        self.check()?;
        self.rewritten(&change.of_list(self.list(), rows))
    }

    /// An accepted one with another list in its buffer; freed words are 0. 6 where the list has no room.
    pub fn rewritten(&self, list: &[u64]) -> Checked<(Vec<u64>, u64, u64)> {
        if list.len() / 2 > self.words.len() / 2 {
            return refuse(6, 0, 0);
        }
        let mut words = self.words.clone();
        words[..2 * self.pairs].fill(0);
        words[..list.len()].copy_from_slice(list);
        Ok((words, list.len() as u64 / 2, paper::len(list)))
    }

    /// What our call leaves of it, or the number that it returns.
    pub fn ours(&self, change: Change, rows: Rows) -> Result<Self, u64> {
        let mut left = (self.words.clone(), 0, 0);
        match change.call(self, rows, &mut left) {
            0 => Ok(Self {
                words: left.0,
                pairs: left.1 as usize,
                total: left.2,
            }),
            returned => Err(returned),
        }
    }

    /// The list and its total, where there are so many words.
    pub fn told(&self) -> Option<(&[u64], u64)> {
        let words = self.words.get(..self.pairs.checked_mul(2)?)?;
        Some((words, self.total))
    }
}
