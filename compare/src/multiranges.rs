//! Changes of stored lists made by chance, with what our calls leave, for another program to hold. A line has the words of the list, `cover` or
//! `uncover`, the two ends of the range, the words of the list that our call leaves, and its total; between these a semicolon.

use crate::{
    inputs::{ascending_pairs, some_rows},
    random::Random,
    stored::{Change, Stored, CHANGES},
    SEED,
};
use std::io::{self, BufWriter, Write};

/// So many changes of one list follow one another, and each adds one pair at most.
const OF_A_LIST: u64 = 50;

/// A list, and the rows among which it is changed.
struct Changed {
    stored: Stored,
    within: [u64; 2],
}

pub fn write(count: u64, out: &mut impl Write) -> io::Result<()> {
    let random = &mut Random::new(SEED);
    let mut out = BufWriter::new(out);
    let mut changed = Changed::new(random);
    for at in 0..count {
        if at % OF_A_LIST == 0 {
            changed = Changed::new(random);
        }
        writeln!(out, "{}", changed.line(random)?)?;
    }
    out.flush()
}

impl Changed {
    /// Few pairs, short or very wide ones, from the first rows on or up to the last, with room for all their changes.
    fn new(random: &mut Random) -> Self {
        let pairs = random.one_of(&[1, 3, 8, 20]);
        let width = random.one_of(&[4, 10, 1_000, u64::MAX / 40]) * pairs;
        let base = random.one_of(&[0, 1 << 62, u64::MAX - width]);
        let list = ascending_pairs(random, base, width, pairs as usize);
        let room = list.len() + 2 * OF_A_LIST as usize;
        Self {
            stored: Stored::new(&list, room, |_| 0),
            within: [base, base + width],
        }
    }

    /// One change, after which the list is the one that our call leaves.
    fn line(&mut self, random: &mut Random) -> io::Result<String> {
        let change = random.one_of(&CHANGES);
        let rows = some_rows(random, self.stored.list(), self.within);
        let refused = |returned| io::Error::other(format!("refused: {returned}"));
        let left = self.stored.ours(change, rows).map_err(refused)?;
        let (list, total) = left.told().ok_or(io::Error::other("no list"))?;
        let name = match change {
            Change::Cover => "cover",
            Change::Uncover => "uncover",
        };
        let (before, rows, after) = (text(self.stored.list()), text(&rows), text(list));
        self.stored = left;
        Ok(format!("{before};{name};{rows};{after};{total}"))
    }
}

fn text(words: &[u64]) -> String {
    let words: Vec<String> = words.iter().map(u64::to_string).collect();
    words.join(" ")
}
