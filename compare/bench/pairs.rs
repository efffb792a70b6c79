//! The reference for stored lists: a `Vec` of pairs and a total kept beside it, as one writes it in Rust, unproved. It takes for granted that the
//! pairs are canonical and that the total is theirs.

use compare::stored::{Change, Rows};

#[derive(Clone)]
pub struct Pairs {
    pub pairs: Vec<(u64, u64)>,
    pub total: u64,
}

impl Pairs {
    pub fn new(list: &[u64], total: u64) -> Self {
        let pairs = list.chunks_exact(2).map(|pair| (pair[0], pair[1]));
        Self {
            pairs: pairs.collect(),
            total,
        }
    }

    pub fn change(&mut self, change: Change, [start, end]: Rows) {
        if start >= end {
            return;
        }
        match change {
            Change::Cover => self.cover(start, end),
            Change::Uncover => self.uncover(start, end),
        }
    }

    /// The pairs that the range meets or touches become one.
    fn cover(&mut self, start: u64, end: u64) {
        let pairs = &mut self.pairs;
        let from = pairs.partition_point(|pair| pair.1 < start);
        let past = from + pairs[from..].partition_point(|pair| pair.0 <= end);
        if from == past {
            pairs.insert(from, (start, end));
            self.total += end - start;
            return;
        }
        let joined = (start.min(pairs[from].0), end.max(pairs[past - 1].1));
        self.total += joined.1 - joined.0 - rows(&pairs[from..past]);
        pairs[from] = joined;
        pairs.drain(from + 1..past);
    }

    /// Of the pairs that the range meets, the first may keep what is below it, and the last what is above.
    fn uncover(&mut self, start: u64, end: u64) {
        let pairs = &mut self.pairs;
        let from = pairs.partition_point(|pair| pair.1 <= start);
        let past = from + pairs[from..].partition_point(|pair| pair.0 < end);
        if from == past {
            return;
        }
        self.total -= rows(&pairs[from..past]);
        let (below, above) = ((pairs[from].0, start), (end, pairs[past - 1].1));
        let mut kept = from;
        if below.0 < below.1 {
            self.total += below.1 - below.0;
            pairs[kept] = below;
            kept += 1;
        }
        if above.0 < above.1 {
            self.total += above.1 - above.0;
            match kept < past {
                true => pairs[kept] = above,
                false => pairs.insert(kept, above),
            }
            kept += 1;
        }
        if kept < past {
            pairs.drain(kept..past);
        }
    }
}

fn rows(pairs: &[(u64, u64)]) -> u64 {
    pairs.iter().map(|pair| pair.1 - pair.0).sum()
}
