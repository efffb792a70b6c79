//! Our calls on stored lists, which cover rows, uncover them and tell the total: on all lists and ranges of small logs, with every fault, and
//! on random lists that are changed again and again. Held against document 02 alone: the original has none of them.

use crate::{
    calls::{Calls, WIDE_MARK},
    fernsponge,
    inputs::{ascending_pairs, lists_of, some_rows, spans_between},
    random::Random,
    refusals::Checked,
    stored::{bits_of, list_of, Change, Rows, Stored, CHANGES},
    table::{Against, Row},
    Size,
};

const LAST: u64 = u64::MAX;

/// So many changes follow one another.
const CHANGED: usize = 16;

struct All {
    total: Calls,
    changes: [Calls; 2],
    readings: Row,
    stays: Row,
    twice: Row,
    order: Row,
    back: Row,
    rows: Row,
    calls: u64,
}

pub fn run(random: &mut Random, size: &Size) -> Vec<Row> {
    let mut all = All {
        total: Calls::new("stored_total", "stored_total, refused"),
        changes: [
            Calls::new("cover", "cover, refused"),
            Calls::new("uncover", "uncover, refused"),
        ],
        readings: Row::again("stored lists, read as ranges as by bits"),
        stays: Row::new("stored_total: of what cover and uncover leave"),
        twice: Row::new("cover, uncover: twice as once"),
        order: Row::new("cover, uncover: two in either order"),
        back: Row::new("uncover: gives back what rows were covered beside"),
        rows: Row::new("cover, uncover: the total by the rows that change"),
        calls: 0,
    };
    all.logs(size.stored);
    all.orders(size.stored - 4);
    all.short_words();
    all.faults();
    all.limits();
    for at in 0..size.random / 16 {
        let most = match at < 4 * size.long_lists {
            true => 1_000,
            false => random.one_of(&[1, 3, 20, 60, 200]),
        };
        all.random(random, most);
    }
    let [cover, uncover] = all.changes;
    let calls = [all.total, cover, uncover];
    let mut rows: Vec<Row> = calls.into_iter().flat_map(Calls::rows).collect();
    rows.extend([all.stays, all.twice, all.order, all.back, all.rows]);
    rows.push(all.readings);
    rows
}

/// Where a log of so many rows stands: the first rows that there are, others, and the last, of which u64::MAX is none.
fn bases(rows: usize) -> [u64; 3] {
    [0, 5, LAST - rows as u64]
}

/// The ranges between all points of a log, turned round and empty ones too, from a row before it on and up to one past it, where there are such.
fn ranges(base: u64, rows: usize) -> Vec<Rows> {
    let (first, past) = (base.saturating_sub(1), base + rows as u64);
    let points: Vec<u64> = (first..=past.saturating_add(1)).collect();
    spans_between(&points)
}

impl All {
    /// Every list of a log of so many rows and every range of it, against a set of bits, in buffers of every size that makes a difference.
    fn logs(&mut self, rows: usize) {
        for base in bases(rows) {
            let first = base.saturating_sub(1);
            for bits in 0..1 << rows {
                let bits = bits << (base - first);
                let list = list_of(first, bits);
                for range in ranges(base, rows) {
                    for change in CHANGES {
                        let after = change.of_bits(bits, bits_of(first, range));
                        self.by_bits(&list, change, range, &list_of(first, after));
                    }
                    self.laws(&list, range);
                }
            }
        }
    }

    /// A change of a list, and the list after it: with room for the one and for the other, for one pair or one word less, and for more.
    fn by_bits(&mut self, list: &[u64], change: Change, rows: Rows, after: &[u64]) {
        self.readings.hold(
            || format!("{change:?} {rows:?} of {list:?}"),
            Against::paper(&change.of_list(list, rows)[..], after),
        );
        let (before, needed) = (list.len(), after.len());
        let mut rooms = vec![before, before + 1, needed, needed + 1, needed + 2];
        rooms.extend([before, needed].map(|words| words.saturating_sub(1)));
        rooms.push(needed.saturating_sub(2));
        rooms.sort();
        rooms.dedup();
        for room in rooms {
            let stored = self.stored(list, room);
            let answer = stored.check().and_then(|()| stored.rewritten(after));
            self.held(&stored, change, rows, answer);
        }
    }

    /// A list in a buffer of so many words. Behind it stand marks, or zeros, or what could be more pairs of it.
    fn stored(&mut self, list: &[u64], room: usize) -> Stored {
        self.calls += 1;
        let (kind, last) = (self.calls % 3, list.last().map_or(0, |last| *last));
        Stored::new(list, room, |at| match kind {
            0 => WIDE_MARK + at,
            1 => 0,
            _ => last.wrapping_add(at + 1),
        })
    }

    /// Every two ranges of a log of so many rows, covered one after the other and the other way round, and uncovered so.
    fn orders(&mut self, rows: usize) {
        for base in bases(rows) {
            let ranges = ranges(base, rows);
            for bits in 0..1 << rows {
                let list = list_of(base, bits);
                for (at, one) in ranges.iter().enumerate() {
                    for other in &ranges[..at] {
                        self.order(&list, *one, *other);
                    }
                }
            }
        }
    }

    /// All lists of five words, with counts of pairs within and past them, totals right and wrong, and ranges that change something or nothing.
    fn short_words(&mut self) {
        for words in lists_of(&[0, 1, 2, LAST], 5, |_| true) {
            // twice the last three counts is -2, 0 and 2 in 64 bits
            for pairs in [0, 1, 2, 3, LAST, 1 << 63, (1 << 63) + 1] {
                self.faulty(&words, pairs as usize);
            }
        }
    }

    /// Longer lists, with every fault of a pair at every place, and two of them.
    fn faults(&mut self) {
        for pairs in 1..6 {
            let list: Vec<u64> = (0..pairs)
                .flat_map(|at| [10 * at + 2, 10 * at + 6])
                .collect();
            for at in 0..list.len() / 2 {
                for damaged in damaged(&list, at) {
                    self.faulty(&damaged, list.len() / 2);
                    self.faulty(&[&damaged[..], &[0; 3]].concat(), list.len() / 2);
                    // the first one decides
                    let last = list.len() - 2;
                    let both = [&damaged[..last], &[8, 8]].concat();
                    self.faulty(&both, list.len() / 2);
                }
            }
        }
    }

    /// Words with so many pairs: with every total that could be taken for theirs, and ranges that change nothing, something, and want room.
    fn faulty(&mut self, words: &[u64], pairs: usize) {
        let rows = |pair: &[u64]| pair[1].wrapping_sub(pair[0]);
        let list = words.chunks_exact(2).take(pairs);
        let right = list.map(rows).fold(0, u64::wrapping_add);
        let mut totals = vec![right, right.wrapping_add(1), right.wrapping_sub(1), 0, LAST];
        totals.sort();
        totals.dedup();
        for total in totals {
            let stored = Stored {
                words: words.to_vec(),
                pairs,
                total,
            };
            self.totalled(&stored);
            for range in [
                [0, 0],
                [4, 3],
                [LAST, 0],
                [3, 4],
                [8, 9],
                [0, LAST],
                [LAST - 1, LAST],
            ] {
                for change in CHANGES {
                    self.changed(&stored, change, range);
                }
            }
        }
    }

    /// None, one, and pairs at the limit of a list's items, which they do not have, from 0 on and up to u64::MAX. Each range changes one pair,
    /// all of them or none, in the first, the middle or the last.
    fn limits(&mut self) {
        for count in [0, 1, 2_047, 2_048, 2_049] {
            for base in [0, LAST - 8 * count] {
                let pairs = (0..count).flat_map(|at| [base + 8 * at + 4, base + 8 * at + 8]);
                let list: Vec<u64> = pairs.collect();
                let mut ranges = vec![[0, LAST], [base, LAST], [base, base], [LAST, base]];
                for at in [0, count / 2, count.saturating_sub(1)] {
                    let first = (base + 8 * at).min(LAST - 8);
                    ranges.extend(spans_between(&[0, 1, 4, 5, 7, 8].map(|row| first + row)));
                }
                for range in ranges {
                    for change in CHANGES {
                        for room in [0, 1, 2, 3].map(|more| list.len() + more) {
                            let stored = self.stored(&list, room);
                            self.changed(&stored, change, range);
                        }
                    }
                    self.laws(&list, range);
                }
            }
        }
    }

    /// A list of so many pairs at most, short or very wide ones, changed again and again: what a call leaves is handed to the next. Beside
    /// that, damaged.
    fn random(&mut self, random: &mut Random, most_pairs: usize) {
        let pairs = most_pairs as u64;
        let width = random.one_of(&[3, 8, 100, 1 << 30, LAST / 2 / pairs]) * pairs;
        let base = random.one_of(&[0, 7, LAST / 2, LAST - width]);
        let list = ascending_pairs(random, base, width, most_pairs);
        let room = list.len() + random.one_of(&[0, 1, 2, 5, 40]);
        let mut stored = self.stored(&list, room);
        for _ in 0..CHANGED {
            let change = random.one_of(&CHANGES);
            let rows = some_rows(random, stored.list(), [base, base + width]);
            self.changed(&stored, change, rows);
            if random.below(8) == 0 {
                let damaged = damaged_by_chance(random, &stored);
                self.totalled(&damaged);
                self.changed(&damaged, change, rows);
            }
            if let Ok(left) = stored.ours(change, rows) {
                // a list that is told wrongly has failed above
                if left.check().is_err() {
                    return;
                }
                stored = left;
            }
        }
        let [one, other] = [(); 2].map(|()| some_rows(random, stored.list(), [base, base + width]));
        self.laws(stored.list(), one);
        self.order(stored.list(), one, other);
    }

    fn totalled(&mut self, stored: &Stored) {
        let Stored {
            words,
            pairs,
            total,
        } = stored;
        self.total.hold_paper(
            || format!("{stored:?}"),
            WIDE_MARK,
            |rows| fernsponge::stored_total(words, *pairs, *total, rows),
            stored.check().map(|()| *total),
        );
    }

    fn changed(&mut self, stored: &Stored, change: Change, rows: Rows) {
        self.held(stored, change, rows, stored.changed(change, rows));
    }

    /// A change held against what it is to leave: every word and both places. What it leaves is a stored list again.
    fn held(
        &mut self,
        stored: &Stored,
        change: Change,
        rows: Rows,
        answer: Checked<(Vec<u64>, u64, u64)>,
    ) {
        let input = || format!("{change:?} {rows:?} of {stored:?}");
        let total = answer.as_ref().ok().map(|answer| answer.2);
        self.changes[change as usize].hold_paper(
            input,
            (stored.words.clone(), WIDE_MARK, WIDE_MARK),
            |left| change.call(stored, rows, left),
            answer,
        );
        if total.is_some() {
            let told = stored.ours(change, rows).ok().and_then(|left| ask(&left));
            self.stays.hold(input, Against::paper(told, total));
        }
    }

    /// What our calls on a list with room say of one another, for one range.
    fn laws(&mut self, list: &[u64], rows: Rows) {
        let stored = self.stored(list, list.len() + 4);
        let held = held_rows(list, rows);
        for change in CHANGES {
            let input = || format!("{change:?} {rows:?} of {list:?}");
            let once = stored.ours(change, rows);
            let twice = once.clone().and_then(|once| once.ours(change, rows));
            self.twice.hold(input, Against::paper(&twice, &once));
            let total = match change {
                Change::Cover => stored.total + (rows[1].saturating_sub(rows[0]) - held),
                Change::Uncover => stored.total - held,
            };
            let told = once.map(|once| once.total);
            self.rows.hold(input, Against::paper(told, Ok(total)));
        }
        if held == 0 {
            let covered = stored.ours(Change::Cover, rows);
            let back = covered.and_then(|covered| covered.ours(Change::Uncover, rows));
            self.back.hold(
                || format!("{rows:?} beside {list:?}"),
                Against::paper(back.as_ref().ok().and_then(Stored::told), stored.told()),
            );
        }
    }

    /// Two ranges, one after the other and the other way round.
    fn order(&mut self, list: &[u64], one: Rows, other: Rows) {
        let stored = self.stored(list, list.len() + 4);
        for change in CHANGES {
            let both = |first, second| stored.ours(change, first)?.ours(change, second);
            let [ours, turned] = [both(one, other), both(other, one)];
            let told = |left: &Result<Stored, u64>| {
                let left = left.as_ref().ok()?;
                left.told().map(|(list, total)| (list.to_vec(), total))
            };
            self.order.hold(
                || format!("{change:?} {one:?} and {other:?} of {list:?}"),
                Against::paper((ours.is_ok(), told(&ours)), (true, told(&turned))),
            );
        }
    }
}

/// The total by our check, where it is accepted.
fn ask(stored: &Stored) -> Option<u64> {
    let mut rows = WIDE_MARK;
    let returned = fernsponge::stored_total(&stored.words, stored.pairs, stored.total, &mut rows);
    (returned == 0).then_some(rows)
}

/// How many rows of a range a list covers.
fn held_rows(list: &[u64], [start, end]: Rows) -> u64 {
    let shared = |pair: &[u64]| pair[1].min(end).saturating_sub(pair[0].max(start));
    list.chunks(2).map(shared).sum()
}

/// A list with one fault at a pair: it is empty, turned round, starts where the one before it ends or below, is that one again, or reaches
/// the next.
fn damaged(list: &[u64], at: usize) -> Vec<Vec<u64>> {
    let [start, end] = [list[2 * at], list[2 * at + 1]];
    let mut pairs = vec![
        [start, start],
        [end, end],
        [end, start],
        [end, end - 1],
        [LAST, LAST],
    ];
    if at > 0 {
        let [first, before] = [list[2 * at - 2], list[2 * at - 1]];
        pairs.extend([
            [before, end],
            [before - 1, end],
            [first, before],
            [0, end],
            [0, LAST],
        ]);
    }
    if let Some(next) = list.get(2 * at + 2) {
        pairs.extend([[start, *next], [start, next + 1], [start, LAST]]);
    }
    let put = |pair: Rows| [&list[..2 * at], &pair, &list[2 * at + 2..]].concat();
    pairs.into_iter().map(put).collect()
}

/// Another total, more or fewer pairs, or a word of the list changed.
fn damaged_by_chance(random: &mut Random, stored: &Stored) -> Stored {
    let mut damaged = stored.clone();
    let words = 2 * stored.pairs;
    match random.below(4) {
        0 => {
            let total = stored.total;
            damaged.total = random.one_of(&[total.wrapping_add(1), total.wrapping_sub(1), 0, LAST]);
        }
        1 => {
            let pairs = stored.pairs;
            damaged.pairs = random.one_of(&[pairs + 1, pairs.saturating_sub(1), usize::MAX]);
        }
        _ if words == 0 => damaged.total = 1,
        2 => damaged.words.swap(random.below(words), random.below(words)),
        _ => damaged.words[random.below(words)] = stored.words[random.below(words)],
    }
    damaged
}
