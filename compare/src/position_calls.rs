//! Module 6: our reading of position keys, and our call on position queries: on all lists of two items over few positions, on random lists,
//! short and long, and on what is refused or nearly so.

use crate::{
    calls::{wide_lent, Calls, WIDE_MARK},
    fernsponge, hexadecimal,
    inputs::{bytes, damage, lists_of, plain_items, POOL_LENGTHS},
    items::{has_end, has_start, list_holds, Words},
    many::items,
    positions::{paper, position_keys, position_pool, rust},
    random::Random,
    refusals,
    table::{Against, Held, Row},
    Size,
};

const LAST: u64 = u64::MAX;

/// Positions near the two ends, and counts of rows among and beside them.
const POSITIONS: [u64; 10] = [0, 1, 5, 6, LAST - 1, LAST, 2, 3, 4, LAST - 2];
const COUNTS: [u64; 7] = [0, 1, 6, 7, 100, LAST - 1, LAST];

struct All {
    key: Calls,
    query: Calls,
    table: Row,
    calls: usize,
}

pub fn run(random: &mut Random, size: &Size) -> Vec<Row> {
    let mut all = All {
        key: Calls::new("be_u64", "be_u64, refused"),
        query: Calls::new("from_query_items", "from_query_items, refused"),
        table: Row::new("from_query_items: positions, by the table"),
        calls: 0,
    };
    all.keys(random, size);
    all.lists(&POSITIONS[..size.positions]);
    all.edges();
    all.limits();
    for at in 0..size.random / 4 {
        let most = match at % 1_000 {
            0 => 2_046 + random.below(4),
            _ => 1 + random.below(12),
        };
        all.random(random, most);
    }
    let mut rows: Vec<Row> = [all.key, all.query]
        .into_iter()
        .flat_map(Calls::rows)
        .collect();
    rows.push(all.table);
    rows
}

impl All {
    fn keys(&mut self, random: &mut Random, size: &Size) {
        for length in (0..20).chain([254, 255, 256, 300]) {
            for _ in 0..100 {
                let key = bytes(random, length);
                self.key(&key);
            }
        }
        for position in POSITIONS {
            self.key(&position.to_be_bytes());
        }
        for bit in 0..64 {
            self.key(&(1u64 << bit).to_be_bytes());
        }
        for _ in 0..size.random / 4 {
            self.key(&random.next().to_be_bytes());
            let length = random.below(300);
            let key = bytes(random, length);
            self.key(&key);
        }
    }

    /// Every list of at most two items over the positions, upright or not, at each count.
    fn lists(&mut self, positions: &[u64]) {
        let pool = position_pool(positions);
        let items = plain_items(&position_keys(positions));
        for list in lists_of(&items, 2, |_| true) {
            for count in COUNTS {
                self.query(&pool, &list.concat(), count);
                let asked = positions[self.calls % positions.len()];
                self.position(&pool, &list.concat(), count, asked);
            }
        }
    }

    /// Every fault of an item, alone, before and after others; shapes, and pools at the limit.
    fn edges(&mut self) {
        let key = |wrapper, length| [0, wrapper, 0, length, 0, 0];
        let (good, short, long, wrapped) = (key(0, 8), key(0, 7), key(0, 9), key(1, 8));
        let faulty = [
            good,
            short,
            long,
            key(0, 0),
            wrapped,
            key(2, 8),
            key(3, 8),
            // 5 before 7, 1 before 5, 2 before 5 and 7
            key(1, 7),
            key(4, 7),
            key(1, 300),
            key(0, 300),
            [10, 0, 0, 8, 0, 0],
            [3, 1, 0, 0, 0, 0],
            [3, 0, 0, 8, 0, 0],
            [2, 0, 0, 8, 0, 7],
            [2, 0, 0, 7, 0, 300],
            [1, 0, 4, 8, 0, 8],
            [5, 0, 0, 0, 0, 9],
            [7, 0, u32::MAX, 8, 0, 0],
        ];
        let mut lists = lists_of(&faulty, 3, |_| true);
        lists.push(vec![good; 2_049]);
        lists.push(vec![short; 2_049]);
        lists.extend([254, 255, 256].map(|length| vec![key(0, length)]));
        for length in [12, 400].into_iter().chain(POOL_LENGTHS) {
            let pool = vec![0; length];
            for list in &lists {
                self.query(&pool, &list.concat(), 1);
            }
            let words = [good, short].concat();
            for length in 0..12 {
                self.query(&pool, &words[..length], 1);
            }
            // to the end of the pool, and past it
            for past in 0..=8 {
                self.query(&pool, &[0, 0, (length - 8 + past) as u32, 8, 0, 0], 1);
            }
        }
    }

    /// None, one, and items at the limit, whose positions ascend or descend: apart, adjacent, or all one; up to u64::MAX, which no item
    /// covers. In pools at the limit, with room that is just enough, one number or one pair short, or spare.
    fn limits(&mut self) {
        for length in POOL_LENGTHS {
            for step in [2, 1, 0] {
                // each at its place in the pool, the last one u64::MAX
                let positions: Vec<u64> = (0..2_049).map(|at| LAST - (2_048 - at) * step).collect();
                let mut pool = position_pool(&positions);
                pool.resize(length, 0);
                for count in [0, 1, 2_047, 2_048, 2_049] {
                    let key = |at: usize| [0, 0, 8 * (2_048 - at) as u32, 8, 0, 0];
                    let descending: Vec<Words> = (0..count).map(key).collect();
                    let ascending: Vec<Words> = descending.iter().rev().copied().collect();
                    for list in [descending, ascending] {
                        let words = list.concat();
                        for rows in [0, LAST - 1, LAST] {
                            let ranges = match refusals::position_items(&pool, &words) {
                                Ok(()) => paper::ranges(&pool, &words, rows).len(),
                                Err(_) => count,
                            };
                            let exact = 2 * ranges;
                            for room in [exact, exact.saturating_sub(1), exact.saturating_sub(2)] {
                                self.query_in(&pool, &words, rows, room);
                            }
                            self.query_in(&pool, &words, rows, exact + 1);
                        }
                    }
                }
            }
        }
    }

    /// Few items of all kinds among positions that are often close, or many short ones all along the positions.
    fn random(&mut self, random: &mut Random, most: usize) {
        let few = most < 20;
        let width = match few {
            true => random.one_of(&[4, 30, 1_000, LAST]),
            false => random.one_of(&[most as u64, 20 * most as u64, LAST]),
        };
        let base = random.one_of(&[0, 0, LAST - 3, LAST - 20, LAST / 2]);
        let mut near = || base.saturating_add(random.next() % width);
        let mut positions: Vec<u64> = (0..most).map(|_| near()).collect();
        positions.sort();
        let pool = position_pool(&positions);
        let mut words = vec![];
        for _ in 0..most {
            let start = random.below(most);
            let (code, end) = match few {
                true => (random.below(10) as u32, random.below(most)),
                false => (random.one_of(&[0, 1, 2, 8, 9]), start + random.below(3)),
            };
            let key = |at: usize| [8 * at.min(most - 1) as u32, 8];
            let [a, b] = if has_start(code) { key(start) } else { [0; 2] };
            let [c, d] = if has_end(code) { key(end) } else { [0; 2] };
            words.extend([code, 0, a, b, c, d]);
        }
        if random.below(8) == 0 {
            damage(random, &mut words, &pool);
        }
        let count = match random.below(4) {
            0 => random.one_of(&COUNTS),
            1 => LAST,
            _ => random.one_of(&positions),
        };
        self.query(&pool, &words, count);
        let asked = random.one_of(&positions);
        self.position(&pool, &words, count, asked);
    }

    fn key(&mut self, key: &[u8]) {
        self.key.hold_all(
            || hexadecimal(key),
            WIDE_MARK,
            |position| fernsponge::be_u64(key, position),
            paper::be_u64(key),
            |returned, position| {
                Some(Held {
                    ours: told(returned, *position),
                    other: rust::be_u64(key),
                })
            },
        );
    }

    /// A call with room that suffices, just so or with some to spare, and every third time one with too little.
    fn query(&mut self, pool: &[u8], words: &[u32], count: u64) {
        self.calls += 1;
        let ranges = match refusals::position_items(pool, words) {
            Ok(()) => paper::ranges(pool, words, count).len(),
            Err(_) => words.len() / 6,
        };
        let enough = 2 * ranges + [0, 1, 2, 5][self.calls % 4];
        self.query_in(pool, words, count, enough);
        if self.calls % 3 == 0 && ranges > 0 {
            self.query_in(pool, words, count, 2 * ranges - 1 - self.calls % 2);
        }
    }

    fn query_in(&mut self, pool: &[u8], words: &[u32], count: u64, room: usize) {
        let lent = wide_lent(room);
        let answer = paper::from_query_items(pool, words, count, &lent);
        // its numbers 5 and 7 are the original's too
        let number = answer.as_ref().map_or_else(|refusal| refusal.number, |_| 0);
        self.query.hold_all(
            || {
                let pool = hexadecimal(pool);
                format!("{words:?} in {pool}, {count} rows, {room} numbers lent")
            },
            (lent, WIDE_MARK, WIDE_MARK),
            |(out, pairs, total)| {
                fernsponge::from_query_items(pool, words, count, out, pairs, total)
            },
            answer,
            |returned, (out, pairs, total)| {
                matches!(number, 0 | 5 | 7).then(|| Held {
                    ours: told(returned, (written(out, *pairs).to_vec(), *total)),
                    other: rust::from_query_items(&items(words, pool), count),
                })
            },
        );
    }

    /// Whether the written pairs hold a position: where it is below the count, and document 01's table has an item that holds it. And whether
    /// what is written is a stored list, with the total of its rows.
    fn position(&mut self, pool: &[u8], words: &[u32], count: u64, asked: u64) {
        if refusals::position_items(pool, words).is_err() {
            return;
        }
        let mut out = wide_lent(words.len());
        let (mut pairs, mut total) = (WIDE_MARK, WIDE_MARK);
        let _ = fernsponge::from_query_items(pool, words, count, &mut out, &mut pairs, &mut total);
        let mut rows = WIDE_MARK;
        let accepted = fernsponge::stored_total(&out, pairs as usize, total, &mut rows);
        let held = asked < count && list_holds(words, pool, &asked.to_be_bytes());
        self.table.hold(
            || {
                let pool = hexadecimal(pool);
                format!("{words:?} in {pool}, {count} rows, asked for {asked}")
            },
            Against::paper(
                (paper::contains(written(&out, pairs), asked), accepted, rows),
                (held, 0, paper::len(written(&out, pairs))),
            ),
        );
    }
}

/// An answer, or the number of a refusal.
fn told<T>(returned: u64, answer: T) -> Result<T, u64> {
    match returned {
        0 => Ok(answer),
        _ => Err(returned % 256),
    }
}

/// The pairs that are told to be at the front: none where there is no room for so many.
fn written(out: &[u64], pairs: u64) -> &[u64] {
    out.get(..(pairs as usize).saturating_mul(2)).unwrap_or(&[])
}
