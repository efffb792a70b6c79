//! Our planner of windows for missing rows, and our check of plans: on all small logs with all small plans, on our planner's plans with one
//! change, and on random logs, accepted and refused. Held against document 02 alone: the original has neither.

use crate::{
    calls::{given, wide_lent, Calls, MARK, WIDE_MARK},
    fernsponge,
    inputs::{ascending, ascending_pairs, damage_numbers, lists_of, spans_between},
    plans::{Log, Missing, Window},
    positions::paper,
    random::Random,
    table::{Against, Row},
    Size,
};
use std::{fmt::Debug, ops::Range};

const LAST: u64 = u64::MAX;

/// A plan is made and checked whole where it has at most so many windows.
const MOST_WINDOWS: usize = 5_000;

/// How missing rows come about, as the covered and the proved ones.
const WAYS: [fn(u64) -> [u64; 2]; 4] = [
    // nothing is proved
    |missing| [missing, 0],
    // all that is not covered is proved
    |missing| [missing, !missing],
    // all is covered
    |missing| [LAST, !missing],
    // of the others some are covered and proved, some proved alone, some neither
    |missing| [missing | !missing & 0x555, !missing & 0x777],
];

struct All {
    plan: Calls,
    enough: Row,
    yes: Row,
    no: Row,
    refused: Row,
    fewest: Row,
    readings: Row,
}

pub fn run(random: &mut Random, size: &Size) -> Vec<Row> {
    let mut all = All {
        plan: Calls::new("plan_refetch", "plan_refetch, refused"),
        enough: Row::new("plan_refetch: accepted, in room always enough"),
        yes: Row::new("check_plan, yes"),
        no: Row::new("check_plan, no"),
        refused: Row::new("check_plan, refused"),
        fewest: Row::again("check_plan, yes: windows no fewer than ours"),
        readings: Row::again("plans, read by runs as row by row"),
    };
    all.logs(size.logged);
    all.patterns(size.missing);
    all.plans(size.windowed);
    all.refused();
    all.limits();
    for at in 0..size.random / 16 {
        let most = match at < 4 * size.long_lists {
            true => 1_000,
            false => random.one_of(&[1, 3, 20, 60]),
        };
        all.random(random, most);
    }
    let [plan, plan_refused] = all.plan.rows();
    vec![
        plan,
        plan_refused,
        all.enough,
        all.yes,
        all.no,
        all.refused,
        all.fewest,
        all.readings,
    ]
}

impl All {
    /// All covered and all proved rows of a log of so many rows: the first that there are, and the last, where u64::MAX may be proved too.
    /// Windows of every width, none and more than the log among them.
    fn logs(&mut self, rows: usize) {
        for (base, asked) in [(0, rows), (LAST - rows as u64, rows + 1)] {
            for covered in 0..1 << rows {
                for proved in 0..1 << asked {
                    let log = log(base, [covered, proved]);
                    for most in 0..rows as u64 + 2 {
                        self.planned(&log, most);
                    }
                }
            }
        }
    }

    /// All missing rows of a log of so many rows, the first that there are and the last, however they come about. Each plan of our planner
    /// with one change, and, for windows of every width, each plan that is accepted: the missing rows, cut wherever they can be.
    fn patterns(&mut self, rows: usize) {
        for base in [0, LAST - rows as u64] {
            for missing in 0..1 << rows {
                let cut = cuttings(&numbers(base, missing));
                for (at, way) in (0..).zip(WAYS) {
                    let log = pattern(base, rows, missing, way);
                    for most in 0..rows as u64 + 2 {
                        let plan = self.planned(&log, most);
                        if (missing + most) % 4 == at && most > 0 {
                            self.changed(&log, most, &plan, 0..plan.len());
                            self.compared(&log, most, &cut);
                        }
                    }
                }
            }
        }
    }

    /// All plans of three windows between points of and beside a log of so many rows, turned round and empty ones too, and between the last
    /// points that there are.
    fn plans(&mut self, most_rows: usize) {
        for (rows, base) in [(most_rows, 0), (most_rows - 1, LAST - most_rows as u64)] {
            let points: Vec<u64> = (0..rows as u64 + 2).map(|at| base + at).collect();
            let plans = lists_of(&spans_between(&points), 3, |_| true);
            for missing in 0..1 << rows {
                for most in 1..rows as u64 + 2 {
                    let way = WAYS[(missing + most) as usize % 4];
                    let log = pattern(base, rows, missing, way);
                    self.compared(&log, most, &plans);
                }
            }
        }
    }

    /// All lists of four words, beside all lists of three positions, and even and odd plans: every fault, alone and beside the others.
    fn refused(&mut self) {
        let lists = lists_of(&[0, 1, LAST], 3, |_| true);
        for words in lists_of(&[0, 1, 2, LAST], 4, |_| true) {
            for (at, proved) in lists.iter().enumerate() {
                let log = Log::new(words.clone(), proved.clone());
                for most in [0, 1, 2, LAST] {
                    for room in [0, 1, 2, 5] {
                        self.plan(&log, most, room);
                    }
                    // every fourth as a plan, from one that differs
                    for plan in lists.iter().skip(at % 4).step_by(4) {
                        self.checked(&log, most, plan);
                    }
                }
            }
        }
        // the first that breaks a rule decides
        for pairs in lists_of(&[[0, 1], [1, 2], [3, 4], [5, 5], [6, 9]], 4, |_| true) {
            for proved in [&[][..], &[3, 3, 2], &[0, 4, 2, 2]] {
                let log = Log::new(pairs.concat(), proved.to_vec());
                self.planned(&log, 3);
            }
        }
    }

    /// None, one, and intervals at the limit of a list's items, which they do not have, up to u64::MAX: each of two rows, of which none is
    /// proved, or one, or the other, or both.
    fn limits(&mut self) {
        for count in [0, 1, 2_047, 2_048, 2_049] {
            for base in [0, LAST - 4 * count] {
                let pairs = (0..count).flat_map(|at| [base + 4 * at, base + 4 * at + 2]);
                let pairs: Vec<u64> = pairs.collect();
                for places in [&[][..], &[0], &[1, 2], &[0, 1], &[3]] {
                    let at = |at| places.iter().map(move |place| base + 4 * at + place);
                    let log = Log::new(pairs.clone(), (0..count).flat_map(at).collect());
                    for most in [1, 2, 3, 5, 6, 500, 4 * count + 1, LAST - 1, LAST] {
                        self.planned(&log, most);
                    }
                }
            }
        }
    }

    /// Intervals of so many pairs at most, short or very wide, and about as many proved rows in them and at their ends; some damaged.
    /// Windows of few rows and of very many.
    fn random(&mut self, random: &mut Random, most_pairs: usize) {
        let pairs = most_pairs as u64;
        let width = random.one_of(&[3, 8, 100, 1 << 30, LAST / 2 / pairs]) * pairs;
        let base = random.one_of(&[0, 7, LAST / 2, LAST - width]);
        let mut words = ascending_pairs(random, base, width, most_pairs);
        let mut proved = ascending(random, base, width, 2 * most_pairs);
        for word in &words {
            if random.below(3) == 0 {
                proved.extend([*word, word.saturating_sub(1)]);
            }
        }
        proved.sort();
        proved.dedup();
        for list in [&mut words, &mut proved] {
            damage_numbers(random, list);
        }
        let log = Log::new(words, proved);
        for _ in 0..2 {
            let most = match random.below(4) {
                0 => random.one_of(&[0, 1, 2, 3, 10, LAST - 1, LAST]),
                1 => 1 + width / pairs,
                2 => random.next() >> random.below(64),
                _ => 1 + random.next() % width,
            };
            // mostly so many rows that few windows are needed
            let most = match random.below(8) {
                0 => most,
                _ => most.max(width / 1_000),
            };
            let plan = self.planned(&log, most);
            if (1..MOST_WINDOWS).contains(&plan.len()) {
                let at = random.below(plan.len());
                self.changed(&log, most, &plan, at..at + 1);
            }
            let mut words = plan.concat();
            damage_numbers(random, &mut words);
            self.checked(&log, most, &words);
        }
    }

    /// Our planner with room that is just enough, with one number to spare, one number or one window short, with none, and with so much as is
    /// always enough; its plan, which is handed back, is checked.
    fn planned(&mut self, log: &Log, most: u64) -> Vec<Window> {
        let plan = log.windows(most, MOST_WINDOWS);
        let exact = 2 * plan.len();
        let fewer = [0, exact.saturating_sub(2), exact.saturating_sub(1)];
        let mut rooms = [&fewer[..], &[exact, exact + 1]].concat();
        rooms.extend(always_enough(log, most).map(|enough| 2 * enough));
        rooms.sort();
        rooms.dedup();
        for room in rooms {
            self.plan(log, most, room);
        }
        self.checked(log, most, plan.as_flattened());
        self.enough(log, most);
        if most > 0 {
            self.read(log, |missing| missing.windows(most, MOST_WINDOWS));
        }
        plan
    }

    /// An answer of the plain reading by runs, held against the one row by row where rows are few.
    fn read<T: PartialEq + Debug>(&mut self, log: &Log, answer: impl Fn(&Missing) -> T) {
        if let Some([runs, rows]) = log.both(answer) {
            self.readings
                .hold(|| format!("{log:?}"), Against::paper(runs, rows));
        }
    }

    fn plan(&mut self, log: &Log, most: u64, room: usize) {
        let lent = wide_lent(room);
        self.plan.hold_paper(
            || format!("{log:?}, at most {most} rows, {room} numbers lent"),
            (lent.clone(), WIDE_MARK),
            |(out, windows)| {
                fernsponge::plan_refetch(&log.intervals, &log.proved, most, out, windows)
            },
            log.plan_refetch(most, &lent),
        );
    }

    /// Our planner's plan of an accepted log, in the room that is always enough, is accepted (02 §9.8). Tells how many windows it has, where
    /// they are not too many to be made.
    fn enough(&mut self, log: &Log, most: u64) -> Option<usize> {
        let enough = always_enough(log, most)?;
        let (mut out, mut count, mut yes) = (wide_lent(2 * enough), WIDE_MARK, MARK);
        let (intervals, proved) = (&log.intervals, &log.proved);
        let planned = fernsponge::plan_refetch(intervals, proved, most, &mut out, &mut count);
        let count = enough.min(count as usize);
        let plan = &out[..2 * count];
        let checked = fernsponge::check_plan(intervals, proved, most, plan, &mut yes);
        self.enough.hold(
            || format!("{log:?}, at most {most} rows"),
            Against::paper((planned, checked, yes), (0, 0, 1)),
        );
        Some(count)
    }

    /// Each of some plans, checked: where it is accepted, it has no fewer windows than our planner's.
    fn compared(&mut self, log: &Log, most: u64, plans: &[Vec<Window>]) {
        let fewest = self.enough(log, most);
        for plan in plans {
            self.read(log, |missing| missing.accepts(most, plan));
            if let (true, Some(fewest)) = (self.checked(log, most, plan.as_flattened()), fewest) {
                self.fewest.hold(
                    || format!("{plan:?} of {log:?}, at most {most} rows"),
                    Against::paper(plan.len() >= fewest, true),
                );
            }
        }
    }

    /// A plan with one change at each of some windows, checked.
    fn changed(&mut self, log: &Log, most: u64, plan: &[Window], windows: Range<usize>) {
        for at in windows {
            for changed in changes(plan, at) {
                self.read(log, |missing| missing.accepts(most, &changed));
                self.checked(log, most, changed.as_flattened());
            }
        }
    }

    /// Tells whether a plan is accepted.
    fn checked(&mut self, log: &Log, most: u64, words: &[u64]) -> bool {
        let input = || format!("{words:?} of {log:?}, at most {most} rows");
        let answer = log.check_plan(most, words);
        let row = match answer {
            Ok(true) => &mut self.yes,
            Ok(false) => &mut self.no,
            Err(_) => &mut self.refused,
        };
        let mut yes = MARK;
        let returned = fernsponge::check_plan(&log.intervals, &log.proved, most, words, &mut yes);
        row.hold(
            input,
            Against::paper((returned, yes), given(MARK, answer.map(u32::from))),
        );
        answer == Ok(true)
    }
}

/// How many windows are always enough, where they are not too many to be made.
fn always_enough(log: &Log, most: u64) -> Option<usize> {
    log.enough(most).filter(|enough| *enough <= MOST_WINDOWS)
}

/// The log whose covered and proved rows are the bits that are set, from a base on.
fn log(base: u64, [covered, proved]: [u64; 2]) -> Log {
    let rows = numbers(base, covered);
    let pairs = paper::canonical(rows.iter().map(|row| [*row, row + 1]).collect());
    Log::new(pairs.concat(), numbers(base, proved))
}

/// A log of so many rows, of which some are missing in one of the ways.
fn pattern(base: u64, rows: usize, missing: u64, way: fn(u64) -> [u64; 2]) -> Log {
    let of_log = (1 << rows) - 1;
    log(base, way(missing).map(|rows| rows & of_log))
}

/// The numbers from a base on whose bits are set.
fn numbers(base: u64, bits: u64) -> Vec<u64> {
    let set = (0..64).filter(|at| bits >> at & 1 == 1);
    set.map(|at| base + at).collect()
}

/// Every way to cut rows into groups of neighbours, each group as the window from its first row to its last.
fn cuttings(rows: &[u64]) -> Vec<Vec<Window>> {
    let places = rows.len().saturating_sub(1);
    let cut = |bits: u32| {
        let mut windows: Vec<Window> = vec![];
        for (at, &row) in rows.iter().enumerate() {
            match windows.last_mut() {
                Some(last) if bits >> (at - 1) & 1 == 0 => last[1] = row + 1,
                _ => windows.push([row, row + 1]),
            }
        }
        windows
    };
    (0..1 << places).map(cut).collect()
}

/// A plan with one change at a window: one of its numbers is one less or more, it is turned round, emptied, dropped, doubled, followed by one
/// more row, split, or swapped or joined with the next.
fn changes(plan: &[Window], at: usize) -> Vec<Vec<Window>> {
    let [start, end] = plan[at];
    let middle = start + (end - start) / 2;
    let put = |past: usize, windows: &[Window]| [&plan[..at], windows, &plan[past..]].concat();
    let here = |windows: &[Window]| put(at + 1, windows);
    let mut changes = vec![
        here(&[[start.wrapping_sub(1), end]]),
        here(&[[start + 1, end]]),
        here(&[[start, end - 1]]),
        here(&[[start, end.wrapping_add(1)]]),
        here(&[[end, start]]),
        here(&[[start, start]]),
        here(&[]),
        here(&[[start, end], [start, end]]),
        here(&[[start, end], [end, end.wrapping_add(1)]]),
        here(&[[start, middle], [middle, end]]),
    ];
    if let Some(next) = plan.get(at + 1) {
        changes.push(put(at + 2, &[*next, [start, end]]));
        changes.push(put(at + 2, &[[start, next[1]]]));
    }
    changes
}
