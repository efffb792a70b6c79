//! Module 6: our calls on intervals, proved positions, spans and reports, on all short ones and on random ones, accepted and refused.

use crate::{
    calls::{Calls, MARK, WIDE_MARK},
    fernsponge::{self, Report, Span},
    inputs::{ascending, ascending_pairs, damage_numbers, lists_of, spans_between},
    position_intervals::PositionIntervals,
    positions::{paper, rust},
    random::Random,
    refusals,
    table::{Against, Held, Row},
    Size,
};

const LAST: u64 = u64::MAX;

/// Positions near the two ends.
const POINTS: [u64; 9] = [0, 1, 2, 3, 4, 5, LAST - 2, LAST - 1, LAST];

/// Numbers with few and many digits.
const NUMBERS: [u64; 8] = [0, 9, 10, 99, 1_000, 18_446_744, LAST / 2, LAST];

struct All {
    contains: Calls,
    len: Calls,
    is_empty: Calls,
    missing: Calls,
    spans: Calls,
    spanned: Row,
    extra: Calls,
    describe: Calls,
    calls: usize,
}

/// Intervals as words, and as the original's where they are accepted.
struct Intervals {
    words: Vec<u64>,
    rust: Option<PositionIntervals>,
}

impl Intervals {
    fn new(words: Vec<u64>) -> Self {
        let accepted = refusals::intervals(&words);
        let rust = accepted.ok().map(|()| rust::intervals(&words));
        Self { words, rust }
    }
}

pub fn run(random: &mut Random, size: &Size) -> Vec<Row> {
    let mut all = All {
        contains: Calls::new("contains", "contains, refused"),
        len: Calls::new("len", "len, refused"),
        is_empty: Calls::new("is_empty", "is_empty, refused"),
        missing: Calls::new("missing_from", "missing_from, refused"),
        spans: Calls::new("missing_from_spans", "missing_from_spans, refused"),
        spanned: Row::again("missing_from_spans: as missing_from gives"),
        extra: Calls::new("extra_in", "extra_in, refused"),
        describe: Calls::new("describe", "describe, refused"),
        calls: 0,
    };
    all.short();
    all.refused();
    all.limits();
    all.reports(random);
    for at in 0..size.random / 8 {
        let most = match at < 4 * size.long_lists {
            true => 5_000,
            false => random.one_of(&[3, 20, 60]),
        };
        all.random(random, most);
    }
    let calls = [
        all.contains,
        all.len,
        all.is_empty,
        all.missing,
        all.spans,
        all.extra,
        all.describe,
    ];
    let mut rows: Vec<Row> = calls.into_iter().flat_map(Calls::rows).collect();
    rows.push(all.spanned);
    rows.push(empty_report());
    rows
}

/// Document 01's constructor, which the original has not.
fn empty_report() -> Row {
    let mut row = Row::new("empty_report");
    let mut report = marked();
    let returned = fernsponge::empty_report(&mut report);
    row.hold(
        || "a marked report".into(),
        Against::paper((returned, report), (0, Report::default())),
    );
    row
}

impl All {
    /// All canonical intervals whose ends are points, each with all sets of proved points and with all accepted lists of two spans between
    /// points, empty and touching ones too.
    fn short(&mut self) {
        let sets: Vec<Vec<u64>> = (0..1 << POINTS.len()).map(chosen).collect();
        let lists = lists_of(&spans_between(&POINTS), 2, |spans| {
            refusals::spans(&[], spans).is_ok()
        });
        for words in sets.iter().filter(|set| set.len() % 2 == 0) {
            let intervals = Intervals::new(words.clone());
            self.asked(&intervals, &POINTS);
            for proved in &sets {
                self.compared(&intervals, proved);
            }
            for spans in &lists {
                self.spanned(&intervals, spans);
            }
        }
    }

    /// All lists of four words, beside all lists of three positions and of two spans: odd ones, empty, touching and crossing pairs, repeated
    /// and descending positions, crossing and descending spans.
    fn refused(&mut self) {
        let positions = lists_of(&[0, 1, LAST], 3, |_| true);
        let lists = lists_of(&spans_between(&[0, 1, LAST]), 2, |_| true);
        for words in lists_of(&[0, 1, 2, LAST], 4, |_| true) {
            let intervals = Intervals::new(words);
            self.asked(&intervals, &[1]);
            for proved in &positions {
                self.compared(&intervals, proved);
            }
            for spans in &lists {
                self.spanned(&intervals, spans);
            }
        }
        // the first that breaks a rule decides
        for words in lists_of(&[[0, 1], [1, 2], [3, 4], [5, 5], [6, 9]], 4, |_| true) {
            self.asked(&Intervals::new(words.concat()), &[3]);
            self.spanned(&Intervals::new(vec![0, 4, 6, 8]), &words);
        }
        for spans in lists_of(&[[0, 1], [1, 0], [1, 5], [5, 5], [4, 6], [7, 9]], 4, |_| {
            true
        }) {
            self.spanned(&Intervals::new(vec![0, 2, 3, 9]), &spans);
        }
    }

    /// None, one, and pairs and positions at the limit of a list's items, which intervals and positions do not have, up to u64::MAX: every
    /// interval of two positions, of which all are proved, or every second one, or the one after it, or positions between them alone.
    fn limits(&mut self) {
        for count in [0, 1, 2_047, 2_048, 2_049] {
            for base in [0, LAST - 4 * count] {
                let pairs = (0..count).flat_map(|at| [base + 4 * at, base + 4 * at + 2]);
                let intervals = Intervals::new(pairs.collect());
                self.asked(&intervals, &[0, base, base + 4 * count, LAST - 1, LAST]);
                for places in [&[0, 1][..], &[0], &[1, 2], &[3, 4], &[0, 1, 2, 3]] {
                    let at = |at| places.iter().map(move |place| base + 4 * at + place);
                    let mut proved: Vec<u64> = (0..count).flat_map(at).collect();
                    self.compared(&intervals, &proved);
                    proved.push(LAST);
                    self.compared(&intervals, &proved);
                }
            }
        }
    }

    /// Reports with every number of examples, and totals that are as many, more and fewer; unused places are not 0 in all.
    fn reports(&mut self, random: &mut Random) {
        for count in (0..=18).chain([255, 256, LAST]) {
            let near = [count.saturating_sub(1), count, count.saturating_add(1)];
            for total in near.into_iter().chain([0, 15, 16, 17, LAST - 1, LAST]) {
                for number in NUMBERS {
                    let mixed = std::array::from_fn(|_| random.one_of(&NUMBERS));
                    for examples in [[number; 16], mixed] {
                        self.describe(&Report {
                            total,
                            count,
                            examples,
                        });
                    }
                }
            }
        }
    }

    /// Intervals of so many pairs at most, and about as many positions and spans in and near them; some damaged.
    fn random(&mut self, random: &mut Random, most: usize) {
        let width = random.one_of(&[3, 8, 100]) * most as u64;
        let base = random.one_of(&[0, 7, LAST / 2, LAST - width]);
        let mut words = ascending_pairs(random, base, width, most);
        let mut some = |count: usize| ascending(random, base, width, count);
        let mut proved = some(2 * most);
        // spans between neighbours; some points stand there twice
        let mut ends = some(2 * most);
        let again: Vec<u64> = ends.iter().copied().step_by(1 + most / 4).collect();
        ends.extend(again);
        ends.sort();
        if random.below(2) == 0 {
            // runs of proved positions
            let run = 1 + random.below(most) as u64;
            proved.extend((base..).take(run as usize));
            proved.sort();
            proved.dedup();
        }
        for list in [&mut words, &mut proved, &mut ends] {
            damage_numbers(random, list);
        }
        let mut asked = vec![base, base + width];
        for _ in 0..4 {
            asked.extend(words.get(random.below(words.len() + 1)));
            asked.push(base + random.next() % (width + 1));
        }
        let intervals = Intervals::new(words);
        self.asked(&intervals, &asked);
        self.compared(&intervals, &proved);
        let spans: Vec<Span> = ends.chunks_exact(2).map(|at| [at[0], at[1]]).collect();
        self.spanned(&intervals, &spans);
    }

    fn asked(&mut self, intervals: &Intervals, positions: &[u64]) {
        let words = &intervals.words[..];
        let accepted = refusals::intervals(words);
        for &position in positions {
            self.contains.hold(
                || format!("{position} in {words:?}"),
                MARK,
                |yes| fernsponge::contains(words, position, yes),
                accepted.map(|()| u32::from(paper::contains(words, position))),
                |yes| Held {
                    ours: Some(*yes),
                    other: intervals
                        .rust
                        .as_ref()
                        .map(|rust| u32::from(rust.contains(position))),
                },
            );
        }
        self.len.hold(
            || format!("{words:?}"),
            WIDE_MARK,
            |rows| fernsponge::len(words, rows),
            accepted.map(|()| paper::len(words)),
            |rows| Held {
                ours: Some(*rows),
                other: intervals.rust.as_ref().map(PositionIntervals::len),
            },
        );
        // the original's own is_empty is built for its tests alone: it asks whether there are no ranges
        self.is_empty.hold(
            || format!("{words:?}"),
            MARK,
            |yes| fernsponge::is_empty(words, yes),
            accepted.map(|()| u32::from(words.is_empty())),
            |yes| Held {
                ours: Some(*yes),
                other: intervals
                    .rust
                    .as_ref()
                    .map(|rust| u32::from(rust.ranges().is_empty())),
            },
        );
    }

    fn compared(&mut self, intervals: &Intervals, proved: &[u64]) {
        self.calls += 1;
        let words = &intervals.words[..];
        let accepted = refusals::proved(words, proved);
        let input = || format!("{words:?} and {proved:?}");
        let missing = accepted.map(|()| paper::missing_from(words, proved));
        let extra = accepted.map(|()| paper::extra_in(words, proved));
        let reports = [missing.clone(), extra.clone()];
        self.missing.hold(
            input,
            marked(),
            |report| fernsponge::missing_from(words, proved, report),
            missing,
            |report| Held {
                ours: Some(report.clone()),
                other: (intervals.rust.as_ref()).map(|rust| rust::missing_from(rust, proved)),
            },
        );
        self.extra.hold(
            input,
            marked(),
            |report| fernsponge::extra_in(words, proved, report),
            extra,
            |report| Held {
                ours: Some(report.clone()),
                other: (intervals.rust.as_ref()).map(|rust| rust::extra_in(rust, proved)),
            },
        );
        if self.calls % 16 == 0 {
            for report in reports.into_iter().flatten() {
                self.describe(&report);
            }
        }
    }

    fn spanned(&mut self, intervals: &Intervals, spans: &[Span]) {
        let words = &intervals.words[..];
        let accepted = refusals::spans(words, spans);
        let input = || format!("{words:?} and {spans:?}");
        self.spans.hold(
            input,
            marked(),
            |report| fernsponge::missing_from_spans(words, spans, report),
            accepted.map(|()| paper::missing_from_spans(words, spans)),
            |report| Held {
                ours: Some(report.clone()),
                other: (intervals.rust.as_ref()).map(|rust| rust::missing_from_spans(rust, spans)),
            },
        );
        let width = |[start, end]: &Span| end.saturating_sub(*start);
        let few = spans.iter().map(width).fold(0, u64::saturating_add) < 1_000;
        if accepted.is_ok() && few {
            let proved: Vec<u64> = spans.iter().flat_map(|[start, end]| *start..*end).collect();
            let [mut ours, mut other] = [marked(), marked()];
            let returned = [
                fernsponge::missing_from_spans(words, spans, &mut ours),
                fernsponge::missing_from(words, &proved, &mut other),
            ];
            self.spanned.hold(
                input,
                Against::paper((returned[0], ours), (returned[1], other)),
            );
        }
    }

    /// A text with room for the longest, with just enough, with one byte more or fewer, and with none at all.
    fn describe(&mut self, report: &Report) {
        let length = match report.count {
            0..=16 => rust::describe(report).len(),
            _ => 0,
        };
        for room in [394, length, length + 1, length.saturating_sub(1), 0] {
            let lent = vec![0xFE; room];
            self.describe.hold(
                || format!("{report:?}, {room} bytes lent"),
                (lent.clone(), WIDE_MARK),
                |(out, length)| fernsponge::describe(report, out, length),
                paper::describe(report, &lent),
                |(out, length)| Held {
                    ours: text(out, *length),
                    other: rust::describe(report),
                },
            );
        }
    }
}

/// The points whose bit is set.
fn chosen(bits: u32) -> Vec<u64> {
    let set = |at: &usize| bits >> at & 1 == 1;
    (0..POINTS.len()).filter(set).map(|at| POINTS[at]).collect()
}

/// The text that is told to be at the front: none where there is no room for so much.
fn text(out: &[u8], length: u64) -> String {
    let text = out.get(..length as usize).unwrap_or(&[]);
    String::from_utf8_lossy(text).to_string()
}

/// A report lent for writing.
fn marked() -> Report {
    Report {
        total: WIDE_MARK,
        count: WIDE_MARK + 1,
        examples: std::array::from_fn(|at| WIDE_MARK + 2 + at as u64),
    }
}
