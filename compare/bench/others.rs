//! Key comparison, insertion, positions, and plans for missing ones.

use crate::timing::{calls, least, prepared};
use compare::{
    earlier::{Compare, COMPARES},
    fernsponge::{self, Report},
    inputs::alike_keys,
    items::read,
    plans::Log,
    random::Random,
    table::grouped,
    timed::{Covered, Off, Positions},
    Query, QueryItem, SEED,
};
use std::hint::black_box;

/// The least times of one call, in nanoseconds. The reference is what the standard library has for it.
pub struct Line {
    pub what: String,
    pub ours: Option<f64>,
    pub rust: f64,
    pub reference: Option<f64>,
}

/// Two keys of one length, which differ in one byte or in none, and what that is called.
fn two_keys() -> Vec<(String, Vec<u8>, Vec<u8>)> {
    let mut keys = vec![];
    for length in [8, 32, 200, 255] {
        for (place, at) in [
            ("first", Some(0)),
            ("middle", Some(length / 2)),
            ("last", Some(length - 1)),
            ("no", None),
        ] {
            let a = vec![0x7F; length];
            let mut b = a.clone();
            if let Some(at) = at {
                b[at] = 0x80;
            }
            keys.push((format!("{length} bytes, {place} byte differs"), a, b));
        }
    }
    keys
}

/// Two keys, by their length and the place of the byte in which they differ (02 §3.3). The reference is the standard library's order of slices.
pub fn key_comparison() -> Vec<Line> {
    let mut lines = vec![];
    for (what, a, b) in two_keys() {
        let order = a.cmp(&b) as i8 + 1;
        assert_eq!(fernsponge::compare(&a, &b), order as u64);
        assert_eq!(QueryItem::compare(&a, &b) as i8 + 1, order);
        let (a, b) = (&a[..], &b[..]);
        let [ours, rust, reference] = least([
            calls(move || fernsponge::compare(black_box(a), black_box(b))),
            calls(move || QueryItem::compare(black_box(a), black_box(b))),
            calls(move || black_box(a).cmp(black_box(b))),
        ]);
        lines.push(Line {
            what,
            ours: Some(ours),
            rust,
            reference: Some(reference),
        });
    }
    lines
}

/// The least times of one comparison, ours and an earlier library's, in nanoseconds.
pub struct Compared {
    pub what: String,
    pub ours: f64,
    pub earlier: f64,
}

/// The same keys beside an earlier library, where there is one.
pub fn keys_beside_earlier() -> Vec<Compared> {
    let Some(both) = COMPARES else {
        return vec![];
    };
    let timed = |(what, a, b): (String, Vec<u8>, Vec<u8>)| {
        let (a, b) = (&a[..], &b[..]);
        let side = |call: Compare| calls(move || call(black_box(a), black_box(b)));
        let [ours, earlier] = both.map(|call| call(a, b));
        assert_eq!(ours, earlier, "{what}");
        let [ours, earlier] = least(both.map(side));
        Compared {
            what,
            ours,
            earlier,
        }
    };
    two_keys().into_iter().map(timed).collect()
}

/// A key into 2,047 keys, none of which it meets.
pub fn insertion() -> Vec<Line> {
    const COUNT: usize = 2_047;
    let mut lines = vec![];
    for length in [8, 32, 200] {
        let (pool, keys) = alike_keys(length, 2 * COUNT + 1);
        let item = |at: usize| [0, 0, keys[at][0], keys[at][1], 0, 0];
        let list: Vec<u32> = (0..COUNT).flat_map(|at| item(2 * at + 1)).collect();
        let items: Vec<QueryItem> = list.chunks(6).filter_map(|it| read(it, &pool)).collect();
        for (place, at) in [("first", 0), ("middle", COUNT / 2), ("last", COUNT)] {
            let new = item(2 * at);
            let rust_item = read(&new, &pool).expect("the words are an item's");
            let full = || [&list[..], &[0; 6]].concat();
            let lent = || {
                let items = items.clone();
                (Query { items }, Some(rust_item.clone()))
            };
            let insert = |words: &mut Vec<u32>| {
                let mut after = 0;
                let returned = fernsponge::insert_item(&pool, words, COUNT, &new, &mut after);
                (returned, after)
            };
            let rust_insert = |(query, item): &mut (Query, Option<QueryItem>)| {
                query.insert_item(item.take().expect("an item for every call"));
            };
            let (mut words, mut query) = (full(), lent());
            assert_eq!(insert(&mut words), (0, COUNT as u64 + 1));
            rust_insert(&mut query);
            let written = words.chunks(6).filter_map(|it| read(it, &pool));
            assert_eq!(written.collect::<Vec<_>>(), query.0.items);
            let [ours, rust] = least([prepared(full, insert), prepared(lent, rust_insert)]);
            lines.push(Line {
                what: format!("keys of {length} bytes, into 2,047, put {place}"),
                ours: Some(ours),
                rust,
                reference: None,
            });
        }
    }
    lines
}

/// The intervals of 2,048 ranges that do not touch, and of 2,048 that overlap in pairs.
pub fn building() -> Vec<Line> {
    const COUNT: u64 = 2_048;
    let mut lines = vec![];
    for (shape, width) in [("apart", 4), ("overlapping in pairs", 12)] {
        let positions = (0..COUNT).flat_map(|at| [32 * (at / 2) + 8 * (at % 2), width]);
        let positions: Vec<u64> = positions.collect();
        let ranges = positions.chunks(2).map(|pair| [pair[0], pair[0] + pair[1]]);
        let ranges: Vec<[u64; 2]> = ranges.collect();
        let pool: Vec<u8> = (ranges.iter().flatten())
            .flat_map(|position| position.to_be_bytes())
            .collect();
        let item = |at: u32| [1, 0, 16 * at, 8, 16 * at + 8, 8];
        let mut order: Vec<u32> = (0..COUNT as u32).collect();
        for shuffled in [false, true] {
            if shuffled {
                let random = &mut Random::new(SEED);
                for at in 1..order.len() {
                    order.swap(at, random.below(at + 1));
                }
            }
            let words: Vec<u32> = order.iter().flat_map(|at| item(*at)).collect();
            let items: Vec<QueryItem> = words.chunks(6).filter_map(|it| read(it, &pool)).collect();
            let mut out = vec![0; 2 * COUNT as usize];
            let [mut pairs, mut total] = [0; 2];
            let mut build = || {
                let out = &mut out[..];
                let _ = fernsponge::from_query_items(
                    &pool,
                    &words,
                    u64::MAX,
                    out,
                    &mut pairs,
                    &mut total,
                );
                (out.to_vec(), pairs, total)
            };
            let (written, pairs, total) = build();
            let told = &written[..2 * pairs as usize];
            let covered = Covered::new(&items, u64::MAX);
            assert_eq!((told, total), (&covered.pairs()[..], covered.rows()));
            let mut out = vec![0; 2 * COUNT as usize];
            let [mut pairs, mut total] = [0; 2];
            let (pool, words, items) = (&pool[..], &words[..], &items[..]);
            let [ours, rust] = least([
                calls(move || {
                    let (pool, out) = (black_box(pool), &mut out);
                    fernsponge::from_query_items(pool, words, u64::MAX, out, &mut pairs, &mut total)
                }),
                calls(move || Covered::new(black_box(items), u64::MAX)),
            ]);
            let in_order = if shuffled { "shuffled" } else { "ascending" };
            lines.push(Line {
                what: format!("2,048 items, {shape}, {in_order}"),
                ours: Some(ours),
                rust,
                reference: None,
            });
        }
    }
    lines
}

/// How wide intervals are, and the step from one proved position to the next: all of the intervals is proved, or every second row; in the
/// last two the same positions, of which half stand between the intervals, or all in them.
const ALL_PROVED: (u64, u64) = (50, 1);
const HALF_BETWEEN: (u64, u64) = (50, 2);
const ALL_COVERED: (u64, u64) = (100, 2);

const SHAPES: [(&str, (u64, u64)); 2] = [
    ("all proved", ALL_PROVED),
    ("every second one missing", HALF_BETWEEN),
];

/// 2,000 intervals, each twice its width after the one before, and 50 proved positions from the start of each on.
fn intervals_and_proved((width, step): (u64, u64)) -> [Vec<u64>; 2] {
    const INTERVALS: u64 = 2_000;
    let starts = || (0..INTERVALS).map(|at| 2 * width * at);
    let intervals: Vec<u64> = starts().flat_map(|start| [start, start + width]).collect();
    let proved: Vec<u64> = starts()
        .flat_map(|start| (0..50).map(move |at| start + step * at))
        .collect();
    assert_eq!((intervals.len(), proved.len()), (2 * 2_000, 100_000));
    [intervals, proved]
}

/// 2,000 intervals, and 100,000 positions that are all theirs, or half of which stand between them.
pub fn mismatches() -> Vec<Line> {
    let mut lines = vec![];
    for (shape, steps) in SHAPES {
        let [intervals, proved] = intervals_and_proved(steps);
        let spans = spans_of(&proved);
        let rust = Positions::new(&intervals, &proved, &spans);
        let (intervals, proved, spans, rust) = (&intervals[..], &proved[..], &spans[..], &rust);
        let [mut a, mut b] = [(); 2].map(|()| empty());
        let _ = fernsponge::missing_from(intervals, proved, &mut a);
        let _ = fernsponge::extra_in(intervals, proved, &mut b);
        hold(&a, &rust.missing_from());
        hold(&b, &rust.extra_in());
        let [missing, rust_missing, extra, rust_extra] = least([
            calls(move || fernsponge::missing_from(black_box(intervals), proved, &mut a)),
            calls(move || black_box(rust).missing_from()),
            calls(move || fernsponge::extra_in(black_box(intervals), proved, &mut b)),
            calls(move || black_box(rust).extra_in()),
        ]);
        let counted = format!("2,000 intervals, 100,000 positions, {shape}");
        let mut line = |name: &str, ours, rust| {
            lines.push(Line {
                what: format!("{name}: {counted}"),
                ours,
                rust,
                reference: None,
            });
        };
        line("missing_from", Some(missing), rust_missing);
        let (ours, rust) = missing_from_spans(intervals, spans, rust);
        let name = format!("missing_from_spans, {} spans", grouped(spans.len() as u64));
        line(&name, ours, rust);
        line("extra_in", Some(extra), rust_extra);
    }
    lines
}

/// The least times of our calls on one log, in nanoseconds.
pub struct Planned {
    pub what: String,
    pub most: u64,
    /// whether the room is that which is always enough
    pub always: bool,
    pub plan: f64,
    pub check: f64,
    pub missing: f64,
}

/// The same intervals and positions, and intervals in which all positions stand; windows of at most 1, 10 and 500 rows, in the room that is
/// always enough, and where most runs are missing in room that is exactly enough.
pub fn planning() -> Vec<Planned> {
    let shapes = [
        ("all proved", ALL_PROVED),
        (
            "every second row missing, half of the positions between",
            HALF_BETWEEN,
        ),
        ("every second row missing", ALL_COVERED),
    ];
    let mut rows = vec![];
    for (shape, steps) in shapes {
        let [intervals, proved] = intervals_and_proved(steps);
        let log = Log::new(intervals, proved);
        for most in [1, 10, 500] {
            let enough = log.enough(most).expect("the log is accepted");
            rows.push(planned(&log, shape, most, enough, true));
        }
        if steps == ALL_COVERED {
            for most in [1, 10, 500] {
                let exact = log.windows(most, usize::MAX).len();
                rows.push(planned(&log, shape, most, exact, false));
            }
        }
    }
    rows
}

/// A plan in room for so many windows, its check, and the report of what is missing.
fn planned(log: &Log, shape: &str, most: u64, room: usize, always: bool) -> Planned {
    let (intervals, proved) = (&log.intervals[..], &log.proved[..]);
    let (mut out, mut windows, mut yes) = (vec![0; 2 * room], 0, 0);
    let answer = log.plan_refetch(most, &out).expect("there is room");
    let _ = fernsponge::plan_refetch(intervals, proved, most, &mut out, &mut windows);
    assert_eq!((&out, windows), (&answer.0, answer.1));
    let plan = &answer.0[..2 * windows as usize];
    let _ = fernsponge::check_plan(intervals, proved, most, plan, &mut yes);
    assert_eq!(yes, 1);
    let told = grouped(windows);
    let mut report = empty();
    let [plan, check, missing] = least([
        calls(move || {
            let intervals = black_box(intervals);
            fernsponge::plan_refetch(intervals, proved, most, &mut out, &mut windows)
        }),
        calls(move || fernsponge::check_plan(black_box(intervals), proved, most, plan, &mut yes)),
        calls(move || fernsponge::missing_from(black_box(intervals), proved, &mut report)),
    ]);
    let fits = if always { "" } else { ", room exactly enough" };
    Planned {
        what: format!("{shape}, W {most}: {told} windows{fits}"),
        most,
        always,
        plan,
        check,
        missing,
    }
}

/// The same by spans.
fn missing_from_spans(
    intervals: &[u64],
    spans: &[[u64; 2]],
    rust: &Positions,
) -> (Option<f64>, f64) {
    let mut report = empty();
    let _ = fernsponge::missing_from_spans(intervals, spans, &mut report);
    hold(&report, &rust.missing_from_spans());
    let [ours, rust] = least([
        calls(|| fernsponge::missing_from_spans(black_box(intervals), spans, &mut report)),
        calls(|| black_box(rust).missing_from_spans()),
    ]);
    (Some(ours), rust)
}

/// Positions that ascend, as spans: each run of neighbours is one.
fn spans_of(positions: &[u64]) -> Vec<[u64; 2]> {
    let mut spans: Vec<[u64; 2]> = vec![];
    for &position in positions {
        match spans.last_mut() {
            Some(last) if last[1] == position => last[1] += 1,
            _ => spans.push([position, position + 1]),
        }
    }
    spans
}

fn empty() -> Report {
    Report {
        total: 0,
        count: 0,
        examples: [0; 16],
    }
}

fn hold(ours: &Report, rust: &Off) {
    let examples = &ours.examples[..ours.count as usize];
    assert_eq!((ours.total, examples), rust.told());
}
