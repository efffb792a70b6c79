//! What a run says: tables of the least times with their ratios, and each target.

use crate::{
    asked::Asked,
    collected::{Packed, FEW, LENGTH},
    lists::{Earlier, Timed},
    others::{Compared, Line, Planned},
    rates::Rated,
    sheets::{Call, Sheet},
    stored::{Changed, Width, CHANGED},
};
use compare::table::grouped;
use std::{env, fs};

pub struct Measured {
    pub lists: Vec<Timed>,
    /// none where no earlier library was named
    pub earlier: Vec<Earlier>,
    pub key_comparison: Vec<Line>,
    pub keys_earlier: Vec<Compared>,
    pub insertion: Vec<Line>,
    pub building: Vec<Line>,
    pub mismatches: Vec<Line>,
    pub planning: Vec<Planned>,
    pub stored: Vec<Changed>,
    pub asked: Vec<Asked>,
    pub collected: Vec<Packed>,
    pub sheets: Vec<Sheet>,
    pub rates: Vec<Rated>,
}

impl Measured {
    /// The lesser of two times, line by line.
    pub fn least(mut self, other: Self) -> Self {
        for (one, two) in self.lists.iter_mut().zip(other.lists) {
            one.ours = one.ours.min(two.ours);
            one.rust = one.rust.min(two.rust);
            one.trusting = one.trusting.min(two.trusting);
            one.checking = one.checking.min(two.checking);
        }
        for (one, two) in self.earlier.iter_mut().zip(other.earlier) {
            one.ours = one.ours.min(two.ours);
            one.earlier = one.earlier.min(two.earlier);
        }
        for (one, two) in self.keys_earlier.iter_mut().zip(other.keys_earlier) {
            one.ours = one.ours.min(two.ours);
            one.earlier = one.earlier.min(two.earlier);
        }
        for (one, two) in self.planning.iter_mut().zip(other.planning) {
            one.plan = one.plan.min(two.plan);
            one.check = one.check.min(two.check);
            one.missing = one.missing.min(two.missing);
        }
        for (one, two) in self.stored.iter_mut().zip(other.stored) {
            one.least(two);
        }
        for (one, two) in self.asked.iter_mut().zip(other.asked) {
            one.least(two);
        }
        for (one, two) in self.collected.iter_mut().zip(other.collected) {
            one.least(two);
        }
        for (one, two) in self.sheets.iter_mut().zip(other.sheets) {
            one.least(two);
        }
        for (one, two) in self.rates.iter_mut().zip(other.rates) {
            one.invoice = one.invoice.least(two.invoice);
            one.again = one.again.least(two.again);
            one.none = one.none.least(two.none);
            one.rate = one.rate.least(two.rate);
            one.find = one.find.least(two.find);
        }
        for (lines, others) in [
            (&mut self.key_comparison, other.key_comparison),
            (&mut self.insertion, other.insertion),
            (&mut self.building, other.building),
            (&mut self.mismatches, other.mismatches),
        ] {
            for (one, two) in lines.iter_mut().zip(others) {
                let lesser = |(x, y): (f64, f64)| x.min(y);
                one.ours = one.ours.zip(two.ours).map(lesser);
                one.rust = one.rust.min(two.rust);
                one.reference = one.reference.zip(two.reference).map(lesser);
            }
        }
        self
    }
}

const HEAD: &str = "\
# Benchmarks

Written by `make bench`, which times our calls and the original's (the Rust of dashpay/grovedb) in one run, on the same inputs, by the same driver,
both built for release. Each time is the processor's time for one call, the least of 3 to 75 runs in three passes over the whole; the sides take
turns. Inputs are made before, and answers are held against one another before they are timed (the original's lists up to 128 items). Buffers that are
lent are warm, as the call before has left them, and have room for as many items as both lists have; the original gets its memory during the
call, and neither cloning the list that it drains nor freeing what it answers is timed.

The reference for lists is a sweep with two indexes, written by hand in Rust and unproved (`compare/bench/sweep.rs`), which takes and gives the
same words: *trusting* takes accepted lists and enough room for granted, *checking* refuses what our call refuses. For keys it is the standard
library's order of slices. For rate cards it is a binary search by hand (`compare/bench/card.rs`), which checks and refuses as our calls do.
For stored lists it is a `Vec` of pairs with a total beside it (`compare/bench/pairs.rs`), which checks nothing. For collecting it is the
standard library's `HashMap` (`compare/bench/hashed.rs`), which checks nothing but the room. For sheets it is splitting and
decoding by hand (`compare/bench/split.rs`): in *one pass*, which checks rows as it reads them, and of what it writes the room alone, and
*checking* first, which refuses what our calls refuse.

";

const LISTS: &str = "
## The three lists

Both lists have as many items, all of them ranges. *Disjoint*: all of ours stand below theirs. *Interleaved*: ours and theirs take turns, and
none meet. *Half-overlapping*: each of ours meets one of theirs by half, so that each of the three lists has as many items as ours. Keys of the
first rows all begin alike and differ near their ends; those of the last rows differ in their first bytes (*early*). *Growth* is our time
beside that of half as many items.

![times of the three lists](benchmarks.svg)

| keys | lists | items | ours | the original | trusting sweep | checking sweep | the original / ours | ours / trusting | ours / checking | growth |
|--:|---|--:|--:|--:|--:|--:|--:|--:|--:|--:|
";

const EARLIER: &str = "
## The three lists beside an earlier library

`make bench EARLIER=FILE` times the library that FILE is beside ours, in one run: what a change of the lists has cost. Functions of both begin
at multiples of 64 bytes, since where they come to lie decides more than that. Items are of one kind; keys begin alike. Each row has eight times
the runs of the others, and still swings by some hundredths from run to run.

| keys | lists | kind | items | ours | earlier | ours / earlier |
|--:|---|---|--:|--:|--:|--:|
";

const KEYS_EARLIER: &str = "
Beside the earlier library, in the same run:

| | ours | earlier | ours / earlier |
|---|--:|--:|--:|
";

const LINES: &str = "
| | ours | the original | the original / ours |
|---|--:|--:|--:|
";

const REFERRED: &str = "
| | ours | the original | slices | the original / ours | ours / slices |
|---|--:|--:|--:|--:|--:|
";

const PLANNING: &str = "
## Planning the refetch of missing rows

The original has none of this, so that it stands beside our own missing_from. 2,000 intervals and 100,000 positions, which are all rows of them, half
of them between the intervals, or every second row of wider ones; W is the most rows of a window. The room is that which is always enough, covered
rows / W + intervals. Where it is exactly enough the windows are counted first: those rows are held to no target.

| | plan_refetch | check_plan | missing_from | plan_refetch / missing_from |
|---|--:|--:|--:|--:|
";

const STORED: &str = "
## Stored lists

The original has none. 1,000 covers and uncovers, either by chance, of ranges by chance, in lists whose intervals are about 50 rows wide, with gaps as
wide: ranges much shorter than an interval, about as wide as an interval and a gap, and about ten of both. So that the lists stay about as long,
each has as many changes as a hundredth of its pairs, and then another one has its turn; 16 such sequences take turns, and copying the lists is not
timed. The reference finds the place by `partition_point`, moves the rest by `insert` or `drain`, and changes its total by the rows that change; it
checks nothing. Each of our calls checks the whole list and its total before. *The check*: `stored_total` as often as it is in the calls, on the
lists as they are after half of their changes. *Without it*: the time of our calls less that of the checks, both from this run; as the
difference of two longer times it swings more than they do, though these rows have four times the runs of the others.

| pairs | ranges | ours | the check | without it | Vec | without it / Vec |
|--:|---|--:|--:|--:|--:|--:|
";

const GROWING: &str = "
One change, by the number of pairs: the check reads all of them, and a change halves them for its place and moves those behind it.

| pairs | ranges | ours | the check | without it | Vec | without it / Vec |
|--:|---|--:|--:|--:|--:|--:|
";

const ASKED: &str = "
## Asking intervals

`PositionIntervals` of the crate `rust/` holds accepted intervals: `contains` halves them and checks nothing, and `len` reads the total. Beside them a
`partition_point` on a slice of ranges by hand, and the calls `fernsponge_contains` and `fernsponge_len`, which check all intervals each time. 4,096
positions by chance are asked in turn, about half of them covered.

| intervals | contains | `partition_point` | ours / by hand | `fernsponge_contains` | len | `fernsponge_len` |
|--:|--:|--:|--:|--:|--:|--:|
";

const COLLECTED: &str = "
## Collecting the pool

The original has none. Two lists of ranges, as many of ours as of theirs; *keys* is how many they name together, of {LENGTH} bytes each, which
differ in their first bytes; at 8,192 both lists are as long as lists may be, and all keys together fill a pool. The fresh pool has room for all
of them. *Ascending*: from the first of ours to the last of theirs each key is above those before it. *In turns*: each list ascends, and a key
of theirs stands between two of ours. *Mixed*: in an order by chance, the same in every run. *Few differ*: {FEW} keys, named by chance. Ours
checks all items, keeps the indices of the keys found in the order of bytes, asks the last of them first, then halves, and moves those above a
new one on by one place, so that the time depends on the order. The reference checks nothing but the room: it asks a `HashMap<&[u8], u32>` with
room for all keys, with the standard hash, appends new keys to a `Vec` with room and notes each offset, all in one pass over the lists; then it
copies bytes and offsets, unless there are too many bytes. Getting and freeing its memory is in its time; lists and fresh pool are copied before
each call on both sides, which is not timed. *Growth* is a time beside that of half as many keys.

| order | keys | ours | HashMap | ours / HashMap | growth of ours | of HashMap |
|---|--:|--:|--:|--:|--:|--:|
";

const SHEETS: &str = "
## Lane sheets as text

The original has none. So many rows, with keys by chance of so many bytes, as our call writes them: no field is quoted. *Mixed*: rows of all ten
kinds, by chance, of which seven have a start, six an end, and one has neither. 16 such sheets take turns. All sides have the same memory: they
read into a lent pool of 65,536 bytes and a lent list with room for all rows, and write into lent bytes with room for any such sheet; nothing is
allocated. Ours reads every row before it writes anything, and then once more; and it checks every item and the length of the text before it
writes any. *One pass*: reading checks each row when it comes to it, so that what it refuses it leaves half written; writing checks the room and
no item. *Checking*: the same, behind a pass that checks and counts, so that it refuses what ours refuses, with nothing written. Both take the
values of digits from a table. *Growth* is our time beside that of half as many rows.

| | keys | | rows | ours | one pass | checking | ours / one pass | ours / checking | growth |
|---|--:|---|--:|--:|--:|--:|--:|--:|--:|
";

const RATES: &str = "
## The rate card

The original has none. Each side checks the whole card in every call, the list with its order and the amounts, and then halves the list for each key.
*Invoice*: 1,000 keys, asked by chance, half of them held by an item; each call has another of 64 invoices. *Again*: the same invoice in every
call. The reference branches on what a comparison says, and of one invoice the processor learns its branches by heart; ours has none there, so
that it takes as long for keys that were never asked before. *No keys*: the same call without a key, which is the check alone; *rate* and
*find_item*: one key a call. Keys begin alike and differ near their ends, or in their first bytes (*early*). The items are ranges, single keys, or
both in turns.

| keys | items | | invoice | by hand | ours / by hand | again | by hand | ours / by hand | no keys | by hand | rate | by hand | find_item | by hand |
|--:|--:|---|--:|--:|--:|--:|--:|--:|--:|--:|--:|--:|--:|--:|
";

pub fn text(measured: &Measured) -> String {
    let mut text = HEAD.to_string();
    text += &machine();
    text += "\n## Targets\n\nWhy some are missed stands in docs/SPEED.md.\n\n";
    text += "| target | measured | |\n|---|---|---|\n";
    for target in targets(measured) {
        text += &target.row();
    }
    text += LISTS;
    for (at, timed) in measured.lists.iter().enumerate() {
        let growth = growth(&measured.lists, at).map_or("-".to_string(), two);
        text += &format!(
            "| {} | {} | {} | {} | {} | {} | {} | {} | {} | {} | {growth} |\n",
            keys(timed.length, timed.alike),
            timed.arrangement.name(),
            grouped(timed.items as u64),
            time(timed.ours),
            time(timed.rust),
            time(timed.trusting),
            time(timed.checking),
            times(timed.rust / timed.ours),
            two(timed.ours / timed.trusting),
            two(timed.ours / timed.checking),
        );
    }
    if !measured.earlier.is_empty() {
        text += EARLIER;
    }
    for row in &measured.earlier {
        text += &format!(
            "| {} | {} | {} | {} | {} | {} | {} |\n",
            row.length,
            row.arrangement.name(),
            row.kind,
            grouped(row.items as u64),
            time(row.ours),
            time(row.earlier),
            two(row.ours / row.earlier),
        );
    }
    for (title, lines) in [
        ("Comparing two keys", &measured.key_comparison),
        ("Insertion", &measured.insertion),
        ("Building positions", &measured.building),
        ("Missing and extra positions", &measured.mismatches),
    ] {
        text += &format!("\n## {title}\n");
        let referred = lines.iter().any(|line| line.reference.is_some());
        text += if referred { REFERRED } else { LINES };
        for line in lines {
            text += &line.row(referred);
        }
        if referred && !measured.keys_earlier.is_empty() {
            text += KEYS_EARLIER;
            for row in &measured.keys_earlier {
                text += &format!(
                    "| {} | {} | {} | {} |\n",
                    row.what,
                    time(row.ours),
                    time(row.earlier),
                    two(row.ours / row.earlier),
                );
            }
        }
    }
    text += PLANNING;
    for row in &measured.planning {
        text += &format!(
            "| {} | {} | {} | {} | {} |\n",
            row.what,
            time(row.plan),
            time(row.check),
            time(row.missing),
            two(row.plan / row.missing),
        );
    }
    text += STORED;
    for row in measured.stored.iter().filter(|row| row.pairs == 2_000) {
        text += &changed(row, 1.0);
    }
    text += GROWING;
    let growing = measured.stored.iter();
    for row in growing.filter(|row| row.width == Width::Step) {
        text += &changed(row, CHANGED as f64);
    }
    text += ASKED;
    for row in &measured.asked {
        text += &row.row();
    }
    text += &COLLECTED
        .replace("{LENGTH}", &LENGTH.to_string())
        .replace("{FEW}", &FEW.to_string());
    for (at, row) in measured.collected.iter().enumerate() {
        let half = at.checked_sub(1).map(|at| &measured.collected[at]);
        text += &packed(row, half);
    }
    text += SHEETS;
    for (at, row) in measured.sheets.iter().enumerate() {
        let half = at.checked_sub(1).map(|at| &measured.sheets[at]);
        text += &sheet(row, half);
    }
    text += RATES;
    for row in &measured.rates {
        text += &format!(
            "| {} | {} | {} | {} | {} | {} | {} | {} | {} | {} | {} | {} | {} | {} | {} |\n",
            keys(row.length, row.alike),
            grouped(row.items as u64),
            row.kind.name(),
            time(row.invoice.ours),
            time(row.invoice.by_hand),
            two(row.invoice.ratio()),
            time(row.again.ours),
            time(row.again.by_hand),
            two(row.again.ratio()),
            time(row.none.ours),
            time(row.none.by_hand),
            time(row.rate.ours),
            time(row.rate.by_hand),
            time(row.find.ours),
            time(row.find.by_hand),
        );
    }
    text
}

impl Line {
    fn row(&self, referred: bool) -> String {
        let or_dash = |value: Option<String>| value.unwrap_or("-".to_string());
        let ours = or_dash(self.ours.map(time));
        let ratio = or_dash(self.ours.map(|ours| two(self.rust / ours)));
        let rust = time(self.rust);
        let what = &self.what;
        if !referred {
            return format!("| {what} | {ours} | {rust} | {ratio} |\n");
        }
        let reference = or_dash(self.reference.map(time));
        let both = self.ours.zip(self.reference);
        let beside = or_dash(both.map(|(ours, reference)| two(ours / reference)));
        format!("| {what} | {ours} | {rust} | {reference} | {ratio} | {beside} |\n")
    }
}

/// A row of times, each divided by a number.
impl Asked {
    fn row(&self) -> String {
        let [contains, by_hand, checking, len, len_checking] = [
            self.contains,
            self.partition_point,
            self.contains_checking,
            self.len,
            self.len_checking,
        ]
        .map(time);
        let ratio = two(self.contains / self.partition_point);
        let intervals = grouped(self.intervals as u64);
        format!("| {intervals} | {contains} | {by_hand} | {ratio} | {checking} | {len} | {len_checking} |\n")
    }
}

/// What this run was made on and with, and when.
fn machine() -> String {
    let about = fs::read_to_string("/proc/cpuinfo").unwrap_or_default();
    let model = about
        .lines()
        .find_map(|line| line.strip_prefix("model name"));
    let model = model.map_or("not told", |rest| rest.trim_start_matches([' ', '\t', ':']));
    let told = |name| env::var(name).unwrap_or_else(|_| "not told".to_string());
    format!(
        "Processor: {model} ({}). Kit: {}. rustc: {}. Date: {}.\n",
        env::consts::ARCH,
        told("BENCH_KIT"),
        told("BENCH_RUSTC"),
        told("BENCH_DATE"),
    )
}

fn changed(row: &Changed, by: f64) -> String {
    let times = [row.ours, row.check, row.unchecked(), row.by_hand];
    let [ours, check, unchecked, by_hand] = times.map(|of_all| time(of_all / by));
    format!(
        "| {} | {} | {ours} | {check} | {unchecked} | {by_hand} | {} |\n",
        grouped(row.pairs as u64),
        row.width.name(),
        two(row.ratio()),
    )
}

/// A row of times, beside those of the row before it where that has half as many keys in the same order.
fn packed(row: &Packed, before: Option<&Packed>) -> String {
    let half = before.filter(|half| half.order == row.order && 2 * half.keys == row.keys);
    let growth = |of: fn(&Packed) -> f64| {
        let grown = half.map(|half| of(row) / of(half));
        grown.map_or("-".to_string(), two)
    };
    format!(
        "| {} | {} | {} | {} | {} | {} | {} |\n",
        row.order.name(),
        grouped(row.keys as u64),
        time(row.ours),
        time(row.hashed),
        two(row.ratio()),
        growth(|row| row.ours),
        growth(|row| row.hashed),
    )
}

/// A row of times, beside ours of the row before it where that has half as many rows of the same kind.
fn sheet(row: &Sheet, before: Option<&Sheet>) -> String {
    let half = before.filter(|half| row.doubles(half));
    format!(
        "| {} | {} | {} | {} | {} | {} | {} | {} | {} | {} |\n",
        row.call.name(),
        row.length,
        row.kind.name(),
        grouped(row.rows as u64),
        time(row.ours),
        time(row.one_pass),
        time(row.checking),
        two(row.ours / row.one_pass),
        two(row.ours / row.checking),
        half.map_or("-".to_string(), |half| two(row.ours / half.ours)),
    )
}

/// The length of the keys, and whether they differ early.
fn keys(length: usize, alike: bool) -> String {
    let early = if alike { "" } else { ", early" };
    format!("{length}{early}")
}

/// Our time beside that of half as many items, where the line before has it.
fn growth(lists: &[Timed], at: usize) -> Option<f64> {
    let (before, timed) = (lists.get(at.checked_sub(1)?)?, &lists[at]);
    (2 * before.items == timed.items).then(|| timed.ours / before.ours)
}

struct Target {
    text: &'static str,
    bound: f64,
    at_least: bool,
    /// the worst that was measured, and where
    worst: f64,
    of: String,
}

impl Target {
    fn row(&self) -> String {
        let (worst, bound) = (self.worst, self.bound);
        let (met, by) = match self.at_least {
            true => (worst >= bound, bound / worst),
            false => (worst <= bound, worst / bound),
        };
        let said = match met {
            true => "met".to_string(),
            false => format!("missed by {} times", two(by)),
        };
        let end = if self.at_least { "least" } else { "most" };
        format!(
            "| {} | at {end} {}: {} | {said} |\n",
            self.text,
            times(worst),
            self.of
        )
    }
}

fn targets(measured: &Measured) -> Vec<Target> {
    let longest = measured.lists.iter().map(|timed| timed.items).max();
    let at_longest = || {
        let lists = measured.lists.iter();
        lists.filter(|timed| Some(timed.items) == longest)
    };
    let of = |timed: &Timed| {
        let name = timed.arrangement.name();
        let items = grouped(timed.items as u64);
        let keys = keys(timed.length, timed.alike);
        format!("{items} items, keys of {keys}, {name}")
    };
    let ratio = |line: &Line| {
        let ours = line.ours?;
        Some((ours / line.rust, line.what.clone()))
    };
    let starting = |name: &'static str| {
        let lines = measured.mismatches.iter();
        let named = lines.filter(move |line| line.what.starts_with(name));
        named.filter_map(ratio)
    };
    let turned = |(ratio, what): (f64, String)| (1.0 / ratio, what);
    let grown = (0..measured.lists.len())
        .filter_map(|at| Some((growth(&measured.lists, at)?, of(&measured.lists[at]))));
    let planned = |few: bool| {
        (measured.planning.iter())
            .filter(move |row| row.always && (row.most == 1) == few)
            .map(|row| (row.plan / row.missing, row.what.clone()))
    };
    let invoices = |again: bool| {
        measured.rates.iter().map(move |row| {
            let (items, name) = (grouped(row.items as u64), row.kind.name());
            let keys = keys(row.length, row.alike);
            let both = if again { row.again } else { row.invoice };
            (
                both.ratio(),
                format!("{items} items, {name}, keys of {keys}"),
            )
        })
    };
    let sheets = |call: Call, beside: fn(&Sheet) -> f64| {
        let rows = measured.sheets.iter();
        let rows = rows.filter(move |row| row.call == call && row.rows == 2_048);
        rows.map(move |row| {
            let (name, length) = (row.kind.name(), row.length);
            (row.ours / beside(row), format!("{name}, keys of {length}"))
        })
    };
    let mut targets = vec![
        least(
            "the three lists at 2,048 at least 1,000 times as fast as the original",
            1_000.0,
            at_longest().map(|timed| (timed.rust / timed.ours, of(timed))),
        ),
        most(
            "the three lists at 2,048 within 1.5 times the hand-written sweep that checks as ours does",
            1.5,
            at_longest().map(|timed| (timed.ours / timed.checking, of(timed))),
        ),
        most(
            "and within 2 times the one that trusts its input",
            2.0,
            at_longest().map(|timed| (timed.ours / timed.trusting, of(timed))),
        ),
        most("twice the items at most 2.3 times the time", 2.3, grown),
        most(
            "the three lists within 1.03 times an earlier library, the mean of each kind of item",
            1.03,
            kinds(&measured.earlier).into_iter(),
        ),
        most(
            "two keys of 200 bytes that differ last, or not at all, within 1.5 times the order of slices",
            1.5,
            (measured.key_comparison.iter())
                .filter(|line| ["200 bytes, last", "200 bytes, no"].iter().any(|name| line.what.starts_with(name)))
                .filter_map(|line| Some((line.ours? / line.reference?, line.what.clone()))),
        ),
        most(
            "two keys of 8 bytes no slower than in an earlier library",
            1.0,
            (measured.keys_earlier.iter())
                .filter(|row| row.what.starts_with("8 bytes"))
                .map(|row| (row.ours / row.earlier, row.what.clone())),
        ),
        most(
            "building positions within 1.5 times of the original",
            1.5,
            measured.building.iter().filter_map(ratio),
        ),
        most("missing no slower than the original", 1.0, starting("missing_from:")),
        most("missing by spans no slower", 1.0, starting("missing_from_spans")),
        most("extra no slower", 1.0, starting("extra_in")),
        most("planning within 1.5 times of missing_from, W 10 and 500", 1.5, planned(false)),
        most("and W 1, a window for each missing row", 1.5, planned(true)),
        most(
            "an invoice of 1,000 keys on a card of 2,048 items within 2 times a binary search by hand that checks as ours does",
            2.0,
            invoices(false),
        ),
        most("and the same invoice in every call", 2.0, invoices(true)),
        most(
            "1,000 covers and uncovers in 2,000 pairs, without the check, within 2 times a Vec that does the same",
            2.0,
            (measured.stored.iter())
                .filter(|row| row.pairs == 2_000)
                .map(|row| (row.ratio(), format!("ranges of {}", row.width.name()))),
        ),
        most(
            "reading a sheet of 2,048 rows within 3 times one by hand that refuses as ours does",
            3.0,
            sheets(Call::Read, |row| row.checking),
        ),
        most(
            "and within 3 times one pass",
            3.0,
            sheets(Call::Read, |row| row.one_pass),
        ),
        most(
            "writing one within 3 times one by hand that refuses as ours does",
            3.0,
            sheets(Call::Write, |row| row.checking),
        ),
        most(
            "and within 3 times one pass that checks no item",
            3.0,
            sheets(Call::Write, |row| row.one_pass),
        ),
        least(
            "insertion at least 15 times as fast as the original",
            15.0,
            measured.insertion.iter().filter_map(ratio).map(turned),
        ),
    ];
    targets.retain(|target| !target.of.is_empty());
    let keys = |target: &Target| target.text.starts_with("two keys of 200 bytes");
    assert!(
        targets.iter().any(keys),
        "the rows of 200 bytes have other names"
    );
    targets
}

/// The mean of our times beside an earlier library's, for each kind of item.
fn kinds(rows: &[Earlier]) -> Vec<(f64, String)> {
    let mut kinds: Vec<&str> = rows.iter().map(|row| row.kind).collect();
    kinds.sort_unstable();
    kinds.dedup();
    let mean = |kind: &str| {
        let of = rows.iter().filter(|row| row.kind == kind);
        let ratios: Vec<f64> = of.map(|row| row.ours / row.earlier).collect();
        let mean = ratios.iter().sum::<f64>() / ratios.len() as f64;
        (mean, format!("{kind}, {} rows", ratios.len()))
    };
    kinds.into_iter().map(mean).collect()
}

fn least(text: &'static str, bound: f64, of: impl Iterator<Item = (f64, String)>) -> Target {
    target(text, bound, true, of.min_by(|x, y| x.0.total_cmp(&y.0)))
}

fn most(text: &'static str, bound: f64, of: impl Iterator<Item = (f64, String)>) -> Target {
    target(text, bound, false, of.max_by(|x, y| x.0.total_cmp(&y.0)))
}

/// A target, and the worst that was measured for it.
fn target(text: &'static str, bound: f64, at_least: bool, worst: Option<(f64, String)>) -> Target {
    let (worst, of) = worst.unwrap_or_default();
    Target {
        text,
        bound,
        at_least,
        worst,
        of,
    }
}

/// A time of so many nanoseconds, with three digits.
fn time(nanoseconds: f64) -> String {
    let (value, unit) = match nanoseconds {
        n if n < 1e3 => (n, "ns"),
        n if n < 1e6 => (n / 1e3, "µs"),
        n if n < 1e9 => (n / 1e6, "ms"),
        n => (n / 1e9, "s"),
    };
    format!("{} {unit}", digits(value))
}

fn two(ratio: f64) -> String {
    digits(ratio)
}

fn times(ratio: f64) -> String {
    format!("{} times", digits(ratio))
}

/// About three digits, and whole numbers from 100 on.
fn digits(value: f64) -> String {
    match value {
        v if v < 10.0 => format!("{v:.2}"),
        v if v < 100.0 => format!("{v:.1}"),
        v if v < 1e3 => format!("{v:.0}"),
        v => grouped(v.round() as u64),
    }
}
