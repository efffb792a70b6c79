//! The table that a run ends with. The first failures of each function, and its first listed difference, are printed where they are found.

use std::{fmt::Debug, fs, io, path::Path};

const MOST_PRINTED: u64 = 5;

const HEADS: [&str; 6] = [
    "function",
    "calls",
    "as the original",
    "as the papers",
    "listed differences",
    "failures",
];

/// An answer of ours beside the one that it is held against.
pub struct Held<T> {
    pub ours: T,
    pub other: T,
}

/// What a call is held against: the original's answer, and that of a plain reading of the papers, where there is one.
pub struct Against<R, P> {
    pub rust: Option<Held<R>>,
    pub paper: Option<Held<P>>,
    /// docs/DIFFERENCES.md lists that the original answers otherwise here.
    pub listed: bool,
}

/// One function, with its calls and how they came out.
pub struct Row {
    name: &'static str,
    /// the listed difference's number in docs/DIFFERENCES.md
    difference: &'static str,
    /// no other row counts these calls
    own: bool,
    calls: u64,
    as_rust: Agreed,
    as_paper: Agreed,
    listed: u64,
    failures: u64,
}

#[derive(Default)]
struct Agreed {
    held: u64,
    same: u64,
}

impl<R> Against<R, R> {
    /// One answer, held against both.
    pub fn both(ours: R, rust: R, paper: R) -> Self
    where
        R: Clone,
    {
        Self {
            rust: Some(Held {
                ours: ours.clone(),
                other: rust,
            }),
            paper: Some(Held { ours, other: paper }),
            listed: false,
        }
    }
}

impl<R> Against<R, ()> {
    pub fn rust(ours: R, other: R, listed: bool) -> Self {
        Self {
            rust: Some(Held { ours, other }),
            paper: None,
            listed,
        }
    }
}

impl<P> Against<(), P> {
    pub fn paper(ours: P, other: P) -> Self {
        Self {
            rust: None,
            paper: Some(Held { ours, other }),
            listed: false,
        }
    }
}

impl<A: Clone> Against<A, [A; 2]> {
    /// An input of docs/DIFFERENCES.md: our answer and the original's, and what stands there of the two.
    pub fn differences(ours: A, rust: A, stated: [A; 2]) -> Self {
        Self {
            rust: Some(Held {
                ours: ours.clone(),
                other: rust.clone(),
            }),
            paper: Some(Held {
                ours: [ours, rust],
                other: stated,
            }),
            listed: true,
        }
    }
}

impl<R: Debug, P: Debug> Against<R, P> {
    fn print_rust(&self) {
        if let Some(Held { ours, other }) = &self.rust {
            println!("    ours {ours:?}\n    the original {other:?}");
        }
    }

    fn print_paper(&self) {
        if let Some(Held { ours, other }) = &self.paper {
            println!("    ours {ours:?}\n    the papers {other:?}");
        }
    }
}

impl Row {
    /// A name that starts with the number of a difference is that difference's.
    pub fn new(name: &'static str) -> Self {
        Self {
            name,
            difference: name.split(' ').next().unwrap_or(name),
            own: true,
            calls: 0,
            as_rust: Agreed::default(),
            as_paper: Agreed::default(),
            listed: 0,
            failures: 0,
        }
    }

    /// A row of calls that another one counts, or of none of ours.
    pub fn again(name: &'static str) -> Self {
        Self {
            own: false,
            ..Self::new(name)
        }
    }

    /// The row, some of whose calls differ as listed under the number.
    pub fn differing(self, difference: &'static str) -> Self {
        Self { difference, ..self }
    }

    /// Counts a call. It fails where our answer is not the papers', or is not the original's and no difference is listed.
    pub fn hold<R: PartialEq + Debug, P: PartialEq + Debug>(
        &mut self,
        input: impl Fn() -> String,
        against: Against<R, P>,
    ) {
        self.calls += 1;
        let as_rust = self.as_rust.hold(&against.rust);
        let as_paper = self.as_paper.hold(&against.paper);
        if !as_rust && against.listed {
            self.listed += 1;
            if self.listed == 1 {
                println!("{} differs as listed, first on {}", self.name, input());
                against.print_rust();
            }
        }
        if as_paper && (as_rust || against.listed) {
            return;
        }
        self.failures += 1;
        if self.failures <= MOST_PRINTED {
            println!("{} fails on {}", self.name, input());
            against.print_rust();
            against.print_paper();
        }
    }

    /// A row without a call shows nothing, and is a failure.
    pub fn failures(&self) -> u64 {
        match self.calls {
            0 => 1,
            _ => self.failures,
        }
    }

    fn cells(&self) -> [String; 6] {
        [
            self.name.to_string(),
            match self.own {
                true => grouped(self.calls),
                false => format!("({})", grouped(self.calls)),
            },
            self.as_rust.cell(),
            self.as_paper.cell(),
            match self.listed {
                0 => "-".to_string(),
                listed => format!("{}: {}", self.difference, grouped(listed)),
            },
            self.failures().to_string(),
        ]
    }
}

impl Agreed {
    fn hold<T: PartialEq>(&mut self, held: &Option<Held<T>>) -> bool {
        let Some(Held { ours, other }) = held else {
            return true;
        };
        self.held += 1;
        self.same += u64::from(ours == other);
        ours == other
    }

    fn cell(&self) -> String {
        match self.held {
            0 => "-".to_string(),
            _ => grouped(self.same),
        }
    }
}

pub fn print(rows: &[Row]) {
    let mut lines = vec![HEADS.map(str::to_string)];
    lines.extend(rows.iter().map(Row::cells));
    let wide = |column: usize| lines.iter().map(|line| line[column].len()).max();
    let widths: Vec<usize> = (0..HEADS.len()).filter_map(wide).collect();
    for line in &lines {
        print!("{:<1$}", line[0], widths[0]);
        for (cell, width) in line.iter().zip(&widths).skip(1) {
            print!("  {cell:>width$}");
        }
        println!();
    }
    println!("{}", in_all(rows));
}

/// The same as a document, which a run with the same inputs writes again to the byte.
pub fn write(rows: &[Row], file: &Path) -> io::Result<()> {
    let mut text = HEAD.to_string();
    for row in rows {
        text += &format!("| {} |\n", row.cells().join(" | "));
    }
    text += &format!("\n{}\n", in_all(rows));
    fs::write(file, text)
}

const HEAD: &str = "\
# Our answers beside the original's

Written by `make compare`. The original is the Rust of dashpay/grovedb. The inputs are the same in every run, and so is this table. Each row is a
function, or calls of it of one kind: exhaustively on small domains, at random on large ones, and at the limits (0, 1, 2,047, 2,048 and 2,049
items; keys of 0, 1, 254, 255 and 256 bytes; pools of 65,535, 65,536 and 65,537 bytes; buffers exactly full and one short; amounts of 10^12 and
one more; invoices of 999, 1,000 and 1,001 keys; u64::MAX). Then, where these are at hand, the totals of invoices are held against Python's
decimal (`tools/decimal_cents`), covers and uncovers of stored lists against PostgreSQL's multiranges (`tools/multiranges`), and sheets, read and
written, against Python's csv (`tools/csv_sheets`); none of these is in the table.

\"As the original\" counts calls that answer what the original answers. \"As the papers\" counts calls that answer and leave what a small plain
reading of document 01, and of what is built of 02, in `compare/` says: refusals, the words written and the words not written, which the original
has not; it is no agreement with the original. In rows of laws and of orders several calls are one case, held against other calls of ours or against
what the papers say of them together, and counted once. A dash: there is nothing of that side to hold the calls against. Listed differences bear
their number in docs/DIFFERENCES.md; the rows named after one run its inputs, and hold both sides to what stands there. Anything else is a failure.
Calls in brackets are counted in another row, or are none of ours.

| function | calls | as the original | as the papers | listed differences | failures |
|---|--:|--:|--:|--:|--:|
";

/// How many calls these rows have, each counted once.
pub fn calls(rows: &[Row]) -> String {
    grouped(rows.iter().filter(|row| row.own).map(|row| row.calls).sum())
}

/// How many calls there are, each counted once, and how they came out.
fn in_all(rows: &[Row]) -> String {
    let sum = |of: fn(&Row) -> u64| grouped(rows.iter().filter(|row| row.own).map(of).sum());
    let [calls, as_rust, as_paper] = [
        sum(|row| row.calls),
        sum(|row| row.as_rust.same),
        sum(|row| row.as_paper.same),
    ];
    let failures: u64 = rows.iter().map(Row::failures).sum();
    format!(
        "{calls} calls in all, each counted once: {as_rust} as the original, {as_paper} as the papers; {failures} failures."
    )
}

/// A number with a comma before every three digits.
pub fn grouped(number: u64) -> String {
    match number {
        0..1_000 => number.to_string(),
        _ => format!("{},{:03}", grouped(number / 1_000), number % 1_000),
    }
}
