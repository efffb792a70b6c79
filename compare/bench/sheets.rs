//! Sheets: reading and writing so many rows, of several kinds and keys, beside the references.

use crate::{
    split,
    timing::{calls, least},
};
use compare::{
    fernsponge,
    items::{has_end, has_start},
    random::Random,
    sheets::{packed, text, Lane},
    SEED,
};
use std::hint::black_box;

const SIZES: [usize; 2] = [1_024, 2_048];

/// So many sheets take turns: of one alone, again and again, the processor would learn which kind each row has.
const TURNS: usize = 16;

/// The most bytes of a pool, and of a row without its keys.
const MOST_POOL: usize = 65_536;
const MOST_ROW: usize = 25;

/// What the rows say.
#[derive(Clone, Copy, PartialEq)]
pub enum Kind {
    Mixed,
    RangeInclusive,
    Key,
}

/// The bytes of a key, and what the rows say.
const KINDS: [(usize, Kind); 4] = [
    (8, Kind::Mixed),
    (8, Kind::RangeInclusive),
    (8, Kind::Key),
    (15, Kind::Mixed),
];

impl Kind {
    pub fn name(self) -> &'static str {
        match self {
            Self::Mixed => "mixed",
            Self::RangeInclusive => "RangeInclusive",
            Self::Key => "Key",
        }
    }

    fn code(self, random: &mut Random) -> u32 {
        match self {
            Self::Mixed => random.below(10) as u32,
            Self::RangeInclusive => 2,
            Self::Key => 0,
        }
    }
}

/// Reading or writing.
#[derive(Clone, Copy, PartialEq)]
pub enum Call {
    Read,
    Write,
}

impl Call {
    pub fn name(self) -> &'static str {
        match self {
            Self::Read => "reading",
            Self::Write => "writing",
        }
    }
}

/// The least times of one call on a sheet of so many rows, in nanoseconds.
pub struct Sheet {
    pub call: Call,
    pub length: usize,
    pub kind: Kind,
    pub rows: usize,
    pub ours: f64,
    pub one_pass: f64,
    pub checking: f64,
}

impl Sheet {
    pub fn least(&mut self, other: Self) {
        self.ours = self.ours.min(other.ours);
        self.one_pass = self.one_pass.min(other.one_pass);
        self.checking = self.checking.min(other.checking);
    }

    /// Whether another one is of half as many rows, and else the same.
    pub fn doubles(&self, half: &Self) -> bool {
        let of = |row: &Self| (row.call, row.length, row.kind);
        of(self) == of(half) && self.rows == 2 * half.rows
    }
}

pub fn run() -> Vec<Sheet> {
    let mut all = vec![];
    for call in [Call::Read, Call::Write] {
        for (length, kind) in KINDS {
            for rows in SIZES {
                all.push(timed(call, length, kind, rows));
            }
        }
    }
    all
}

/// A sheet, and what is read of it.
struct Made {
    text: Vec<u8>,
    pool: Vec<u8>,
    words: Vec<u32>,
}

impl Made {
    fn new(random: &mut Random, length: usize, kind: Kind, rows: usize) -> Self {
        let mut lane = |_| {
            let code = kind.code(random);
            let mut key = |present: bool| -> Option<Vec<u8>> {
                present.then(|| (0..length).map(|_| random.next() as u8).collect())
            };
            Lane {
                code,
                start: key(has_start(code)),
                end: key(has_end(code)),
            }
        };
        let lanes: Vec<Lane> = (0..rows).map(&mut lane).collect();
        let (pool, words) = packed(&lanes);
        let text = text(&lanes);
        Self { text, pool, words }
    }
}

fn timed(call: Call, length: usize, kind: Kind, rows: usize) -> Sheet {
    let random = &mut Random::new(SEED);
    let sheets: Vec<Made> = (0..TURNS)
        .map(|_| Made::new(random, length, kind, rows))
        .collect();
    sheets.iter().for_each(hold);
    let [ours, one_pass, checking] = match call {
        Call::Read => {
            let room = || (vec![0; MOST_POOL], vec![0; 6 * rows]);
            least(READERS.map(|read| {
                let (mut lent, mut turns) = (room(), sheets.iter().cycle());
                calls(move || (turns.next()).map(|made| read(black_box(&made.text), &mut lent)))
            }))
        }
        Call::Write => {
            let room = || vec![0; rows * (MOST_ROW + 4 * length)];
            least(WRITERS.map(|write| {
                let (mut lent, mut turns) = (room(), sheets.iter().cycle());
                calls(move || (turns.next()).map(|made| write(black_box(made), &mut lent)))
            }))
        }
    };
    Sheet {
        call,
        length,
        kind,
        rows,
        ours,
        one_pass,
        checking,
    }
}

/// A pool and a list, lent.
type Lent = (Vec<u8>, Vec<u32>);

/// How many items and bytes are read of a text.
type Reader = fn(&[u8], &mut Lent) -> Option<[usize; 2]>;

/// How many bytes are written of what a sheet was made of.
type Writer = fn(&Made, &mut Vec<u8>) -> Option<usize>;

/// Ours, one pass by hand, and by hand with all checked first.
const READERS: [Reader; 3] = [
    |text, (pool, out)| {
        let [mut items, mut bytes] = [0; 2];
        let returned = fernsponge::read_sheet(text, pool, out, &mut items, &mut bytes);
        (returned == 0).then_some([items as usize, bytes as usize])
    },
    |text, (pool, out)| split::read(text, pool, out),
    |text, (pool, out)| split::check_and_read(text, pool, out),
];

/// The same.
const WRITERS: [Writer; 3] = [
    |Made { pool, words, .. }, text| {
        let mut bytes = 0;
        let returned = fernsponge::write_sheet(pool, words, text, &mut bytes);
        (returned == 0).then_some(bytes as usize)
    },
    |Made { pool, words, .. }, text| split::write(pool, words, text),
    |Made { pool, words, .. }, text| split::check_and_write(pool, words, text),
];

/// All three read and write the same, which is what the sheet was made of: with room to spare, with just enough, and with a byte or an item too
/// little, where they refuse. None reads a sheet with a bad last row.
fn hold(made: &Made) {
    let Made { text, pool, words } = made;
    let told = Some([words.len() / 6, pool.len()]);
    for (bytes, items, told) in [
        (pool.len() + 7, words.len() + 7, told),
        (pool.len(), words.len(), told),
        (pool.len() - 1, words.len(), None),
        (pool.len(), words.len() - 1, None),
    ] {
        let lent = (vec![0xFE; bytes], vec![0xFE; items]);
        let mut left = lent.clone();
        if told.is_some() {
            left.0[..pool.len()].copy_from_slice(pool);
            left.1[..words.len()].copy_from_slice(words);
        }
        for (at, read) in READERS.iter().enumerate() {
            let mut by = lent.clone();
            assert_eq!(read(text, &mut by), told);
            // what one pass refuses it leaves half written
            assert!(by == left || (at == 1 && told.is_none()));
            for bad in BAD {
                assert_eq!(read(&[&text[..], bad].concat(), &mut by), None);
            }
        }
    }
    let told = Some(text.len());
    for (room, told) in [
        (text.len() + 7, told),
        (text.len(), told),
        (text.len() - 1, None),
    ] {
        let mut left = vec![0xFE; room];
        if told.is_some() {
            left[..text.len()].copy_from_slice(text);
        }
        for (at, write) in WRITERS.iter().enumerate() {
            let mut by = vec![0xFE; room];
            assert_eq!(write(made, &mut by), told);
            assert!(by == left || (at == 1 && told.is_none()));
        }
    }
}

/// Rows that are bad, behind good ones.
const BAD: [&[u8]; 6] = [
    b"Key,0g,",
    b"Key,050,",
    b"Key,05",
    b"Key,05,\n",
    b"key,05,",
    b"Key,\"05,",
];
