//! Sheets: texts of few pieces, rows in every form, rows changed in one place, and sheets by chance, as others write them, and damaged.

use crate::{
    inputs::bytes,
    items::{has_end, has_start},
    random::Random,
    sheets::{Lane, NAMES},
};

/// All texts of at most so many of the pieces, behind a beginning and before an end.
pub struct ShortTexts {
    pub before: &'static str,
    pub pieces: &'static [&'static str],
    pub most: usize,
    pub after: &'static str,
}

/// What rows are made of, whole or in part.
pub const PIECES: [&str; 10] = ["Key", ",", "\r", "\n", "\"", "-", "05", "0", "g", "aB"];

/// What the grammar tells apart, a digit and a dash.
pub const MARKS: [&str; 7] = [",", "\r", "\n", "\"", "-", "0", "K"];

/// What the shortest rows are made of, a quote, and no more.
pub const ROWS: [&str; 5] = ["Key", ",", "\"", "\r\n", "05"];

impl ShortTexts {
    pub const fn of(
        before: &'static str,
        pieces: &'static [&'static str],
        most: usize,
        after: &'static str,
    ) -> Self {
        Self {
            before,
            pieces,
            most,
            after,
        }
    }
}

/// Bytes that matter to the grammar or to a key, their neighbours, and some that differ from them by the highest bit.
pub const TELLING: [u8; 31] = [
    b'"', b',', b'\r', b'\n', b'-', b'0', b'9', b'A', b'F', b'a', b'f', b'/', b':', b'@', b'G',
    b'`', b'g', b' ', b'!', b'#', b'+', b'K', b'\t', 0x00, 0x7E, 0x7F, 0x80, 0xFF, 0xA2, 0xAC,
    0xB0,
];

/// The names of items, and what is none: in another case, with a byte more or less, two of them, parts of them.
pub fn names() -> Vec<String> {
    let near = |name: &&str| {
        [
            name.to_lowercase(),
            name.to_uppercase(),
            format!(" {name}"),
            format!("{name} "),
            format!("{name}x"),
            format!("{name}\0"),
            name[1..].to_string(),
            name[..name.len() - 1].to_string(),
        ]
    };
    let others = [
        "",
        "-",
        "05",
        "Inclusive",
        "RangeIn",
        "RangeToTo",
        "RangeFullInclusive",
        "RangeAfterInclusive",
        "RangeInclusiveTo",
        "Key Range",
        "\u{212A}ey",
        "\u{FEFF}Key",
        "0",
    ];
    let items = NAMES.iter().map(|name| name.to_string());
    let items = items.chain(NAMES.iter().flat_map(near));
    items.chain(others.map(str::to_string)).collect()
}

/// Fields of a key, of none, and of what is neither: digits in either case, other bytes, too few or too many of them.
pub const FIELDS: [&str; 26] = [
    "", "-", "05", "aB", "Ab", "ff", "FF", "0505", "00", "0", "050", "--", "-0", "0-", "-05", "0g",
    "G0", "0/", ":0", "@A", "f`", " 05", "05 ", "+5", "0x05", "Key",
];

/// Ways to write a field: as it is, or quoted; and other ways, which the grammar has not, or which are another field.
pub const QUOTED: [fn(&str) -> String; 6] = [
    |field| field.to_string(),
    |field| format!("\"{field}\""),
    |field| format!("\"{field}"),
    |field| format!("{field}\""),
    |field| format!(" \"{field}\""),
    |field| format!("\"{field}\"\"\""),
];

/// A row of a kind: its three fields, of which some are quoted, by the bits of a number, and a line end.
pub fn row(fields: [&str; 3], quoted: usize, line_end: &str) -> Vec<u8> {
    let field = |at: usize| QUOTED[quoted >> at & 1](fields[at]);
    [&[0, 1, 2].map(field).join(","), line_end]
        .concat()
        .into_bytes()
}

/// The fields of a row of every kind, with keys of a byte, and with empty ones.
pub fn kinds() -> impl Iterator<Item = [&'static str; 3]> {
    [["05", "aB"], ["-", "-"]].into_iter().flat_map(|keys| {
        (0..10).map(move |code| {
            let key = |at: usize, present: bool| if present { keys[at] } else { "" };
            [
                NAMES[code as usize],
                key(0, has_start(code)),
                key(1, has_end(code)),
            ]
        })
    })
}

/// A text with one change, each in turn: a byte taken away, two exchanged, one doubled, and at each place each of the bytes, instead of one or
/// between two.
pub fn changed(text: &[u8], to: &[u8], mut each: impl FnMut(&[u8])) {
    for at in 0..text.len() {
        let (before, after) = (&text[..at], &text[at + 1..]);
        each(&[before, after].concat());
        each(&[before, &[text[at]; 2], after].concat());
        if let [next, rest @ ..] = after {
            each(&[before, &[*next, text[at]], rest].concat());
        }
        for byte in to {
            each(&[before, &[*byte], after].concat());
            each(&[before, &[*byte], &text[at..]].concat());
        }
    }
    for byte in to {
        each(&[text, &[*byte]].concat());
    }
}

/// So many lanes, of any kinds, with keys of few bytes, or of so many at most.
pub fn some_lanes(random: &mut Random, count: usize, longest: usize) -> Vec<Lane> {
    (0..count)
        .map(|_| {
            let code = random.below(10) as u32;
            let mut key = |present: bool| {
                present.then(|| {
                    let most = match random.below(4) {
                        0 => longest,
                        _ => longest.min(3),
                    };
                    let length = random.below(most + 1);
                    match random.below(2) {
                        0 => bytes(random, length),
                        _ => (0..length).map(|_| random.next() as u8).collect(),
                    }
                })
            };
            Lane {
                code,
                start: key(has_start(code)),
                end: key(has_end(code)),
            }
        })
        .collect()
}

/// The text of lanes as others may write it: digits in either case, fields quoted or not, with the last line end or without.
pub fn spelled(random: &mut Random, lanes: &[Lane]) -> Vec<u8> {
    let (quoting, lower) = (random.below(4), random.below(3));
    let mut text = String::new();
    for lane in lanes {
        let [name, start, end] = lane.fields();
        let mut digits = |field: String| -> String {
            let digit = |digit: char| match lower {
                0 => digit,
                1 => digit.to_ascii_lowercase(),
                _ if random.below(2) == 0 => digit.to_ascii_lowercase(),
                _ => digit,
            };
            field.chars().map(digit).collect()
        };
        let fields = [name, digits(start), digits(end)].map(|field| {
            let quoted = match quoting {
                0 => false,
                1 => true,
                _ => random.below(quoting) == 0,
            };
            QUOTED[usize::from(quoted)](&field)
        });
        text += &fields.join(",");
        text += "\r\n";
    }
    if random.below(4) == 0 && !text.is_empty() {
        text.truncate(text.len() - 2);
    }
    text.into_bytes()
}

/// A text changed at a place by chance: bytes that matter put there or taken away, a line end that is none, a blank row, a field too many, a
/// quote, a row doubled without its line end, or the rest cut off.
pub fn damage_text(random: &mut Random, text: &mut Vec<u8>) {
    let at = random.below(text.len() + 1);
    let near = |text: &[u8], byte: u8| text[at..].iter().position(|it| *it == byte);
    match random.below(14) {
        0 | 1 => text.insert(at, random.one_of(&TELLING)),
        2 | 3 if at < text.len() => text[at] = random.one_of(&TELLING),
        4 if at < text.len() => drop(text.remove(at)),
        5 => text.truncate(at),
        6 if at + 1 < text.len() => text.swap(at, at + 1),
        kind => {
            // the next byte of its kind, and what stands there instead
            let (byte, instead): (u8, &[u8]) = random.one_of(&[
                (b'\r', b""),
                (b'\n', b""),
                (b'\r', b"\r\r"),
                (b'\n', b"\n\r\n"),
                (b'\n', b"\n\n"),
                (b',', b",,"),
                (b',', b""),
                (b',', b", "),
                (b',', b"\","),
                (b',', b",\""),
                (b',', b",\"\""),
                (b',', b"\r\n"),
                (b'"', b"\"\""),
                (b'"', b""),
                (b'"', b"\"x"),
                (b'\r', b" \r"),
                (b'\r', b",\r"),
                (b'\r', b"0\r"),
                (b'\r', b"05\r"),
                (b'-', b""),
                (b'-', b"--"),
                (b'0', b"O"),
                (b'K', b"k"),
                (b'R', b"r"),
            ]);
            match near(text, byte) {
                Some(next) => drop(text.splice(at + next..=at + next, instead.iter().copied())),
                None if kind % 2 == 0 => text.extend(instead),
                None => text.extend([byte]),
            }
        }
    }
}
