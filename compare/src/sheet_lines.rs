//! Sheets with what our calls read and write of them, for another program to hold. A line has a sheet in hexadecimal, our answer, and the text,
//! in hexadecimal, that our other call writes of what was read; between these a semicolon. The answer is the items, each as code, start and end
//! with a colon between, keys in hexadecimal, and `*` for an absent one; or `refused`, the refusal's number and its index, and no text.

use crate::{
    items::{has_end, has_start, keys, six},
    random::Random,
    sheet_inputs::{damage_text, some_lanes, spelled},
    sheets::{packed, Lane, ReadInto, WriteTo},
    SEED,
};
use std::io::{self, BufRead, BufWriter, Write};

/// So many sheets by chance, as we write them and as others may, and damaged.
pub fn write(count: u64, out: &mut impl Write) -> io::Result<()> {
    let random = &mut Random::new(SEED);
    let mut out = BufWriter::new(out);
    for _ in 0..count {
        let text = some_text(random);
        writeln!(out, "{};{}", digits(&text), answer(&text))?;
    }
    out.flush()
}

/// The lines of another program, each of which begins with a sheet in hexadecimal, up to a semicolon: our answers behind them.
pub fn read(lines: &mut impl BufRead, out: &mut impl Write) -> io::Result<()> {
    let mut out = BufWriter::new(out);
    for line in lines.lines() {
        let line = line?;
        let sheet = line.split(';').next().unwrap_or("");
        let text = text(sheet).ok_or(io::Error::other(format!("no sheet: {line}")))?;
        writeln!(out, "{line};{}", answer(&text))?;
    }
    out.flush()
}

/// Half of the sheets are damaged. One in 200 has about as many rows as a list may have, and some have keys that are too long.
fn some_text(random: &mut Random) -> Vec<u8> {
    let (count, longest) = match random.below(200) {
        0 => (2_046 + random.below(6), random.one_of(&[1, 8, 40])),
        1..10 => (random.below(4), 700),
        10..20 => (random.below(60), 10),
        _ => (random.below(7), 4),
    };
    let lanes = some_lanes(random, count, longest);
    let ours = match random.below(4) {
        0 => our_text(&lanes),
        _ => None,
    };
    let mut text = ours.unwrap_or_else(|| spelled(random, &lanes));
    for _ in 0..random.one_of(&[0, 0, 0, 1, 1, 2]) {
        damage_text(random, &mut text);
    }
    text
}

/// What our call writes, of lanes that it accepts.
fn our_text(lanes: &[Lane]) -> Option<Vec<u8>> {
    let (pool, words) = packed(lanes);
    written(&pool, &words)
}

fn written(pool: &[u8], words: &[u32]) -> Option<Vec<u8>> {
    let mut lent = WriteTo {
        text: vec![0; MOST_ROW * (words.len() / 6)],
        bytes: 0,
    };
    let accepted = lent.call(pool, words) == 0;
    lent.told().filter(|_| accepted).map(<[u8]>::to_vec)
}

/// The bytes of a row with two keys of 255 bytes.
const MOST_ROW: usize = 1_045;

/// What our call reads, in the largest pool and list, and what is written of it.
fn answer(text: &[u8]) -> String {
    let mut left = ReadInto {
        pool: vec![0; 65_536],
        out: vec![0; 6 * 2_048],
        items: 0,
        bytes: 0,
    };
    let returned = left.call(text);
    if returned != 0 {
        return format!("refused {} {};", returned % 65_536, returned / 65_536);
    }
    let Some((pool, words)) = left.told() else {
        return "no list;".to_string();
    };
    let item = |words: &[u32]| {
        let item = six(words).unwrap_or_default();
        let key = |key: &[u8], present: bool| match present {
            true => digits(key),
            false => "*".to_string(),
        };
        let (code, (start, end)) = (item[0], keys(item, pool));
        let (start, end) = (key(start, has_start(code)), key(end, has_end(code)));
        format!("{code}:{start}:{end}")
    };
    let items: Vec<String> = words.chunks(6).map(item).collect();
    let written = match written(pool, words) {
        Some(text) => digits(&text),
        None => "refused".to_string(),
    };
    format!("{};{written}", items.join(" "))
}

fn digits(bytes: &[u8]) -> String {
    bytes.iter().map(|byte| format!("{byte:02X}")).collect()
}

fn text(digits: &str) -> Option<Vec<u8>> {
    let byte = |at| u8::from_str_radix(digits.get(at..at + 2)?, 16).ok();
    (0..digits.len()).step_by(2).map(byte).collect()
}
