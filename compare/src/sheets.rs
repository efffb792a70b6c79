//! Document 02 §1, lane sheets as text: our two calls with all that they are lent for writing, and what they are to leave of it, read as plainly
//! as can be from the paper and from the grammar of RFC 4180.

use crate::{
    fernsponge, hexadecimal,
    items::{end_of, has_end, has_start, pack, six, start_of, Words},
    refusals::{self, refuse, Checked, MOST_ITEMS, MOST_KEY},
};
use std::mem::take;

/// Document 01's names of items, by code.
pub const NAMES: [&str; 10] = [
    "Key",
    "Range",
    "RangeInclusive",
    "RangeFull",
    "RangeFrom",
    "RangeTo",
    "RangeToInclusive",
    "RangeAfter",
    "RangeAfterTo",
    "RangeAfterToInclusive",
];

/// What is lent for reading a sheet into: the pool, the list, and the places of the two numbers.
#[derive(Clone, Debug, PartialEq)]
pub struct ReadInto {
    pub pool: Vec<u8>,
    pub out: Vec<u32>,
    pub items: u64,
    pub bytes: u64,
}

impl ReadInto {
    pub fn call(&mut self, text: &[u8]) -> u64 {
        let Self {
            pool,
            out,
            items,
            bytes,
        } = self;
        fernsponge::read_sheet(text, pool, out, items, bytes)
    }

    /// The keys and the items, of what an accepted call leaves.
    pub fn told(&self) -> Option<(&[u8], &[u32])> {
        let keys = self.pool.get(..self.bytes as usize)?;
        Some((keys, self.out.get(..6 * self.items as usize)?))
    }
}

/// What is lent for writing a sheet to: its text, and the place of the number of bytes.
#[derive(Clone, Debug, PartialEq)]
pub struct WriteTo {
    pub text: Vec<u8>,
    pub bytes: u64,
}

impl WriteTo {
    pub fn call(&mut self, pool: &[u8], words: &[u32]) -> u64 {
        fernsponge::write_sheet(pool, words, &mut self.text, &mut self.bytes)
    }

    /// The sheet, of what an accepted call leaves.
    pub fn told(&self) -> Option<&[u8]> {
        self.text.get(..self.bytes as usize)
    }
}

/// What a row or an item says: its code, and the keys that an item of this code has.
#[derive(Clone, Debug, PartialEq)]
pub struct Lane {
    pub code: u32,
    pub start: Option<Vec<u8>>,
    pub end: Option<Vec<u8>>,
}

/// The lanes of a sheet: 12 for the first row that says none.
pub fn lanes(text: &[u8]) -> Checked<Vec<Lane>> {
    let records = Records::new(text);
    let mut lanes = vec![];
    for (index, record) in records.whole.iter().enumerate() {
        match lane(record) {
            Some(lane) => lanes.push(lane),
            None => return refuse(12, 0, index),
        }
    }
    match records.broken {
        true => refuse(12, 0, lanes.len()),
        false => Ok(lanes),
    }
}

/// What reading is to leave. After 12 the lent pool's size, then 2 for the first row with a key that is too long, then 6 where pool or list lack
/// room, or the list would have too many items. Memory past the keys and the items stays.
pub fn read(lanes: Checked<&[Lane]>, lent: &ReadInto) -> Checked<ReadInto> {
    let lanes = lanes?;
    refusals::pool(&lent.pool)?;
    if let Some(index) = lanes.iter().position(Lane::is_long) {
        return refuse(2, 0, index);
    }
    let (keys, words) = packed(lanes);
    let room = lent.out.len() / 6;
    if keys.len() > lent.pool.len() || lanes.len() > room || lanes.len() > MOST_ITEMS {
        return refuse(6, 0, 0);
    }
    let mut left = lent.clone();
    left.pool[..keys.len()].copy_from_slice(&keys);
    left.out[..words.len()].copy_from_slice(&words);
    (left.items, left.bytes) = (lanes.len() as u64, keys.len() as u64);
    Ok(left)
}

/// The keys one after another, start before end, equal ones each time, and the items over them; an empty key stands where packing is then.
pub fn packed(lanes: &[Lane]) -> (Vec<u8>, Vec<u32>) {
    let mut keys = vec![];
    let mut words = vec![];
    for Lane { code, start, end } in lanes {
        words.extend(pack(*code, 0, start.as_deref(), end.as_deref(), &mut keys));
    }
    (keys, words)
}

/// What the items of a list say: the pool, the shape, then 1, 2 and 5 of each item.
pub fn said(pool: &[u8], words: &[u32]) -> Checked<Vec<Lane>> {
    refusals::plain_items(pool, words)?;
    let items = words.chunks(6).filter_map(six);
    Ok(items.map(|item| Lane::new(item, pool)).collect())
}

/// The text of lanes: no field is quoted, and CR LF ends each row.
pub fn text(lanes: &[Lane]) -> Vec<u8> {
    lanes.iter().map(Lane::row).collect::<String>().into_bytes()
}

/// What writing a text is to leave: 6 where it lacks room. Memory past it stays.
pub fn written(text: Checked<&[u8]>, lent: &WriteTo) -> Checked<WriteTo> {
    let text = text?;
    if text.len() > lent.text.len() {
        return refuse(6, 0, 0);
    }
    let mut left = lent.clone();
    left.text[..text.len()].copy_from_slice(text);
    left.bytes = text.len() as u64;
    Ok(left)
}

impl Lane {
    /// What an accepted item says.
    fn new(item: Words, pool: &[u8]) -> Self {
        let code = item[0];
        let key = |key: Option<&[u8]>, present: bool| key.filter(|_| present).map(<[u8]>::to_vec);
        Self {
            code,
            start: key(start_of(item, pool), has_start(code)),
            end: key(end_of(item, pool), has_end(code)),
        }
    }

    fn is_long(&self) -> bool {
        let mut keys = [&self.start, &self.end].into_iter().flatten();
        keys.any(|key| key.len() > MOST_KEY as usize)
    }

    fn row(&self) -> String {
        let [name, start, end] = self.fields();
        format!("{name},{start},{end}\r\n")
    }

    /// An absent key is an empty field, the empty key is `-`, and the digits of any other are upper case.
    pub fn fields(&self) -> [String; 3] {
        let field = |key: &Option<Vec<u8>>| key.as_deref().map_or(String::new(), hexadecimal);
        let name = NAMES[self.code as usize].to_string();
        [name, field(&self.start), field(&self.end)]
    }
}

/// The lane that the fields of a record say.
fn lane(record: &[Vec<u8>]) -> Option<Lane> {
    let [name, start, end] = record else {
        return None;
    };
    let code = NAMES.iter().position(|known| known.as_bytes() == name)? as u32;
    Some(Lane {
        code,
        start: key(start, has_start(code))?,
        end: key(end, has_end(code))?,
    })
}

/// The key of a field, or none where the item has none; nothing where the field is neither.
fn key(field: &[u8], present: bool) -> Option<Option<Vec<u8>>> {
    match (present, field) {
        (false, b"") => Some(None),
        (false, _) | (true, b"") => None,
        (true, b"-") => Some(Some(vec![])),
        (true, digits) => digits.chunks(2).map(byte).collect::<Option<_>>().map(Some),
    }
}

/// The byte of two digits in either case.
fn byte(digits: &[u8]) -> Option<u8> {
    let value = |digit: u8| char::from(digit).to_digit(16);
    match digits {
        [high, low] => Some((16 * value(*high)? + value(*low)?) as u8),
        _ => None,
    }
}

/// The records of RFC 4180's grammar, each as the contents of its fields.
struct Records {
    whole: Vec<Vec<Vec<u8>>>,
    /// what stands after them is no record
    broken: bool,
}

/// Where in a record the next byte stands.
enum State {
    RecordStart,
    FieldStart,
    Unquoted,
    Quoted,
    /// after a quote in a quoted field, which ends it or is the first of two
    Quote,
    /// after the CR of a line end
    Return,
}

impl Records {
    /// Byte by byte. A text without any has no records, and behind the last line end there is none.
    fn new(text: &[u8]) -> Self {
        use State::*;
        let (mut whole, mut record, mut field) = (vec![], vec![], vec![]);
        let mut state = RecordStart;
        for byte in text {
            state = match (state, byte) {
                (RecordStart | FieldStart, b'"') => Quoted,
                (Quoted, b'"') => Quote,
                (Quote, b'"') => {
                    field.push(b'"');
                    Quoted
                }
                (Quoted, _) if is_text(*byte) || b",\r\n".contains(byte) => {
                    field.push(*byte);
                    Quoted
                }
                (RecordStart | FieldStart | Unquoted, _) if is_text(*byte) => {
                    field.push(*byte);
                    Unquoted
                }
                (RecordStart | FieldStart | Unquoted | Quote, b',') => {
                    record.push(take(&mut field));
                    FieldStart
                }
                (RecordStart | FieldStart | Unquoted | Quote, b'\r') => Return,
                (Return, b'\n') => {
                    record.push(take(&mut field));
                    whole.push(take(&mut record));
                    RecordStart
                }
                _ => {
                    return Self {
                        whole,
                        broken: true,
                    }
                }
            };
        }
        let broken = matches!(state, Quoted | Return);
        if matches!(state, FieldStart | Unquoted | Quote) {
            record.push(field);
            whole.push(record);
        }
        Self { whole, broken }
    }
}

/// TEXTDATA.
fn is_text(byte: u8) -> bool {
    matches!(byte, 0x20..=0x21 | 0x23..=0x2B | 0x2D..=0x7E)
}
