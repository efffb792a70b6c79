//! KRL files: a pool and two lists of items over it, in binary.
//!
//! The mark `KRL`, then four numbers of two bytes, the greater byte first: the version, which is 1, the pool's length, and the numbers of our items
//! and of theirs; then the pool; then eight bytes for each item: code, wrapper, and of start and end key the offset, two bytes, and the length, one.

use crate::{input::Input, message::Failure};
use fernsponge::Item;

/// What every KRL file begins with.
const MARK: &[u8] = b"KRL";

/// The most bytes that a KRL file has, and the most that its pool has.
pub const MOST_FILE: usize = 65_536;
const MOST_POOL: usize = 65_535;

/// The bytes before the pool, and those of an item.
const HEADER: usize = 11;
const RECORD: usize = 8;

/// What a KRL file says. Its items are as they stand there, checked by no one.
pub struct Krl {
    /// The pool.
    pub pool: Vec<u8>,
    /// The first list.
    pub ours: Vec<Item>,
    /// The second.
    pub theirs: Vec<Item>,
}

/// Whether a file has the mark, and so is no sheet.
pub fn is_krl(bytes: &[u8]) -> bool {
    bytes.starts_with(MARK)
}

/// The number that refuses what is no KRL file. The library reads no files, and so does not give it.
const NO_FILE: u8 = 10;

impl Krl {
    /// Reads a file of the right mark, version and length.
    pub fn read(input: &Input) -> Result<Self, Failure> {
        let ([pool, ours, _], rest) =
            parts(&input.bytes).map_err(|why| Failure::numbered(&input.name, why, NO_FILE))?;
        let (pool, records) = rest.split_at(pool);
        let mut items: Vec<_> = records.chunks_exact(RECORD).map(item_of).collect();
        let theirs = items.split_off(ours);
        Ok(Self {
            pool: pool.to_vec(),
            ours: items,
            theirs,
        })
    }

    /// Writes a file; or says which limit it would pass. Keys of items stand in the pool, so that each has at most 255 bytes.
    pub fn write(&self) -> Result<Vec<u8>, String> {
        let items = self.ours.len() + self.theirs.len();
        let length = HEADER + self.pool.len() + RECORD * items;
        if self.pool.len() > MOST_POOL {
            return Err(format!(
                "the keys have {} bytes, and the pool of a KRL file at most 65,535",
                self.pool.len()
            ));
        }
        if length > MOST_FILE {
            return Err(format!(
                "the file would have {length} bytes, 11 and {} of keys and 8 for each of {items} items, and a KRL file has at most 65,536",
                self.pool.len()
            ));
        }
        let mut bytes = MARK.to_vec();
        for number in [1, self.pool.len(), self.ours.len(), self.theirs.len()] {
            bytes.extend_from_slice(&low_bytes(number));
        }
        bytes.extend_from_slice(&self.pool);
        bytes.extend(
            self.ours
                .iter()
                .chain(&self.theirs)
                .flat_map(|item| record_of(*item)),
        );
        Ok(bytes)
    }
}

/// The pool's length and both numbers of items, and the bytes behind the header, which are as many as these ask for; or why this is no KRL file.
fn parts(bytes: &[u8]) -> Result<([usize; 3], &[u8]), String> {
    let length = bytes.len();
    if !is_krl(bytes) {
        return Err("no KRL file: it does not begin with the mark KRL".to_string());
    }
    // no more of it was read
    if length > MOST_FILE {
        return Err("it has more than 65,536 bytes, the most that a KRL file has".to_string());
    }
    let Some(([version, pool, ours, theirs], rest)) = header(bytes) else {
        return Err("it ends inside its header, which has 11 bytes".to_string());
    };
    if version != 1 {
        return Err(format!(
            "it has version {version}, and only version 1 is known"
        ));
    }
    let told = HEADER + pool + RECORD * (ours + theirs);
    if length != told {
        return Err(format!(
            "it has {length} bytes, and its header speaks of {told}"
        ));
    }
    Ok(([pool, ours, theirs], rest))
}

/// The four numbers behind the mark, and what follows them.
fn header(bytes: &[u8]) -> Option<([usize; 4], &[u8])> {
    let (header, rest) = bytes.split_first_chunk::<HEADER>()?;
    let [_, _, _, numbers @ ..] = *header;
    let [a, b, c, d, e, f, g, h] = numbers;
    let numbers = [[a, b], [c, d], [e, f], [g, h]];
    Some((
        numbers.map(|two| usize::from(u16::from_be_bytes(two))),
        rest,
    ))
}

/// The item of a record, whatever it says.
fn item_of(record: &[u8]) -> Item {
    let word = |at: usize| record.get(at).map_or(0, |byte| u32::from(*byte));
    let offset = |at: usize| 256 * word(at) + word(at + 1);
    Item::from_words([word(0), word(1), offset(2), word(4), offset(5), word(7)])
}

/// The record of an item: no word of it is greater than the record has room for, as the pool is no longer than its length can say.
fn record_of(item: Item) -> [u8; RECORD] {
    let [code, wrapper, start, start_length, end, end_length] =
        item.words().map(|word| word as usize);
    let [s0, s1] = low_bytes(start);
    let [e0, e1] = low_bytes(end);
    let [code, wrapper, start_length, end_length] =
        [code, wrapper, start_length, end_length].map(|word| low_bytes(word)[1]);
    [code, wrapper, s0, s1, start_length, e0, e1, end_length]
}

/// The two lowest bytes of a number, the greater one first.
fn low_bytes(number: usize) -> [u8; 2] {
    (number as u16).to_be_bytes()
}
