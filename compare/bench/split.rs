//! The references for sheets: rows split and decoded, and written, as one does it by hand in Rust, unproved, from and into the same lent memory as
//! our calls. In one pass reading checks each row when it comes to it, so that what it refuses late it has written before, and writing checks
//! nothing but the room. The two that check first refuse what our calls refuse, with nothing written.

use compare::sheets::NAMES;

const MOST_POOL: usize = 65_536;
const MOST_ITEMS: usize = 2_048;
const MOST_KEY: usize = 255;

/// How many items and bytes of keys are read; none where a row is bad, a key too long, or there is too little room.
pub fn read(text: &[u8], pool: &mut [u8], out: &mut [u32]) -> Option<[usize; 2]> {
    let (mut rest, mut used, mut count) = (text, 0, 0);
    let mut items = out.chunks_exact_mut(6);
    while !rest.is_empty() {
        let (row, after) = row(rest)?;
        let start = put_bytes(row.start, has_start(row.code), pool, &mut used)?;
        let end = put_bytes(row.end, has_end(row.code), pool, &mut used)?;
        let item = [row.code, 0, start[0], start[1], end[0], end[1]];
        items.next()?.copy_from_slice(&item);
        count += 1;
        rest = after;
    }
    Some([count, used])
}

/// The same, with nothing written where it is refused.
pub fn check_and_read(text: &[u8], pool: &mut [u8], out: &mut [u32]) -> Option<[usize; 2]> {
    let (mut rest, mut used, mut count) = (text, 0, 0);
    while !rest.is_empty() {
        let (row, after) = row(rest)?;
        used += count_bytes(row.start, has_start(row.code))?;
        used += count_bytes(row.end, has_end(row.code))?;
        count += 1;
        rest = after;
    }
    let fits = used <= pool.len() && count <= out.len() / 6;
    if pool.len() > MOST_POOL || count > MOST_ITEMS || !fits {
        return None;
    }
    read(text, pool, out)
}

/// How many bytes are written; none where there is too little room.
pub fn write(pool: &[u8], words: &[u32], text: &mut [u8]) -> Option<usize> {
    let mut at = 0;
    for item in words.chunks_exact(6) {
        let code = item[0];
        put(text, &mut at, NAMES[code as usize].as_bytes())?;
        put(text, &mut at, b",")?;
        if has_start(code) {
            put_digits(text, &mut at, &pool[item[2] as usize..][..item[3] as usize])?;
        }
        put(text, &mut at, b",")?;
        if has_end(code) {
            put_digits(text, &mut at, &pool[item[4] as usize..][..item[5] as usize])?;
        }
        put(text, &mut at, b"\r\n")?;
    }
    Some(at)
}

/// The same, of any words, with nothing written where it is refused.
pub fn check_and_write(pool: &[u8], words: &[u32], text: &mut [u8]) -> Option<usize> {
    if pool.len() > MOST_POOL || words.len() % 6 != 0 || words.len() / 6 > MOST_ITEMS {
        return None;
    }
    let mut needed = 0;
    for item in words.chunks_exact(6) {
        let name = NAMES.get(item[0] as usize)?;
        if item[1] != 0 {
            return None;
        }
        needed += name.len() + 4;
        needed += count_digits(pool, item[2], item[3], has_start(item[0]))?;
        needed += count_digits(pool, item[4], item[5], has_end(item[0]))?;
    }
    if needed > text.len() {
        return None;
    }
    write(pool, words, text)
}

fn has_start(code: u32) -> bool {
    !matches!(code, 3 | 5 | 6)
}

fn has_end(code: u32) -> bool {
    !matches!(code, 0 | 3 | 4 | 7)
}

/// The code and the fields of a row, which may not be keys.
struct Row<'a> {
    code: u32,
    start: &'a [u8],
    end: &'a [u8],
}

/// The first row of a text, and the text after it.
fn row(text: &[u8]) -> Option<(Row<'_>, &[u8])> {
    let (name, after) = field(text)?;
    let (start, after) = field(after.strip_prefix(b",")?)?;
    let (end, after) = field(after.strip_prefix(b",")?)?;
    let after = match after {
        [] => after,
        _ => after.strip_prefix(b"\r\n")?,
    };
    let code = code(name)?;
    Some((Row { code, start, end }, after))
}

/// The content of a field, and the text after it. No name and no key has a quote in it: a doubled one ends the field, and what follows is refused.
fn field(text: &[u8]) -> Option<(&[u8], &[u8])> {
    match text {
        [b'"', quoted @ ..] => {
            let length = quoted.iter().position(|byte| *byte == b'"')?;
            Some((&quoted[..length], &quoted[length + 1..]))
        }
        _ => {
            let ends = |byte: &u8| matches!(byte, b',' | b'"' | b'\r' | b'\n');
            let length = text.iter().position(ends);
            Some(text.split_at(length.unwrap_or(text.len())))
        }
    }
}

fn code(name: &[u8]) -> Option<u32> {
    Some(match name {
        b"Key" => 0,
        b"Range" => 1,
        b"RangeInclusive" => 2,
        b"RangeFull" => 3,
        b"RangeFrom" => 4,
        b"RangeTo" => 5,
        b"RangeToInclusive" => 6,
        b"RangeAfter" => 7,
        b"RangeAfterTo" => 8,
        b"RangeAfterToInclusive" => 9,
        _ => return None,
    })
}

/// What each digit counts, in either case, and more than 15 for any other byte: a table, since a branch on digits by chance is guessed wrong.
const VALUES: [u8; 256] = {
    let mut values = [0xFF; 256];
    let mut value = 0;
    while value < 16 {
        values[b"0123456789ABCDEF"[value] as usize] = value as u8;
        values[b"0123456789abcdef"[value] as usize] = value as u8;
        value += 1;
    }
    values
};

/// Where the key of a field stands in the pool, behind those before it, and its length.
fn put_bytes(field: &[u8], present: bool, pool: &mut [u8], used: &mut usize) -> Option<[u32; 2]> {
    if !present {
        return field.is_empty().then_some([0, 0]);
    }
    let at = *used;
    if field == b"-" {
        return Some([at as u32, 0]);
    }
    let length = key_length(field)?;
    let room = pool.get_mut(at..at + length)?;
    for (byte, digits) in room.iter_mut().zip(field.chunks_exact(2)) {
        let [high, low] = [digits[0], digits[1]].map(|digit| VALUES[usize::from(digit)]);
        if high | low > 15 {
            return None;
        }
        *byte = high << 4 | low;
    }
    *used += length;
    Some([at as u32, length as u32])
}

/// How many bytes the key of a field has.
fn count_bytes(field: &[u8], present: bool) -> Option<usize> {
    if !present || field == b"-" {
        return (present || field.is_empty()).then_some(0);
    }
    let values = field.iter().map(|digit| VALUES[usize::from(*digit)]);
    match values.fold(0, |all, value| all | value) {
        0..16 => key_length(field),
        _ => None,
    }
}

fn key_length(field: &[u8]) -> Option<usize> {
    let length = field.len() / 2;
    let whole = !field.is_empty() && field.len() % 2 == 0;
    (whole && length <= MOST_KEY).then_some(length)
}

fn put(text: &mut [u8], at: &mut usize, bytes: &[u8]) -> Option<()> {
    let to = *at + bytes.len();
    text.get_mut(*at..to)?.copy_from_slice(bytes);
    *at = to;
    Some(())
}

fn put_digits(text: &mut [u8], at: &mut usize, key: &[u8]) -> Option<()> {
    const DIGITS: &[u8; 16] = b"0123456789ABCDEF";
    if key.is_empty() {
        return put(text, at, b"-");
    }
    let to = *at + 2 * key.len();
    let room = text.get_mut(*at..to)?;
    for (digits, byte) in room.chunks_exact_mut(2).zip(key) {
        digits[0] = DIGITS[usize::from(byte >> 4)];
        digits[1] = DIGITS[usize::from(byte & 15)];
    }
    *at = to;
    Some(())
}

/// How many bytes the field of a key has.
fn count_digits(pool: &[u8], offset: u32, length: u32, present: bool) -> Option<usize> {
    let (offset, length) = (offset as usize, length as usize);
    if !present {
        return (offset == 0 && length == 0).then_some(0);
    }
    let inside = length <= MOST_KEY && offset + length <= pool.len();
    inside.then_some(if length == 0 { 1 } else { 2 * length })
}
