//! Our calls that read and write sheets (02 §1): on all texts of few pieces, on rows of every kind in every form and with every change in one
//! place, with the refusals beside one another, at the limits, and on sheets and lists by chance, short and long. Held against document 02 and
//! RFC 4180 alone: the original has none of this.

use crate::{
    calls::{lent, Calls, WIDE_MARK},
    hexadecimal,
    inputs::{
        alike_keys, bad_items, bad_lists, counted_key, counting_pools, counts, damage, early_keys,
        even_pools, few_keys, half_meeting, limit_keys, lists_of, plain_items, Pool, KEY_LENGTHS,
        POOL_LENGTHS,
    },
    insert_calls::wrapped_items,
    items::{has_end, has_start, shown, Words},
    random::Random,
    refusals::Checked,
    sheet_inputs::{
        changed, damage_text, kinds, names, row, some_lanes, spelled, ShortTexts, FIELDS, QUOTED,
        TELLING,
    },
    sheets::{self, Lane, ReadInto, WriteTo},
    table::{Against, Row},
    Size,
};

struct All {
    read: Calls,
    write: Calls,
    /// the plain reading's own, of texts whose lanes are known
    known: Row,
    plain: Row,
    again: Row,
    same: Row,
    inputs: usize,
    calls: usize,
}

/// Bytes that are lent for keys, and words for items.
type Room = [usize; 2];

pub fn run(random: &mut Random, size: &Size) -> Vec<Row> {
    let mut all = All {
        read: Calls::new("read_sheet", "read_sheet, refused"),
        write: Calls::new("write_sheet", "write_sheet, refused"),
        known: Row::again("sheets as lanes"),
        plain: Row::new("read_sheet: written, it is the plain form"),
        again: Row::new("read_sheet: the plain form reads as the same words"),
        same: Row::new("write_sheet: read again, the same items by bytes"),
        inputs: 0,
        calls: 0,
    };
    for texts in size.texts {
        all.short_texts(texts, &mut texts.before.as_bytes().to_vec(), texts.most);
    }
    all.forms(size.formed);
    all.changed_rows(size);
    all.refusals_together();
    all.keys_at_limits();
    all.rows_at_limits();
    all.full_pools();
    all.short_lists(size);
    all.faults();
    all.late_faults();
    all.listed_keys_at_limits();
    all.items_at_limits(size);
    for _ in 0..size.random / 8 {
        all.some_sheet(random, 12, 6);
        all.some_list(random, 12);
    }
    for _ in 0..size.random / 250 {
        all.some_sheet(random, 200, 255);
    }
    for _ in 0..size.long_lists {
        for longest in [0, 1, 8, 20, 60, 255] {
            all.some_sheet(random, 2_060, longest);
        }
        all.some_list(random, 2_048);
        all.long_lists(random);
    }
    let mut rows = vec![all.known];
    rows.extend(all.read.rows());
    rows.extend([all.plain, all.again]);
    rows.extend(all.write.rows());
    rows.push(all.same);
    rows
}

// ---- reading

/// Rows that are bad, each in its own way; some reach into the next row.
const BAD_ROWS: [&str; 25] = [
    "",
    ",,",
    "Key",
    "Key,05",
    "Key,05,,",
    "key,05,",
    "Keys,05,",
    "Key,0g,",
    "Key,5,",
    "Key,050,",
    "Key,,",
    "Key,05,06",
    "RangeFull,-,",
    "RangeTo,05,06",
    "Range,05,",
    "Range,05,- ",
    "Key,05,\nKey,06,",
    "Key,05,\rKey,06,",
    "\"Key\"s,05,",
    "K\"ey\",05,",
    "\"Key,05,",
    "\"Key\"\"\",05,",
    "Key,\"05\r\n\",",
    "Key,05,\r",
    "\u{FEFF}Key,05,",
];

impl All {
    /// A text, and all that are longer by so many pieces at most.
    fn short_texts(&mut self, texts: &ShortTexts, text: &mut Vec<u8>, most: usize) {
        self.sheet(&[text, texts.after.as_bytes()].concat());
        if most == 0 {
            return;
        }
        for piece in texts.pieces {
            let length = text.len();
            text.extend(piece.as_bytes());
            self.short_texts(texts, text, most - 1);
            text.truncate(length);
        }
    }

    /// Every name and every two fields, quoted in every way, with a line end, without, and with half of one; and behind a row that is good. Of
    /// all of these one in so many.
    fn forms(&mut self, one_in: usize) {
        let mut at = 0;
        for name in &names() {
            for start in FIELDS {
                for end in FIELDS {
                    for way in 0..QUOTED.len() * 3 + 8 {
                        at += 1;
                        if at % one_in != 0 {
                            continue;
                        }
                        let line_end = ["\r\n", "", "\n", "\r", "\r\n\r\n"][at / one_in % 5];
                        let text = match way.checked_sub(8) {
                            None => row([name, start, end], way, line_end),
                            Some(way) => one_quoted([name, start, end], way, line_end),
                        };
                        self.sheet(&text);
                        self.sheet(&[b"Range,00,-\r\n", &text[..]].concat());
                    }
                }
            }
        }
    }

    /// Rows of every kind, each field quoted or not, alone, behind a row and before one, with every change in one place.
    fn changed_rows(&mut self, size: &Size) {
        let all: Vec<u8> = (0..=255).collect();
        let (more, few) = match size.more_changes {
            true => (&all[..], &TELLING[..]),
            false => (&TELLING[..], &TELLING[..12]),
        };
        for fields in kinds() {
            for quoted in 0..8 {
                let row = row(fields, quoted, "\r\n");
                // most of none or all fields quoted
                let to = if quoted % 7 == 0 { more } else { few };
                for (before, after) in [("", ""), ("Key,7f,\r\n", ""), ("", "RangeTo,,-\r\n")] {
                    let text = [before.as_bytes(), &row, after.as_bytes()].concat();
                    self.sheet(&text);
                    changed(&text, to, |text| self.sheet(text));
                }
            }
        }
    }

    /// A bad row, a key that is too long, too many rows, too little room and a pool that is too large: each beside each other one, at the first
    /// place, the second and the last.
    fn refusals_together(&mut self) {
        let long = format!("Range,{},-", "0F".repeat(256));
        for count in [2, 3, 2_048, 2_049] {
            // of the long sheets less is tried
            let tried = if count < 9 { BAD_ROWS.len() } else { 3 };
            for long_at in [None, Some(0), Some(1), Some(count - 1)] {
                let mut rows = vec!["RangeAfterTo,0a,0B"; count];
                if let Some(at) = long_at {
                    rows[at] = &long;
                }
                self.in_short_rooms(&rows);
                for bad_at in [0, 1, count - 1] {
                    for bad in &BAD_ROWS[..tried] {
                        let good = std::mem::replace(&mut rows[bad_at], bad);
                        self.in_short_rooms(&rows);
                        rows[bad_at] = good;
                    }
                }
            }
        }
    }

    /// Rows whose keys have two bytes together, but for those that are refused, with pool or list at the limit or short of room.
    fn in_short_rooms(&mut self, rows: &[&str]) {
        let text = [&rows.join("\r\n"), "\r\n"].concat();
        let (keys, words) = (2 * rows.len(), 6 * rows.len());
        let rooms = [
            [65_535, words],
            [65_536, words],
            [65_537, words],
            [65_537, 0],
            [65_536, words - 1],
            [keys - 1, words + 7],
            [0, words],
            [0, 0],
        ];
        self.sheet_in(text.as_bytes(), &rooms);
    }

    /// Keys at the limits of length, quoted or not, as start and as end, in the first row and in later ones, of which the first counts.
    fn keys_at_limits(&mut self) {
        let fields = |field: &str| match field {
            "" => vec![String::new()],
            _ => KEY_LENGTHS.map(digits).to_vec(),
        };
        for [name, start, end] in kinds().take(10) {
            for start in &fields(start) {
                for end in &fields(end) {
                    for quoted in [0, 2, 7] {
                        let text = row([name, start, end], quoted, "\r\n");
                        self.sheet_in(&text, &POOL_LENGTHS.map(|length| [length, 6]));
                        self.sheet(&[b"Key,05,\r\n", &text[..], &text].concat());
                    }
                }
            }
        }
    }

    /// Sheets of so many rows as a list may have, and of one less and more, with words for as many, and for one more and less.
    fn rows_at_limits(&mut self) {
        for [name, start, end] in kinds() {
            for count in [0, 1, 2_047, 2_048, 2_049] {
                let text = row([name, start, end], 0, "\r\n").repeat(count);
                let words = |count: usize| [65_536, 6 * count];
                self.sheet_in(
                    &text,
                    &[words(2_047), words(2_048), words(2_049), words(4_096)],
                );
            }
        }
    }

    /// Keys that fill the largest pool exactly, less a byte, and with a byte too many; rows and pool at their limits together.
    fn full_pools(&mut self) {
        let key = |length: usize| format!("Key,{},\r\n", "C7".repeat(length));
        let keys = [
            key(255).repeat(257),
            key(255).repeat(257) + &key(1),
            key(255).repeat(257) + &key(2),
            key(32).repeat(2_048),
            key(32).repeat(2_049),
            key(32).repeat(2_047) + &key(33),
            key(255).repeat(2_048),
        ];
        for text in &keys {
            self.sheet_in(
                text.as_bytes(),
                &POOL_LENGTHS.map(|length| [length, 12_288]),
            );
        }
    }

    /// A sheet of so many rows at most, by chance, with keys of so many bytes at most, as others may write it; and damaged.
    fn some_sheet(&mut self, random: &mut Random, most: usize, longest: usize) {
        // many of the long ones are near the limit
        let count = match most > 2_048 && random.below(2) == 0 {
            true => 2_040 + random.below(most - 2_039),
            false => random.below(most + 1),
        };
        let lanes = some_lanes(random, count, longest);
        let mut text = spelled(random, &lanes);
        self.known.hold(
            || told(&text),
            Against::paper(sheets::lanes(&text), Ok(lanes.clone())),
        );
        self.sheet(&text);
        for _ in 0..random.one_of(&[1, 1, 2, 3]) {
            damage_text(random, &mut text);
            self.sheet(&text);
        }
    }

    fn sheet(&mut self, text: &[u8]) {
        self.sheet_in(text, &[]);
    }

    /// A sheet in every room that makes a difference, exactly full, short of a byte or a word, and with some to spare, and in others. Then what
    /// our calls say of one another, where it is read.
    fn sheet_in(&mut self, text: &[u8], rooms: &[Room]) {
        self.inputs += 1;
        let at = self.inputs;
        let lanes = sheets::lanes(text);
        let mut all = rooms.to_vec();
        match &lanes {
            Ok(lanes) => {
                let (keys, words) = sheets::packed(lanes);
                let (keys, words) = (keys.len(), words.len());
                all.extend([
                    [keys, words],
                    [keys + 1 + at % 9, words + 1 + at % 13],
                    [keys.saturating_sub(1), words],
                    [keys, words.saturating_sub(1)],
                ]);
                if at % 4 == 0 {
                    all.extend([
                        [0, words],
                        [keys, 0],
                        [keys + at % 3, words.saturating_sub(6)],
                    ]);
                }
            }
            // whatever is lent
            Err(_) => all.push([at % 9, at % 31]),
        }
        all.sort();
        all.dedup();
        for room in all {
            self.read_in(text, lanes.as_deref().map_err(|refusal| *refusal), room);
        }
        if let Ok(lanes) = &lanes {
            self.laws(text, lanes);
        }
    }

    /// A call held against what it is to leave: the pool, every word of the list, and the places of the numbers.
    fn read_in(&mut self, text: &[u8], lanes: Checked<&[Lane]>, room: Room) {
        let lent = self.lent(text, room);
        let answer = sheets::read(lanes, &lent);
        self.read.hold_paper(
            || {
                format!(
                    "{}, {} bytes and {} words lent",
                    told(text),
                    room[0],
                    room[1]
                )
            },
            lent,
            |left| left.call(text),
            answer,
        );
    }

    /// A pool and a list of so many bytes and words. In them stand marks, or zeros, or the text.
    fn lent(&mut self, text: &[u8], [bytes, words]: Room) -> ReadInto {
        self.calls += 1;
        let byte = |at: usize| match self.calls / 3 % 3 {
            0 => 0xC0 + (at % 16) as u8,
            1 => 0,
            _ => *text.get(at).unwrap_or(&0xA0),
        };
        ReadInto {
            pool: (0..bytes).map(byte).collect(),
            out: lent(words),
            items: WIDE_MARK,
            bytes: WIDE_MARK + 1,
        }
    }

    /// A sheet that is read, where it has room in any pool and list: what is read is written as the plain form of the sheet, and that form is
    /// read as the same words and keys.
    fn laws(&mut self, text: &[u8], lanes: &[Lane]) {
        let (keys, words) = sheets::packed(lanes);
        let room = [keys.len() + self.inputs % 3, words.len() + self.inputs % 7];
        let mut first = self.lent(text, room);
        if first.call(text) != 0 {
            return;
        }
        let Some((keys, words)) = first.told() else {
            return;
        };
        let form = sheets::text(lanes);
        let mut written = WriteTo {
            text: vec![0xEE; form.len() + self.inputs % 3],
            bytes: WIDE_MARK,
        };
        let returned = written.call(keys, words);
        let told = || told(text);
        self.plain.hold(
            told,
            Against::paper((returned, written.told()), (0, Some(&form[..]))),
        );
        let mut second = self.lent(&form, room);
        let returned = written.told().map(|form| second.call(form));
        self.again.hold(
            told,
            Against::paper((returned, second.told()), (Some(0), first.told())),
        );
    }
}

/// The field of a key of so many bytes.
fn digits(length: usize) -> String {
    match length {
        0 => "-".to_string(),
        _ => "7f".repeat(length),
    }
}

/// A row in which one field is written in another way than the others, which are as they are.
fn one_quoted(fields: [&str; 3], way: usize, line_end: &str) -> Vec<u8> {
    let mut written = fields.map(str::to_string);
    let at = way % 3;
    written[at] = QUOTED[way / 3](fields[at]);
    [&written.join(","), line_end].concat().into_bytes()
}

// ---- writing

impl All {
    /// All lists of two items over few keys, plain and wrapped.
    fn short_lists(&mut self, size: &Size) {
        let (pool, keys) = few_keys(size.listed);
        let items = wrapped_items(&keys, 2);
        for list in lists_of(&items, 2, |_| true) {
            self.list(&pool, &list.concat());
        }
        for list in lists_of(&plain_items(&keys[..2]), 3, |_| true) {
            self.list(&pool, &list.concat());
        }
    }

    /// Lists with every fault, in pools at the limit, and every two items with a fault, wrapped or not, one after the other.
    fn faults(&mut self) {
        for pool in &counting_pools() {
            for list in &bad_lists() {
                self.list(pool, list);
            }
        }
        let [_, pool, _] = &counting_pools();
        let wrapped = bad_items().map(|[code, _, a, b, c, d]| [code, 1, a, b, c, d]);
        let items: Vec<Words> = bad_items().chain(wrapped).collect();
        for first in &items {
            for second in &items {
                self.list(pool, &[*first, *second].concat());
                self.list(pool, &[[0, 0, 5, 1, 0, 0], *first, *second].concat());
            }
        }
    }

    /// Every fault of an item at the first, the second and later places of a list, up to the last that a list has.
    fn late_faults(&mut self) {
        let [_, pool, _] = &counting_pools();
        for bad in bad_items() {
            for at in [0, 1, 4, 2_046, 2_047] {
                let mut list = vec![[2, 0, 7, 1, 8, 2]; at + 1];
                list[at] = bad;
                self.list(pool, &list.concat());
            }
        }
    }

    /// Items with keys at the limits of length, at the front of a pool, at its end and one byte past that.
    fn listed_keys_at_limits(&mut self) {
        for pool in &even_pools() {
            for item in plain_items(&limit_keys(pool, 1)) {
                self.list(pool, &item);
            }
        }
    }

    /// None, one, and items at the limit, in pools at the limit; the longest text that there is.
    fn items_at_limits(&mut self, size: &Size) {
        for pool in &counting_pools() {
            for count in counts(size).chain([2_048]) {
                let [ranges, _] = half_meeting(count, 0);
                self.list(pool, &ranges.concat());
                let keys: Vec<Words> = (0..count).map(counted_key).collect();
                self.list(pool, &keys.concat());
            }
        }
        let (pool, keys) = alike_keys(255, 1);
        let [offset, length] = keys[0];
        self.list(
            &pool,
            &[[9, 0, offset, length, offset, length]; 2_048].concat(),
        );
    }

    /// A list of items by chance, upright or not and in no order, with keys of up to 255 bytes. Most are plain, and some are damaged.
    fn some_list(&mut self, random: &mut Random, most: usize) {
        let pool = Pool::new(random);
        let count = random.below(most + 1);
        let mut list: Vec<Words> = (0..count).map(|_| pool.item(random)).collect();
        // in one list of eight one item stays as it is, which may be wrapped
        let kept = random.below(8 * count + 1);
        for (at, item) in list.iter_mut().enumerate() {
            if at != kept {
                item[1] = 0;
            }
        }
        let mut words = list.concat();
        if random.below(8) == 0 {
            damage(random, &mut words, &pool.bytes);
        }
        self.list(&pool.bytes, &words);
    }

    /// Lists as long as they may be, over keys of one length, which fit a pool packed or do not.
    fn long_lists(&mut self, random: &mut Random) {
        for length in [1, 8, 15, 16, 17, 60] {
            let (pool, keys) = early_keys(random, length, 8_192);
            let mut item = |_| {
                let code = random.below(10) as u32;
                let mut key = |present: bool| match present {
                    true => random.one_of(&keys),
                    false => [0, 0],
                };
                let ([a, b], [c, d]) = (key(has_start(code)), key(has_end(code)));
                [code, 0, a, b, c, d]
            };
            let words: Vec<u32> = (0..2_048).flat_map(&mut item).collect();
            self.list(&pool, &words);
        }
    }

    /// A list in every room that makes a difference: exactly full, a byte short, some to spare, and every fourth in none at all. Then whether
    /// what is written is read as the same.
    fn list(&mut self, pool: &[u8], words: &[u32]) {
        self.inputs += 1;
        let lanes = sheets::said(pool, words);
        let text = lanes.as_deref().map(sheets::text);
        let text = text.as_deref().map_err(|refusal| **refusal);
        let needed = text.map_or(0, <[u8]>::len);
        let mut rooms = vec![
            needed,
            needed.saturating_sub(1),
            needed + 1 + self.inputs % 9,
        ];
        if self.inputs % 4 == 0 {
            rooms.push(0);
        }
        rooms.sort();
        rooms.dedup();
        for room in rooms {
            let lent = self.lent_text(room);
            let answer = sheets::written(text, &lent);
            self.write.hold_paper(
                || format!("{words:?} in {}, {room} bytes lent", hexadecimal(pool)),
                lent,
                |left| left.call(pool, words),
                answer,
            );
        }
        if let Ok(lanes) = &lanes {
            self.same_items(pool, words, lanes, needed);
        }
    }

    /// So many bytes: marks, zeros, or a text.
    fn lent_text(&mut self, room: usize) -> WriteTo {
        self.calls += 1;
        let byte = |at: usize| match self.calls / 3 % 3 {
            0 => 0xC0 + (at % 16) as u8,
            1 => 0,
            _ => b"Key,05,\r\n"[at % 9],
        };
        WriteTo {
            text: (0..room).map(byte).collect(),
            bytes: WIDE_MARK,
        }
    }

    /// What is written, read again: the same items by bytes, where a pool has room for their keys packed, and else 6.
    fn same_items(&mut self, pool: &[u8], words: &[u32], lanes: &[Lane], needed: usize) {
        let mut written = self.lent_text(needed);
        let accepted = written.call(pool, words) == 0;
        let (keys, _) = sheets::packed(lanes);
        let mut left = self.lent(pool, [keys.len().min(65_536), words.len()]);
        let returned = match written.told() {
            Some(text) if accepted => left.call(text),
            _ => 0,
        };
        let ours = match returned {
            0 => Ok(left.told().map(|(keys, words)| shown(words, keys))),
            refused => Err(refused),
        };
        let other = match keys.len() <= 65_536 {
            true => Ok(Some(shown(words, pool))),
            false => Err(6),
        };
        self.same.hold(
            || format!("{words:?} in {}", hexadecimal(pool)),
            Against::paper(ours, other),
        );
    }
}

/// The front of a text, with what is no letter escaped.
fn told(text: &[u8]) -> String {
    const MOST: usize = 400;
    let front = &text[..text.len().min(MOST)];
    let more = if text.len() > MOST { ".." } else { "" };
    format!("\"{}\"{more}", front.escape_ascii())
}
