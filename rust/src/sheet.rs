//! Lane sheets: lists of plain items as comma-separated text under RFC 4180.

use crate::{
    detail::{self, Detail, Use},
    item::{Item, Pool, KINDS},
    limits::{MOST_ITEMS, MOST_KEY_BYTES, MOST_POOL_BYTES},
    memory::zeros,
    refusal::{Reason, Refusal},
    words,
};
use std::fmt;

/// A sheet that was read: its items, and the pool that has their keys.
///
/// A sheet is text, a row for each item: the item's name, its start key and its end key, separated by commas. Names are those of [`QueryItem`],
/// in exactly that case. Keys are hexadecimal, two digits a byte; the empty key is `-`, and the field of a key that the item does not have is
/// empty. CR LF ends a row, and the last one may lack it. There is no header; a text without a byte has no items. Digits are read in either case,
/// and a field may be quoted; digits are written in upper case, and nothing is quoted.
///
/// Nothing else of the items is checked: they may stand in any order, and a start may stand above its end. Reading what was written gives the
/// same items by kind and key bytes, and reading and then writing a sheet gives its plain form.
///
/// ```
/// use fernsponge::Sheet;
///
/// let sheet = Sheet::read(b"RangeInclusive,\"05\",0a\r\nRangeFrom,-,\r\nKey,0aFF,")?;
/// let shown: Vec<_> = sheet.items.iter().map(|item| item.shown(sheet.pool.bytes())).collect();
/// assert_eq!(shown, ["RangeInclusive 05 0A", "RangeFrom -", "Key 0AFF"]);
/// assert_eq!(sheet.pool.bytes(), [0x05, 0x0A, 0x0A, 0xFF]);
///
/// let text = Sheet::write(sheet.pool.bytes(), &sheet.items)?;
/// assert_eq!(text, "RangeInclusive,05,0A\r\nRangeFrom,-,\r\nKey,0AFF,\r\n");
/// # Ok::<(), Box<dyn std::error::Error>>(())
/// ```
///
/// [`QueryItem`]: crate::QueryItem
#[derive(Clone, Debug, Default)]
pub struct Sheet {
    /// The keys, packed in the order read, start before end: equal ones each time.
    pub pool: Pool,
    /// The items, a row each.
    pub items: Vec<Item>,
}

impl Sheet {
    /// Reads a sheet into a pool of its own. O(bytes of the text).
    ///
    /// # Errors
    ///
    /// The first bad row is refused with 12, before all else; then the first row that has a key of more than 255 bytes with 2; then, with 6, more
    /// than 2,048 rows, keys of more than 65,536 bytes together, or want of memory.
    ///
    /// ```
    /// use fernsponge::{Reason, Sheet, SheetCause};
    ///
    /// let error = Sheet::read(b"Key,03,\r\nRange,01,5\r\n").unwrap_err();
    /// assert_eq!((error.refusal.reason(), error.refusal.index), (Reason::BadRow, 1));
    /// let fault = error.fault.unwrap();
    /// assert_eq!((fault.row, fault.column, fault.cause), (1, 2, SheetCause::OddDigits));
    /// assert_eq!(
    ///     error.to_string(),
    ///     "row 1, column 2, counted from 0: the end key has an odd number of hexadecimal digits (refusal 12)"
    /// );
    /// ```
    pub fn read(text: &[u8]) -> Result<Self, SheetError> {
        let mut pool = Pool::new();
        let items = Self::read_into(text, &mut pool)?;
        Ok(Self { pool, items })
    }

    /// Reads a sheet whose keys go behind those that a pool has, so that several lists stand over one pool. O(bytes of the text). The keys are packed
    /// as they come, equal ones each time; [`Pool::collect`] joins them.
    ///
    /// # Errors
    ///
    /// As [`read`](Self::read) is refused, where 6 counts the bytes that the pool has too; the pool is then as it was.
    ///
    /// ```
    /// use fernsponge::{intersect_many_ordered, Pool, Sheet};
    ///
    /// let mut pool = Pool::new();
    /// let ours = Sheet::read_into(b"Range,01,05\r\n", &mut pool)?;
    /// let theirs = Sheet::read_into(b"Key,03,\r\n", &mut pool)?;
    /// assert_eq!(pool.bytes(), [0x01, 0x05, 0x03]);
    ///
    /// let lists = intersect_many_ordered(pool.bytes(), &ours, &theirs)?;
    /// let only_ours = Sheet::write(pool.bytes(), &lists.ours)?;
    /// assert_eq!(only_ours, "Range,01,03\r\nRangeAfterTo,03,05\r\n");
    /// # Ok::<(), Box<dyn std::error::Error>>(())
    /// ```
    pub fn read_into(text: &[u8], pool: &mut Pool) -> Result<Vec<Item>, SheetError> {
        let before = pool.bytes().len();
        // a good row has at least the six bytes of `Key,-,`, and two digits for each byte of a key: more room than that is never needed
        let mut items: Vec<Item> = zeros(MOST_ITEMS.min(text.len() / 6));
        let (mut count, mut lent) = (0, 0);
        pool.lend(text.len() / 2, |free| {
            let mut bytes = 0;
            lent = free.len();
            let out = words::of_items_mut(&mut items);
            Refusal::from_number(words::read_sheet(text, free, out, &mut count, &mut bytes))?;
            Ok(bytes as usize)
        })
        .map_err(|refusal| {
            let detail = (refusal.number == 6).then(|| no_room(text, items.len(), before, lent));
            SheetError::new(refusal.with(detail), text)
        })?;
        items.truncate(count as usize);
        for item in &mut items {
            *item = item.moved(before as u32);
        }
        Ok(items)
    }

    /// Writes a list of plain items as a sheet: the text is ASCII. O(items + bytes of the text).
    ///
    /// # Errors
    ///
    /// A pool of more than 65,536 bytes and a list of more than 2,048 items are refused with 1; then the first bad item with 1, with 2 for a key, or
    /// with 5 where it is wrapped; then want of memory with 6.
    ///
    /// ```
    /// use fernsponge::{Item, Pool, QueryItem, Reason, Sheet, Wrapper};
    ///
    /// let mut pool = Pool::new();
    /// let (low, high) = (pool.add(b"DE-FR/05")?, pool.add(b"DE-FR/09")?);
    /// let text = Sheet::write(pool.bytes(), &[Item::range(low, high), QueryItem::RangeFull.into()])?;
    /// assert_eq!(text, "Range,44452D46522F3035,44452D46522F3039\r\nRangeFull,,\r\n");
    ///
    /// let wrapped = Item::new(Wrapper::Count, QueryItem::Key(low));
    /// let refusal = Sheet::write(pool.bytes(), &[Item::key(low), wrapped]).unwrap_err();
    /// assert_eq!((refusal.reason(), refusal.index), (Reason::Wrapped, 1));
    /// # Ok::<(), fernsponge::Refusal>(())
    /// ```
    pub fn write(pool: &[u8], items: &[Item]) -> Result<String, Refusal> {
        // of a longer list nothing is written
        let mut text = zeros(items.iter().take(MOST_ITEMS).map(row_length).sum());
        let mut bytes = 0;
        Refusal::looked(
            words::write_sheet(pool, words::of_items(items), &mut text, &mut bytes),
            |refusal| match refusal.number {
                6 => Some(Detail::Memory("the text of the sheet")),
                _ => detail::list(refusal, pool, items, Use::Sheet),
            },
        )?;
        text.truncate(bytes as usize);
        Ok(String::from_utf8(text).expect("a sheet is ASCII"))
    }
}

/// What a sheet without a bad row lacks, where so many items, and so many bytes behind those that a pool has, are not enough for it.
fn no_room(text: &[u8], items: usize, before: usize, lent: usize) -> Detail {
    let ends = text.iter().filter(|byte| **byte == b'\n').count();
    let rows = ends + usize::from(!text.ends_with(b"\n"));
    if rows > MOST_ITEMS {
        Detail::Rows(rows)
    } else if items < rows {
        Detail::Memory("the items of the sheet")
    } else if lent < (text.len() / 2).min(MOST_POOL_BYTES - before) {
        Detail::Memory("the keys of the sheet")
    } else {
        Detail::RoomOfSheet(before)
    }
}

/// The bytes of a plain item's row: its name, two commas, CR LF, and its keys. An item that is refused has no row, and any length will do.
fn row_length(item: &Item) -> usize {
    let (name, keys) = item.named().unwrap_or_default();
    let digits = |length: u32| (2 * MOST_KEY_BYTES.min(length as usize)).max(1);
    let keys = keys.into_iter().flatten().map(|key| digits(key.length));
    name.len() + 4 + keys.sum::<usize>()
}

/// Why a sheet is not read. `{:#}` names what is not enough for it, as of a [`Refusal`]; where a fault is known, both texts are that of the fault.
#[derive(Clone, Copy, Debug, PartialEq, Eq, Hash)]
pub struct SheetError {
    /// What the library refuses it with.
    pub refusal: Refusal,
    /// Where and why, of a bad row (12) and of a key that is too long (2).
    pub fault: Option<SheetFault>,
}

impl SheetError {
    /// The refusal of a text by [`words::read_sheet`], with where and why. Whether a text is refused is for that call alone to say; what is wrong
    /// with it is found by looking at the text once more.
    #[must_use]
    pub fn new(refusal: Refusal, text: &[u8]) -> Self {
        let fault = match refusal.reason() {
            Reason::BadRow => first_fault(text, usize::MAX),
            Reason::KeyOutside => first_fault(text, MOST_KEY_BYTES),
            _ => None,
        };
        let refusal = match refusal.reason() {
            Reason::KeyOutside => refusal.with(Some(Detail::RowKey)),
            _ => refusal,
        };
        Self { refusal, fault }
    }
}

impl fmt::Display for SheetError {
    fn fmt(&self, f: &mut fmt::Formatter<'_>) -> fmt::Result {
        match (self.fault, self.refusal.reason()) {
            (Some(fault), _) => write!(f, "{fault} (refusal {})", self.refusal.number),
            (None, Reason::NoRoom) if !f.alternate() || self.refusal.detail.is_none() => f.write_str(
                "no room: a sheet has at most 2,048 rows, and the pool that its keys go to at most 65,536 bytes (refusal 6)",
            ),
            (None, _) => self.refusal.fmt(f),
        }
    }
}

impl std::error::Error for SheetError {}

/// Where a sheet is wrong, and why: of the first bad row the first field that breaks it apart, or else the first that says no name or key.
#[derive(Clone, Copy, Debug, PartialEq, Eq, Hash)]
pub struct SheetFault {
    /// The row, counted from 0: the index of the refusal. No row before it has a line end inside, so that it is line `row + 1` of an editor.
    pub row: u64,
    /// The field, counted from 0: the name, the start key, the end key, and 3 for a fourth field.
    pub column: usize,
    /// What is wrong there.
    pub cause: SheetCause,
}

/// What is wrong with a field of a sheet.
#[derive(Clone, Copy, Debug, PartialEq, Eq, Hash)]
#[non_exhaustive]
pub enum SheetCause {
    /// A byte order mark, EF BB BF, stands before the name: some programs put it in front of a text.
    ByteOrderMark,
    /// The row is CR LF alone.
    BlankRow,
    /// The row ends before this field.
    TooFewFields,
    /// This is a fourth field.
    TooManyFields,
    /// CR without LF behind it.
    BareCarriageReturn,
    /// LF without CR before it.
    BareLineFeed,
    /// The field starts with a quote, and no other follows.
    UnclosedQuote,
    /// Neither a comma nor the row's end follows the closing quote.
    TextAfterQuote,
    /// There is a quote in the field, which does not start with one.
    QuoteInside,
    /// Two quotes in a quoted field, which stand for one; no name and no key has it.
    DoubledQuote,
    /// No item has this name.
    UnknownName,
    /// The field is empty, and the item has this key.
    MissingKey,
    /// The field is not empty, and the item does not have this key.
    UnexpectedKey,
    /// This byte of the key is no hexadecimal digit.
    NoDigit(u8),
    /// The key has half a byte.
    OddDigits,
    /// The key has more than 255 bytes, which is refused with 2.
    KeyTooLong,
}

impl SheetFault {
    /// What is wrong, in words, without the place.
    #[must_use]
    pub fn why(&self) -> String {
        use SheetCause::*;
        let field = ["the name", "the start key", "the end key"]
            .get(self.column)
            .unwrap_or(&"a fourth field");
        match self.cause {
            ByteOrderMark => format!("a byte order mark stands before {field}"),
            BlankRow => "the row is blank".to_string(),
            TooFewFields => format!("the row ends before {field}: a row has three fields, separated by commas"),
            TooManyFields => format!("there is {field}: a row has three, separated by commas"),
            BareCarriageReturn => "a carriage return without a line feed behind it: a row ends in both".to_string(),
            BareLineFeed => "a line feed without a carriage return before it: a row ends in both".to_string(),
            UnclosedQuote => format!("the quote that {field} starts with is not closed"),
            TextAfterQuote => format!("there is text between the closing quote of {field} and the comma or the end of the row"),
            QuoteInside => format!("there is a quote in {field}, which does not start with one"),
            DoubledQuote => format!("there is a doubled quote in {field}: no name and no key has a quote"),
            UnknownName => "no item has this name: names are as Key or RangeInclusive, in exactly this case, and a sheet has no header".to_string(),
            MissingKey => format!("{field} is missing: this item has one, and the empty key is written as -"),
            UnexpectedKey => format!("{field} has to be empty: this item does not have one"),
            // what can be printed stands as it is
            NoDigit(byte @ b' '..=b'~') => format!("{field} has '{}', which is no hexadecimal digit", char::from(byte)),
            NoDigit(byte) => format!("{field} has '{}', which is no hexadecimal digit", byte.escape_ascii()),
            OddDigits => format!("{field} has an odd number of hexadecimal digits"),
            KeyTooLong => format!("{field} has more than 255 bytes"),
        }
    }
}

impl fmt::Display for SheetFault {
    fn fmt(&self, f: &mut fmt::Formatter<'_>) -> fmt::Result {
        let Self { row, column, .. } = self;
        let why = self.why();
        write!(f, "row {row}, column {column}, counted from 0: {why}")
    }
}

/// The first field of a sheet that is wrong, where a key has at most so many bytes.
fn first_fault(text: &[u8], most_key: usize) -> Option<SheetFault> {
    let (mut rest, mut row) = (text, 0);
    while !rest.is_empty() {
        match first_row(rest, most_key) {
            Ok(after) => rest = after,
            Err((column, cause)) => return Some(SheetFault { row, column, cause }),
        }
        row += 1;
    }
    None
}

/// The text after its first row; or the column that is wrong, and why. A row is taken apart before any field is asked what it says.
fn first_row(text: &[u8], most_key: usize) -> Result<&[u8], (usize, SheetCause)> {
    if text.starts_with(b"\xEF\xBB\xBF") {
        return Err((0, SheetCause::ByteOrderMark));
    }
    if text.starts_with(b"\r\n") {
        return Err((0, SheetCause::BlankRow));
    }
    let (mut fields, mut rest) = ([text; 3], text);
    for (column, field) in fields.iter_mut().enumerate() {
        let after;
        (*field, after) = first_field(rest).map_err(|cause| (column, cause))?;
        rest = match (after, column < 2) {
            ([b',', after @ ..], true) => after,
            ([b',', ..], false) => return Err((column + 1, SheetCause::TooManyFields)),
            ([] | [b'\r', b'\n', ..], true) => return Err((column + 1, SheetCause::TooFewFields)),
            ([], false) => after,
            ([b'\r', b'\n', after @ ..], false) => after,
            ([b'\r', ..], _) => return Err((column, SheetCause::BareCarriageReturn)),
            ([b'\n', ..], _) => return Err((column, SheetCause::BareLineFeed)),
            // behind a field without quotes stands no other byte than these four, and behind a quoted one no quote
            ([b'"', ..], _) => return Err((column, SheetCause::QuoteInside)),
            _ => return Err((column, SheetCause::TextAfterQuote)),
        };
    }
    let [name, start, end] = fields;
    let Some((_, [has_start, has_end])) = KINDS.iter().find(|kind| kind.0.as_bytes() == name)
    else {
        return Err((0, SheetCause::UnknownName));
    };
    check_key(*has_start, start, most_key).map_err(|cause| (1, cause))?;
    check_key(*has_end, end, most_key).map_err(|cause| (2, cause))?;
    Ok(rest)
}

/// What the first field of a text says, and the text after it.
fn first_field(text: &[u8]) -> Result<(&[u8], &[u8]), SheetCause> {
    let [b'"', quoted @ ..] = text else {
        let end = |byte: &u8| matches!(byte, b'"' | b',' | b'\r' | b'\n');
        return Ok(text.split_at(text.iter().position(end).unwrap_or(text.len())));
    };
    let Some(end) = quoted.iter().position(|byte| *byte == b'"') else {
        return Err(SheetCause::UnclosedQuote);
    };
    match &quoted[end + 1..] {
        [b'"', ..] => Err(SheetCause::DoubledQuote),
        after => Ok((&quoted[..end], after)),
    }
}

/// Whether a field is right for a key that the item has, or does not have.
fn check_key(has: bool, field: &[u8], most_key: usize) -> Result<(), SheetCause> {
    match (has, field) {
        (true, b"-") | (false, []) => return Ok(()),
        (true, []) => return Err(SheetCause::MissingKey),
        (false, _) => return Err(SheetCause::UnexpectedKey),
        (true, _) => {}
    }
    if let Some(byte) = field.iter().find(|byte| !byte.is_ascii_hexdigit()) {
        return Err(SheetCause::NoDigit(*byte));
    }
    if field.len() % 2 != 0 {
        return Err(SheetCause::OddDigits);
    }
    if field.len() / 2 > most_key {
        return Err(SheetCause::KeyTooLong);
    }
    Ok(())
}
