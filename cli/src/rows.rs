//! Where the rows and fields of comma-separated text stand. What a row of a sheet says, the library's reader tells; this finds lines for messages,
//! and the fourth fields of a rate card, which that reader does not know.

use fernsponge::{SheetCause, SheetFault};
use std::ops::Range;

/// The bytes that some programs put in front of a text.
const BYTE_ORDER_MARK: &[u8] = b"\xEF\xBB\xBF";

/// The fields of a row, as places in the text, with their quotes.
pub type Row = Vec<Range<usize>>;

/// The rows of a text before the first that does not come apart, and what is wrong with that one.
pub fn split(text: &[u8]) -> (Vec<Row>, Option<SheetFault>) {
    let mut rows = vec![];
    let mut at = 0;
    if text.starts_with(BYTE_ORDER_MARK) {
        let (row, column, cause) = (0, 0, SheetCause::ByteOrderMark);
        return (rows, Some(SheetFault { row, column, cause }));
    }
    while at < text.len() {
        match first_row(text, at) {
            Ok((row, after)) => {
                rows.push(row);
                at = after;
            }
            Err((column, cause)) => {
                let row = rows.len() as u64;
                return (rows, Some(SheetFault { row, column, cause }));
            }
        }
    }
    (rows, None)
}

/// The row that begins at a place, and where the next one does.
fn first_row(text: &[u8], mut at: usize) -> Result<(Row, usize), (usize, SheetCause)> {
    let mut row = vec![];
    loop {
        let end = field_end(text, at).map_err(|cause| (row.len(), cause))?;
        row.push(at..end);
        match text.get(end) {
            Some(b',') => at = end + 1,
            Some(_) => return Ok((row, end + 2)),
            None => return Ok((row, end)),
        }
    }
}

/// Where the field that begins at a place ends: before a comma, CR LF or the text's end.
fn field_end(text: &[u8], at: usize) -> Result<usize, SheetCause> {
    let quoted = text.get(at) == Some(&b'"');
    let end = match quoted {
        true => past_quotes(text, at + 1).ok_or(SheetCause::UnclosedQuote)?,
        false => {
            let stops = |byte: &u8| matches!(byte, b'"' | b',' | b'\r' | b'\n');
            let length = text[at..].iter().position(stops);
            length.map_or(text.len(), |length| at + length)
        }
    };
    match &text[end..] {
        [] | [b',', ..] | [b'\r', b'\n', ..] => Ok(end),
        [b'\r', ..] => Err(SheetCause::BareCarriageReturn),
        [b'\n', ..] => Err(SheetCause::BareLineFeed),
        _ if quoted => Err(SheetCause::TextAfterQuote),
        _ => Err(SheetCause::QuoteInside),
    }
}

/// The place behind the closing quote, from one behind the opening quote; two quotes stand for one inside.
fn past_quotes(text: &[u8], mut at: usize) -> Option<usize> {
    loop {
        at += text[at..].iter().position(|byte| *byte == b'"')? + 1;
        match text.get(at) {
            Some(b'"') => at += 1,
            _ => return Some(at),
        }
    }
}

/// The line, from 1, on which a field begins; rows and columns count from 0. A row that ends before the field is told by its end.
pub fn line_of(text: &[u8], row: u64, column: usize) -> u64 {
    let feeds = text[..place_of(text, row, column)]
        .iter()
        .filter(|byte| **byte == b'\n')
        .count();
    feeds as u64 + 1
}

/// Where a field begins, or its row ends. What stands before it comes apart.
fn place_of(text: &[u8], row: u64, column: usize) -> usize {
    let (mut at, mut now) = (0, (0, 0));
    while now < (row, column) {
        let Ok(end) = field_end(text, at) else { break };
        match text.get(end) {
            Some(b',') => (at, now) = (end + 1, (now.0, now.1 + 1)),
            Some(_) if now.0 < row => (at, now) = (end + 2, (now.0 + 1, 0)),
            _ => return end,
        }
    }
    at
}

/// How many rows a text has whose rows have no line end inside.
pub fn count(text: &[u8]) -> usize {
    let ended = text.iter().filter(|byte| **byte == b'\n').count();
    let last = !text.is_empty() && !text.ends_with(b"\n");
    ended + usize::from(last)
}
