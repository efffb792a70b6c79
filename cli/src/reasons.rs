//! What each number of a refusal means, in words.

use fernsponge::Side;

/// Why the keys of a sheet find no room while it is read by itself.
pub const KEYS_OF_A_SHEET: &str =
    "its keys, equal ones counted each time, have more than 65,536 bytes, the most that a pool has";

/// Why the keys of a file find no room beside those of another file.
pub const KEYS_OF_TWO_FILES: &str =
    "its keys and those of the file before it have more than 65,536 bytes together, equal ones counted once: the most that a pool has";

/// Why the keys of a KRL file find no room where they stand apart.
pub const KEYS_THAT_OVERLAP: &str =
    "its keys overlap in its pool, and have more than 65,536 bytes where they stand apart: the most that a pool has";

/// Why an item, row, position or range is refused, as said behind its place.
pub fn why(number: u8) -> &'static str {
    match number {
        1 => "malformed: there is no such code or wrapper, or a key that this kind of item does not have is not 0",
        2 => "a key of it has more than 255 bytes, or reaches past the pool",
        3 => "its start is above its end, or they are equal and one of them is left out",
        4 => "it does not start above the end of the one before it: a list ascends, and no key is in two of its items",
        5 => "it is wrapped, as it asks for a count or a sum too, and a sheet has no word for that",
        8 => "it is not above the one before it: proved rows ascend, each named once",
        9 => "a range has at least one row, and starts above the end of the one before it: they ascend, and neither overlap nor touch",
        _ => "refused",
    }
}

/// A refusal as a sentence, or none where no refusal has this number.
pub fn sentence(number: u8, whose: Side, index: u64) -> Option<String> {
    let (what, why) = told(number, index)?;
    let at = u128::from(index) + 1;
    // a key is told of what has no side, too
    let besides = match (number, whose) {
        (2, Side::Ours) => format!(", or row {at} of a sheet"),
        (2, Side::Theirs) => format!(", or key {at} of an invoice"),
        _ => String::new(),
    };
    let place = match what {
        Some(what) => format!("{what} {at} of {}{besides} (index {index}): ", side(whose)),
        None => String::new(),
    };
    Some(format!("Refusal {number}: {place}{why}."))
}

/// The name of a side.
pub fn side(side: Side) -> &'static str {
    match side {
        Side::Ours => "ours",
        Side::Theirs => "theirs",
    }
}

/// What the index of a refusal counts, if it counts something, and what is wrong.
fn told(number: u8, index: u64) -> Option<(Option<&'static str>, &'static str)> {
    Some(match number {
        1 if index == 0 => (Some("item"), WHOLE),
        1 => (
            Some("item"),
            "it is malformed: its code or wrapper is none that there is, or the words of a key that it does not have are not 0",
        ),
        2 => (
            Some("item"),
            "a key has more than 255 bytes, or reaches past the end of the pool",
        ),
        3 => (Some("item"), "its start is above its end, or they are equal and one of them is left out"),
        4 => (
            Some("item"),
            "it does not stand in order behind the items before it: in a list that is compared, each item starts above the end of the one before \
             it, and in a list that is inserted into, items ascend by start and then by end, and no two are equal",
        ),
        5 => (
            Some("item"),
            "it is wrapped, as it asks for a count or a sum too: such an item can ask for no positions, and has no row in a sheet",
        ),
        6 => (
            None,
            "the result needs more room than was lent for it, or a list that is read or grows would have more than 2,048 items",
        ),
        7 => (Some("item"), "it names no position by its key, as the key of a position has exactly 8 bytes"),
        8 => (
            Some("position or span"),
            "positions ascend, and none is named twice; a span does not end before its start, nor start before the end of the span before it",
        ),
        9 => (
            Some("interval"),
            "each interval has at least one row and starts above the end of the one before it; where there is no interval of this number, \
             the total that is stored beside them is not the number of their rows",
        ),
        10 => (
            None,
            "this is no KRL file: it has more than 65,536 bytes, or does not begin with the mark KRL, or its version is not 1, or it has more or \
             fewer bytes than its header says",
        ),
        12 => (
            Some("row"),
            "it says no item: a row of a sheet is an item's name, its start key and its end key, separated by commas, and CR LF ends it",
        ),
        14 => (Some("amount"), "it is below -100,000,000 or above 100,000,000 currency units"),
        15 => (None, "an invoice has more than 1,000 keys; ask in parts, whose sums add up"),
        16 => (None, "windows of at most 0 rows can fetch nothing"),
        _ => return None,
    })
}

/// What 1 can mean where the index is 0.
const WHOLE: &str = "it is malformed: its code or wrapper is none that there is, or the words of a key that it does not have are not 0; or the \
                     input as a whole is: a list has more than 2,048 items or words that make no whole item, the pool has more than 65,536 bytes, a \
                     count is beyond its buffer, the words of intervals, windows or keys are odd in number, a report has more than 16 examples, or a \
                     card has not one amount for each item";
