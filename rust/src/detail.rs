//! What a refused call was given, as far as its refusal's detailed text can name it.
//!
//! The library alone decides whether a call is refused, and with which number, side and index. What is found here is looked up in the input
//! afterwards, and only names what stands there; where nothing that is looked for is found, the refusal has a general text of its number.

use crate::{
    item::{Item, KeyAt, KINDS},
    limits::{MOST_INVOICE_KEYS, MOST_ITEMS, MOST_KEY_BYTES, MOST_POOL_BYTES, POSITION_KEY_BYTES},
    positions::Span,
    refusal::{Refusal, Side},
};
use std::fmt;

/// What the input has that is refused.
#[derive(Clone, Copy, Debug)]
pub(crate) enum Detail {
    /// A pool, by its name, of so many bytes.
    PoolSize(&'static str, usize),
    /// A pool of so many bytes, and a key of so many that does not go in.
    PoolFull(usize, usize),
    /// A list of so many items.
    ListSize(usize),
    /// A list that is said to have more items than were lent.
    Count { said: usize, lent: usize },
    /// A stored list that is said to have more pairs than its words.
    Pairs { said: usize, lent: usize },
    /// A card whose items and amounts differ in number.
    Amounts { items: usize, amounts: usize },
    /// An item, two boundaries or a key, by its name.
    Thing(Name, Fault),
    /// An invoice of so many keys.
    InvoiceKeys(usize),
    /// A row of a sheet that has a key which is too long.
    RowKey,
    /// A proved position, and the one before it.
    Proved(u64, u64),
    /// A span, which ends below its start.
    SpanTurned(Span),
    /// A span's start, and the end of the one before it.
    SpanBack(u64, u64),
    /// An interval, which has no position.
    IntervalEmpty(u64, u64),
    /// An interval's start, and the end of the one before it.
    IntervalBack(u64, u64),
    /// A stored total, and what the intervals cover.
    Total { stored: u64, covered: u64 },
    /// Room for three lists, and how much is always enough.
    RoomOfLists([usize; 3], usize),
    /// A list of so many items into which one more does not go, and the room that was lent.
    RoomOfList { count: usize, lent: usize },
    /// Room for collected keys.
    RoomOfKeys(usize),
    /// Room for a plan's windows.
    RoomOfWindows(usize),
    /// A sheet of so many rows.
    Rows(usize),
    /// The bytes that a pool had before a sheet's keys.
    RoomOfSheet(usize),
    /// What the system has no memory for.
    Memory(&'static str),
}

/// What a refused item, range or key is called.
#[derive(Clone, Copy, Debug)]
pub(crate) enum Name {
    /// An item of a list, or one of two items: by side and index.
    Listed,
    /// The only item that was given.
    Item,
    /// The item to insert.
    NewItem,
    /// The two boundaries that were given.
    Range,
    /// A key of an invoice, by its index.
    InvoiceKey,
    /// A key that goes into a pool.
    NewKey,
    /// A key that is asked about.
    AskedKey,
}

/// Where the refused key of a thing stands.
#[derive(Clone, Copy, Debug)]
pub(crate) enum Part {
    Start,
    End,
    /// The thing is an item that has one key and nothing else.
    Only,
    /// The thing is a key.
    Itself,
}

/// What is wrong with an item, two boundaries or a key.
#[derive(Clone, Copy, Debug)]
pub(crate) enum Fault {
    Code(u32),
    Wrapper(u32),
    /// A key that items of this name do not have.
    Absent(&'static str, Part, KeyAt),
    /// A key of an unbounded boundary.
    Unbounded(Part, KeyAt),
    TooLong(Part, usize),
    /// A key that ends past a pool of so many bytes.
    Past(Part, KeyAt, usize),
    NotUpright,
    OutOfOrder(Use),
    Wrapped(u32, Use),
    NoPosition(Part, usize),
}

/// What a list is given for: which order it has to have, and why its items must be plain.
#[derive(Clone, Copy, Debug, PartialEq)]
pub(crate) enum Use {
    Algebra,
    Insertion,
    Positions,
    Sheet,
}

// ---- looking

/// A pool that is too long, by its name.
pub(crate) fn pool_size(refusal: Refusal, name: &'static str, pool: &[u8]) -> Option<Detail> {
    (refusal.number == 1 && pool.len() > MOST_POOL_BYTES)
        .then_some(Detail::PoolSize(name, pool.len()))
}

/// What is wrong with a pool and the one item over it.
pub(crate) fn item(refusal: Refusal, pool: &[u8], item: Item) -> Option<Detail> {
    pool_size(refusal, "the pool", pool)
        .or_else(|| thing(refusal, pool, item, Name::Item, Use::Algebra))
}

/// What is wrong with a pool and a list over it.
pub(crate) fn list(refusal: Refusal, pool: &[u8], items: &[Item], used: Use) -> Option<Detail> {
    pool_size(refusal, "the pool", pool).or_else(|| items_of(refusal, pool, items, used))
}

/// What is wrong with a pool and two lists over it.
pub(crate) fn lists(
    refusal: Refusal,
    pool: &[u8],
    ours: &[Item],
    theirs: &[Item],
) -> Option<Detail> {
    let items = match refusal.side {
        Side::Ours => ours,
        Side::Theirs => theirs,
    };
    list(refusal, pool, items, Use::Algebra)
}

/// What is wrong with a list: its length, or else the item at the refusal's index.
fn items_of(refusal: Refusal, pool: &[u8], items: &[Item], used: Use) -> Option<Detail> {
    if refusal.number == 1 && items.len() > MOST_ITEMS {
        return Some(Detail::ListSize(items.len()));
    }
    let item = *items.get(at(refusal)?)?;
    thing(refusal, pool, item, Name::Listed, used)
}

/// What is wrong with an insertion into the first so many of the lent items.
pub(crate) fn insertion(
    refusal: Refusal,
    pool: &[u8],
    lent: &[Item],
    count: usize,
    item: Item,
) -> Option<Detail> {
    if let Some(found) = pool_size(refusal, "the pool", pool) {
        return Some(found);
    }
    if refusal.side == Side::Theirs {
        return thing(refusal, pool, item, Name::NewItem, Use::Insertion);
    }
    let room = lent.len();
    match refusal.number {
        1 if count > room => Some(Detail::Count {
            said: count,
            lent: room,
        }),
        6 => Some(Detail::RoomOfList { count, lent: room }),
        _ => items_of(refusal, pool, lent.get(..count)?, Use::Insertion),
    }
}

/// What is wrong with an item, by the refusal's number.
fn thing(refusal: Refusal, pool: &[u8], item: Item, name: Name, used: Use) -> Option<Detail> {
    let [code, wrapper, offset, length, end_offset, end_length] = item.words();
    let start = KeyAt { offset, length };
    let end = KeyAt {
        offset: end_offset,
        length: end_length,
    };
    // code 0 is that of a key
    let first = if code == 0 { Part::Only } else { Part::Start };
    let keys = [(first, start), (Part::End, end)];
    let fault = match (refusal.number, KINDS.get(code as usize)) {
        (1, None) => Fault::Code(code),
        (1, _) if wrapper > 3 => Fault::Wrapper(wrapper),
        (1, Some((kind, [false, _]))) if start != KeyAt::default() => {
            Fault::Absent(kind, Part::Start, start)
        }
        (1, Some((kind, [_, false]))) if end != KeyAt::default() => {
            Fault::Absent(kind, Part::End, end)
        }
        (2, _) => key_outside(pool, keys)?,
        (3, _) => Fault::NotUpright,
        (4, _) => Fault::OutOfOrder(used),
        (5, _) => Fault::Wrapped(wrapper, used),
        (7, Some((_, [true, _]))) if start.length as usize != POSITION_KEY_BYTES => {
            Fault::NoPosition(first, start.length as usize)
        }
        (7, Some((_, [_, true]))) if end.length as usize != POSITION_KEY_BYTES => {
            Fault::NoPosition(Part::End, end.length as usize)
        }
        _ => return None,
    };
    Some(Detail::Thing(name, fault))
}

/// The first of some keys that is too long or reaches past the pool.
fn key_outside<const N: usize>(pool: &[u8], keys: [(Part, KeyAt); N]) -> Option<Fault> {
    keys.into_iter().find_map(|(part, key)| {
        let (offset, length) = (u64::from(key.offset), u64::from(key.length));
        if key.length as usize > MOST_KEY_BYTES {
            Some(Fault::TooLong(part, key.length as usize))
        } else if offset + length > pool.len() as u64 {
            Some(Fault::Past(part, key, pool.len()))
        } else {
            None
        }
    })
}

/// What is wrong with two boundaries, each of them whether it is unbounded and its key. They are looked at before the pool is.
pub(crate) fn range(refusal: Refusal, pool: &[u8], ends: [(bool, KeyAt); 2]) -> Option<Detail> {
    let [start, end] = ends.map(|(_, key)| key);
    let keyed = ends.map(|(unbounded, key)| unbounded && key != KeyAt::default());
    let fault = match (refusal.number, keyed) {
        (1, [true, _]) => Fault::Unbounded(Part::Start, start),
        (1, [_, true]) => Fault::Unbounded(Part::End, end),
        (2, _) => key_outside(pool, [(Part::Start, start), (Part::End, end)])?,
        _ => return pool_size(refusal, "the pool", pool),
    };
    Some(Detail::Thing(Name::Range, fault))
}

/// What is wrong with a card.
pub(crate) fn card(
    refusal: Refusal,
    pool: &[u8],
    items: &[Item],
    amounts: usize,
) -> Option<Detail> {
    let shape = refusal.number == 1 && items.len() <= MOST_ITEMS && items.len() != amounts;
    pool_size(refusal, "the pool", pool)
        .or_else(|| {
            shape.then_some(Detail::Amounts {
                items: items.len(),
                amounts,
            })
        })
        .or_else(|| items_of(refusal, pool, items, Use::Algebra))
}

/// What is wrong with the keys of an invoice.
pub(crate) fn invoice_keys(refusal: Refusal, pool: &[u8], keys: &[KeyAt]) -> Option<Detail> {
    match refusal.number {
        15 if keys.len() > MOST_INVOICE_KEYS => Some(Detail::InvoiceKeys(keys.len())),
        2 => {
            let key = *keys.get(at(refusal)?)?;
            let fault = key_outside(pool, [(Part::Itself, key)])?;
            Some(Detail::Thing(Name::InvoiceKey, fault))
        }
        _ => None,
    }
}

/// What is wrong with proved positions.
pub(crate) fn proved(refusal: Refusal, proved: &[u64]) -> Option<Detail> {
    let index = at(refusal)?;
    let (this, before) = (*proved.get(index)?, *proved.get(index.checked_sub(1)?)?);
    (refusal.number == 8 && this <= before).then_some(Detail::Proved(this, before))
}

/// What is wrong with spans.
pub(crate) fn spans(refusal: Refusal, spans: &[Span]) -> Option<Detail> {
    let index = at(refusal)?;
    let this = *spans.get(index)?;
    if refusal.number != 8 {
        return None;
    }
    if this.end < this.start {
        return Some(Detail::SpanTurned(this));
    }
    let before = spans.get(index.checked_sub(1)?)?.end;
    (this.start < before).then_some(Detail::SpanBack(this.start, before))
}

/// What is wrong with intervals, given as words.
pub(crate) fn intervals(refusal: Refusal, words: &[u64]) -> Option<Detail> {
    let first = at(refusal)?.checked_mul(2)?;
    let (start, end) = (*words.get(first)?, *words.get(first + 1)?);
    if refusal.number != 9 {
        return None;
    }
    if start >= end {
        return Some(Detail::IntervalEmpty(start, end));
    }
    let before = *words.get(first.checked_sub(1)?)?;
    (start <= before).then_some(Detail::IntervalBack(start, before))
}

/// What is wrong with a stored list.
pub(crate) fn stored(refusal: Refusal, words: &[u64], pairs: usize, total: u64) -> Option<Detail> {
    let lent = words.len() / 2;
    match refusal.number {
        1 if pairs > lent => Some(Detail::Pairs { said: pairs, lent }),
        // the intervals are as they should be where their number is the index
        9 if at(refusal)? == pairs => {
            let covered = words[..2 * pairs].chunks_exact(2);
            let covered = covered.map(|pair| pair[1].wrapping_sub(pair[0]));
            Some(Detail::Total {
                stored: total,
                covered: covered.fold(0, u64::wrapping_add),
            })
        }
        _ => intervals(refusal, words),
    }
}

/// The refusal's index, as that of a slice.
fn at(refusal: Refusal) -> Option<usize> {
    usize::try_from(refusal.index).ok()
}

// ---- writing

/// A number with a comma before each three digits: 65,536.
struct Grouped(usize);

impl fmt::Display for Grouped {
    fn fmt(&self, f: &mut fmt::Formatter<'_>) -> fmt::Result {
        let digits = self.0.to_string();
        for (index, digit) in digits.chars().enumerate() {
            if index > 0 && (digits.len() - index) % 3 == 0 {
                f.write_str(",")?;
            }
            write!(f, "{digit}")?;
        }
        Ok(())
    }
}

/// So many of a thing: `1 item`, `2 items`.
fn some(count: usize, one: &str) -> String {
    let more = if count == 1 { "" } else { "s" };
    format!("{} {one}{more}", Grouped(count))
}

impl Part {
    fn key(self) -> &'static str {
        match self {
            Part::Start => "its start key",
            Part::End => "its end key",
            Part::Only => "its key",
            Part::Itself => "it",
        }
    }

    fn name(self) -> &'static str {
        match self {
            Part::Start => "start",
            Part::End => "end",
            Part::Only | Part::Itself => "key",
        }
    }
}

impl fmt::Display for Fault {
    fn fmt(&self, f: &mut fmt::Formatter<'_>) -> fmt::Result {
        match *self {
            Fault::Code(code) => write!(f, "its code is {code}, and codes are 0 to 9"),
            Fault::Wrapper(wrapper) => write!(f, "its wrapper is {wrapper}, and wrappers are 0 to 3"),
            Fault::Absent(kind, part, KeyAt { offset, length }) => write!(
                f,
                "a {kind} has no {} key, so that offset and length of one are 0, and here they are {offset} and {length}",
                part.name()
            ),
            Fault::Unbounded(part, KeyAt { offset, length }) => write!(
                f,
                "its {} is unbounded, so that offset and length of a key there are 0, and here they are {offset} and {length}",
                part.name()
            ),
            Fault::TooLong(part, bytes) => {
                write!(f, "{} has {}, and a key has at most {MOST_KEY_BYTES}", part.key(), some(bytes, "byte"))
            }
            Fault::Past(part, KeyAt { offset, length }, pool) => write!(
                f,
                "{} is {} from offset {offset} on, and the pool has {}",
                part.key(),
                some(length as usize, "byte"),
                some(pool, "byte")
            ),
            Fault::NotUpright => f.write_str("its start is above its end, or they are equal and one of them is left out"),
            Fault::OutOfOrder(Use::Insertion) => {
                f.write_str("it sorts below an item before it, is equal to one, or is plain and meets a plain one")
            }
            Fault::OutOfOrder(_) => f.write_str("it does not start above the end of the item before it"),
            Fault::Wrapped(wrapper, used) => {
                let wrapper = ["plain", "count", "sum", "count and sum"].get(wrapper as usize).unwrap_or(&"unknown");
                let what = if used == Use::Sheet { "have a row in a sheet" } else { "ask for positions" };
                write!(f, "its wrapper is {wrapper}, and only plain items {what}")
            }
            Fault::NoPosition(part, bytes) => {
                write!(f, "{} has {}, and a position key has {POSITION_KEY_BYTES}", part.key(), some(bytes, "byte"))
            }
        }
    }
}

impl Detail {
    /// The detailed text of a refusal that has this, without the number at its end.
    pub(crate) fn write(self, refusal: Refusal, f: &mut fmt::Formatter<'_>) -> fmt::Result {
        let (whose, index) = (refusal.whose(), refusal.index);
        match self {
            Detail::PoolSize(name, bytes) => write!(
                f,
                "{name} has {}, and a pool has at most {}",
                some(bytes, "byte"),
                Grouped(MOST_POOL_BYTES)
            ),
            Detail::PoolFull(bytes, more) => write!(
                f,
                "the pool has {}, the new key {more}, and a pool has at most {}",
                some(bytes, "byte"),
                Grouped(MOST_POOL_BYTES)
            ),
            Detail::ListSize(count) => {
                write!(f, "{whose} list has {}, and a list has at most {}", some(count, "item"), Grouped(MOST_ITEMS))
            }
            Detail::Count { said, lent } => {
                write!(f, "the list is said to have {}, and {} were lent", some(said, "item"), Grouped(lent))
            }
            Detail::Pairs { said, lent } => {
                write!(f, "the stored list is said to have {}, and there are words for {}", some(said, "pair"), Grouped(lent))
            }
            Detail::Amounts { items, amounts } => write!(
                f,
                "the card has {} and {}, and has to have one for each item",
                some(items, "item"),
                some(amounts, "amount")
            ),
            Detail::Thing(name, fault) => {
                match name {
                    Name::Listed => write!(f, "{whose} item {index}")?,
                    Name::Item => f.write_str("the item")?,
                    Name::NewItem => f.write_str("the new item")?,
                    Name::Range => f.write_str("the range")?,
                    Name::InvoiceKey => write!(f, "key {index} of the invoice")?,
                    Name::NewKey => f.write_str("the new key")?,
                    Name::AskedKey => f.write_str("the asked key")?,
                }
                write!(f, ": {fault}")
            }
            Detail::InvoiceKeys(count) => write!(
                f,
                "the invoice has {}, and an invoice has at most {}",
                some(count, "key"),
                Grouped(MOST_INVOICE_KEYS)
            ),
            Detail::RowKey => {
                write!(f, "row {index} of the sheet: a key of it has more than {MOST_KEY_BYTES} bytes")
            }
            Detail::Proved(this, before) => {
                write!(f, "proved position {index}: it is {this}, and the one before it is {before}: they ascend strictly")
            }
            Detail::SpanTurned(Span { start, end }) => {
                write!(f, "span {index}: it starts at {start} and ends at {end}: a span does not end below its start")
            }
            Detail::SpanBack(start, before) => write!(
                f,
                "span {index}: it starts at {start}, and the one before it ends at {before}: a span does not start below that"
            ),
            Detail::IntervalEmpty(start, end) => {
                write!(f, "interval {index}: it starts at {start} and ends at {end}: an interval has a position at least")
            }
            Detail::IntervalBack(start, before) => write!(
                f,
                "interval {index}: it starts at {start}, and the one before it ends at {before}: an interval starts above that"
            ),
            Detail::Total { stored, covered } => {
                write!(f, "the stored total is {stored}, and the intervals cover {covered}")
            }
            Detail::RoomOfLists([shared, ours, theirs], enough) => write!(
                f,
                "the three lists need more room than was lent: {} for shared, {} for ours and {} for theirs; {} are always enough for each",
                some(shared, "item"),
                Grouped(ours),
                Grouped(theirs),
                Grouped(enough)
            ),
            Detail::RoomOfList { count, .. } if count >= MOST_ITEMS => write!(
                f,
                "the list would have {}, and a list has at most {}",
                some(count.saturating_add(1), "item"),
                Grouped(MOST_ITEMS)
            ),
            Detail::RoomOfList { count, lent } => write!(
                f,
                "the list would have {}, and {} were lent",
                some(count.saturating_add(1), "item"),
                Grouped(lent)
            ),
            Detail::RoomOfKeys(bytes) => {
                write!(f, "the keys need more room than the fresh pool has, which is {}", some(bytes, "byte"))
            }
            Detail::RoomOfWindows(room) => {
                write!(f, "the plan has more windows than the {} that there is room for", Grouped(room))
            }
            Detail::Rows(rows) => {
                write!(f, "the sheet has {}, and a list has at most {}", some(rows, "row"), Grouped(MOST_ITEMS))
            }
            Detail::RoomOfSheet(bytes) => write!(
                f,
                "the pool has {} before the keys of the sheet, and would have more than {} with them",
                some(bytes, "byte"),
                Grouped(MOST_POOL_BYTES)
            ),
            Detail::Memory(what) => write!(f, "the system has no memory for {what}"),
        }
    }
}
