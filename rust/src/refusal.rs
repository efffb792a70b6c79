//! Why a call does not answer.

use crate::detail::Detail;
use std::{
    fmt,
    hash::{Hash, Hasher},
};

/// Whose input is meant: ours or theirs. Position items, intervals, sheets, and a card's items and amounts are ours; proved positions, spans,
/// windows of a plan, an item to insert and the keys of an invoice are theirs.
#[derive(Clone, Copy, Debug, PartialEq, Eq, Hash)]
pub enum Side {
    /// The first of two lists, or the only input.
    Ours,
    /// The second.
    Theirs,
}

/// What is wrong, by the number that stands for it.
#[derive(Clone, Copy, Debug, PartialEq, Eq, Hash)]
#[non_exhaustive]
pub enum Reason {
    /// 1: an unknown code or wrapper, words of an absent key that are not 0, a list of more than 2,048 items, a pool of more than 65,536
    /// bytes, a count beyond its buffer, an odd number of interval, window or key words, a card that has not one amount for each item.
    Malformed,
    /// 2: a key longer than 255 bytes, or reaching past the pool: of an item, of a row of a sheet, or of an invoice.
    KeyOutside,
    /// 3: an item whose start is above its end, or equal to it where one of them is left out, as in a range from 03 to below 03.
    NotUpright,
    /// 4: an item that does not stand wholly after the one before it, or is out of insertion order.
    OutOfOrder,
    /// 5: a wrapped item in a position query, or in a list that is to be written as a sheet.
    Wrapped,
    /// 6: the result needs more room than was lent, or a sheet has more than 2,048 rows.
    NoRoom,
    /// 7: a position key that is not 8 bytes.
    NoPosition,
    /// 8: proved positions that do not ascend strictly, or spans that are turned round or cross.
    NotAscending,
    /// 9: intervals that are not ascending, nonempty and apart, or a stored total that is not the number of the positions in them.
    NotCanonical,
    /// 12: a row of a sheet that says no item. [`SheetError`](crate::SheetError) tells where and why.
    BadRow,
    /// 14: an amount of a card below -10^12 or above 10^12 ten-thousandths.
    AmountOutside,
    /// 15: an invoice of more than 1,000 keys.
    TooManyKeys,
    /// 16: windows of at most 0 rows, which can fetch nothing.
    EmptyWindows,
    /// A number that this version does not know.
    Unknown,
}

/// A refused call: what is wrong, and where. Nothing that was lent has changed.
///
/// ```
/// use fernsponge::{intersect_many_ordered, Item, Pool, Reason, Side};
///
/// let mut pool = Pool::new();
/// let (low, high) = (pool.add(&[1])?, pool.add(&[5])?);
/// let refusal = intersect_many_ordered(pool.bytes(), &[Item::range(high, low)], &[]).unwrap_err();
/// assert_eq!((refusal.reason(), refusal.side, refusal.index), (Reason::NotUpright, Side::Ours, 0));
/// assert_eq!(refusal.to_string(), "our item 0: its start stands above its end (refusal 3)");
/// # Ok::<(), fernsponge::Refusal>(())
/// ```
///
/// `{}` writes the general text of the number. `{:#}` writes the detailed one: of a refusal by a typed call it names what that call was given, which
/// pool, list, item or key it is, which limit it passes, and by how much; where nothing of that is known, it is a general text too. The library decides
/// what is refused, and with which number, side and index; only the words come from a look at the input afterwards. Two refusals are equal where
/// number, side and index are, whatever their texts name.
///
/// ```
/// use fernsponge::{check_list, Refusal, Side};
///
/// let refusal = check_list(&[7; 70_000], &[], Side::Theirs).unwrap_err();
/// assert_eq!(format!("{refusal:#}"), "the pool has 70,000 bytes, and a pool has at most 65,536 (refusal 1)");
/// assert_eq!(refusal, Refusal::new(1, Side::Ours, 0));
/// ```
#[derive(Clone, Copy, Debug)]
#[non_exhaustive]
pub struct Refusal {
    /// The number of the refusal: 1 to 9, 12, or 14 to 16.
    pub number: u8,
    /// Whose input is meant.
    pub side: Side,
    /// The index of the item, row, amount, key, pair or position that is meant, from 0; a wrong stored total has the number of pairs; a pool,
    /// the shape of a list, a card or an invoice, want of room, too many keys and windows of no rows have 0.
    pub index: u64,
    /// What its detailed text names of the input, where a call has looked.
    pub(crate) detail: Option<Detail>,
}

impl Refusal {
    /// A refusal of which nothing more is known: both its texts are general ones of its number.
    #[must_use]
    pub const fn new(number: u8, side: Side, index: u64) -> Self {
        Self {
            number,
            side,
            index,
            detail: None,
        }
    }

    /// The refusal that a call of [`words`](crate::words) returned, or none where it returned 0. Nothing more is known of it, as of one by
    /// [`new`](Self::new).
    ///
    /// # Errors
    ///
    /// The refusal.
    pub fn from_number(returned: u64) -> Result<(), Refusal> {
        let side = match returned >> 8 & 0xff {
            0 => Side::Ours,
            _ => Side::Theirs,
        };
        match returned {
            0 => Ok(()),
            _ => Err(Self::new(returned as u8, side, returned >> 16)),
        }
    }

    /// The same, with what is found in the input by a look that a call takes where it is refused.
    pub(crate) fn looked(
        returned: u64,
        look: impl FnOnce(Self) -> Option<Detail>,
    ) -> Result<(), Self> {
        Self::from_number(returned).map_err(|refusal| refusal.with(look(refusal)))
    }

    /// The same refusal, whose detailed text names this.
    pub(crate) const fn with(mut self, detail: Option<Detail>) -> Self {
        self.detail = detail;
        self
    }

    /// How its texts call the side.
    pub(crate) const fn whose(&self) -> &'static str {
        match self.side {
            Side::Ours => "our",
            Side::Theirs => "their",
        }
    }

    /// Whether a typed call is refused, with 6, only because the system grants no memory: the same call may answer another time.
    #[must_use]
    pub const fn lacks_memory(&self) -> bool {
        matches!(self.detail, Some(Detail::Memory(_)))
    }

    /// What is wrong.
    #[must_use]
    pub fn reason(&self) -> Reason {
        match self.number {
            1 => Reason::Malformed,
            2 => Reason::KeyOutside,
            3 => Reason::NotUpright,
            4 => Reason::OutOfOrder,
            5 => Reason::Wrapped,
            6 => Reason::NoRoom,
            7 => Reason::NoPosition,
            8 => Reason::NotAscending,
            9 => Reason::NotCanonical,
            12 => Reason::BadRow,
            14 => Reason::AmountOutside,
            15 => Reason::TooManyKeys,
            16 => Reason::EmptyWindows,
            _ => Reason::Unknown,
        }
    }
}

// what the detailed text names is left out, so that the same refusal of a typed call and of one on words is equal

impl PartialEq for Refusal {
    fn eq(&self, other: &Self) -> bool {
        (self.number, self.side, self.index) == (other.number, other.side, other.index)
    }
}

impl Eq for Refusal {}

impl Hash for Refusal {
    fn hash<H: Hasher>(&self, state: &mut H) {
        (self.number, self.side, self.index).hash(state);
    }
}

impl fmt::Display for Refusal {
    fn fmt(&self, f: &mut fmt::Formatter<'_>) -> fmt::Result {
        match self.detail {
            Some(detail) if f.alternate() => {
                detail.write(*self, f)?;
                return write!(f, " (refusal {})", self.number);
            }
            _ => {}
        }
        let whose = self.whose();
        let (what, why) = match self.reason() {
            Reason::Malformed => (
                "item",
                "malformed: an unknown code or wrapper, a word of an absent key that is not 0, a list, pool or count beyond its limit, an odd \
                 number of words, or not one amount for each item of a card",
            ),
            // theirs is an item of a list, or a key of an invoice
            Reason::KeyOutside if self.side == Side::Theirs => (
                "item or invoice key",
                "a key is longer than 255 bytes or reaches past the pool",
            ),
            Reason::KeyOutside => ("item", "a key of it is longer than 255 bytes or reaches past the pool"),
            Reason::NotUpright if f.alternate() => ("item", "its start is above its end, or they are equal and one of them is left out"),
            Reason::NotUpright => ("item", "its start stands above its end"),
            Reason::OutOfOrder => ("item", "it does not stand in order after the items before it"),
            Reason::Wrapped => ("item", "a wrapped item cannot ask for positions, and has no row in a sheet"),
            Reason::NoRoom => return write!(f, "the result needs more room than was lent (refusal 6)"),
            Reason::NoPosition => ("item", "a position key has exactly 8 bytes"),
            Reason::NotAscending => (
                "position or span",
                "positions ascend strictly, and a span neither ends before its start nor starts before the end of the one before it",
            ),
            // a stored total has the number of the intervals as index
            Reason::NotCanonical => (
                "interval",
                "intervals are not empty, ascend, and stand apart from each other; where the index is their number, the stored total is not theirs",
            ),
            Reason::BadRow => {
                return write!(
                    f,
                    "row {} of the sheet is bad: a row is an item's name, its start key and its end key, and ends in CR LF (refusal 12)",
                    self.index
                )
            }
            Reason::AmountOutside => ("amount", "it is not from -100,000,000 to 100,000,000 currency units"),
            Reason::TooManyKeys => return write!(f, "an invoice has at most 1,000 keys (refusal 15)"),
            Reason::EmptyWindows => return write!(f, "windows of at most 0 rows can fetch nothing (refusal 16)"),
            Reason::Unknown => ("input", "refused for a reason that this version does not know"),
        };
        write!(
            f,
            "{whose} {what} {}: {why} (refusal {})",
            self.index, self.number
        )
    }
}

impl std::error::Error for Refusal {}
