//! The order of keys and boundaries, and what one item is asked.

use crate::{
    detail::{self, Use},
    item::{Item, KeyAt},
    refusal::{Refusal, Side},
    words,
};
use std::cmp::Ordering;

/// How a key stands to another: byte by byte, a proper prefix first. O(bytes of the shorter one).
///
/// ```
/// assert!(fernsponge::compare(b"DE", b"DE-FR").is_lt());
/// ```
#[must_use]
pub fn compare(a: &[u8], b: &[u8]) -> Ordering {
    ordering(words::compare(a, b))
}

/// The smaller of two keys, as the lent slice itself; on a tie the second. O(bytes of the shorter one).
#[must_use]
pub fn order_items<'a>(a: &'a [u8], b: &'a [u8]) -> &'a [u8] {
    words::order_items(a, b)
}

/// What a boundary of a range is.
#[derive(Clone, Copy, Debug, PartialEq, Eq, Hash)]
pub enum BoundaryKind {
    /// Below all.
    UnboundedStart,
    /// Above all.
    UnboundedEnd,
    /// At a key that is held.
    Inclusive,
    /// After a key that is not held.
    ExclusiveStart,
    /// Before a key that is not held.
    ExclusiveEnd,
}

impl BoundaryKind {
    /// The same cut seen from the other side, as a start or as an end: Inclusive becomes the exclusive one of that side, either exclusive
    /// one Inclusive, and the unbounded stay. O(1).
    #[must_use]
    pub fn invert(self, is_start: bool) -> Self {
        let mut inverted = 0;
        let refused = words::invert(self as u32, is_start, &mut inverted);
        debug_assert_eq!(refused, 0, "each kind has a number that is known");
        Self::numbered(inverted)
    }

    fn is_unbounded(self) -> bool {
        matches!(self, Self::UnboundedStart | Self::UnboundedEnd)
    }

    fn numbered(number: u32) -> Self {
        match number {
            0 => Self::UnboundedStart,
            1 => Self::UnboundedEnd,
            2 => Self::Inclusive,
            3 => Self::ExclusiveStart,
            _ => Self::ExclusiveEnd,
        }
    }
}

/// How a boundary of a kind at a key stands to another: by bytes, and at equal bytes ExclusiveEnd, Inclusive, ExclusiveStart. An unbounded one
/// stands below or above all others, whatever bytes are lent with it. O(bytes of the shorter key).
///
/// ```
/// use fernsponge::{compare_boundaries, BoundaryKind::*};
///
/// assert!(compare_boundaries(ExclusiveEnd, &[5], Inclusive, &[5]).is_lt());
/// ```
#[must_use]
pub fn compare_boundaries(left: BoundaryKind, a: &[u8], right: BoundaryKind, b: &[u8]) -> Ordering {
    let mut order = 0;
    let refused = words::compare_boundaries(left as u32, a, right as u32, b, &mut order);
    debug_assert_eq!(refused, 0, "each kind has a number that is known");
    ordering(order.into())
}

/// A boundary: its kind, and its key in the pool. An unbounded one has no key: offset and length are 0.
#[derive(Clone, Copy, Debug, PartialEq, Eq, Hash)]
pub struct Boundary {
    /// What it is.
    pub kind: BoundaryKind,
    /// Where.
    pub key: KeyAt,
}

/// A range by its two boundaries.
#[derive(Clone, Copy, Debug, PartialEq, Eq, Hash)]
pub struct RangeSet {
    /// Where it begins.
    pub start: Boundary,
    /// Where it ends.
    pub end: Boundary,
}

/// The two boundaries of an item, upright or not. O(1).
///
/// # Errors
///
/// Refused with 1 where the pool has more than 65,536 bytes or the item is malformed, and with 2 where a key of it is longer than 255 bytes or
/// reaches past the pool.
pub fn to_range_set(pool: &[u8], item: Item) -> Result<RangeSet, Refusal> {
    let mut range = [0; 6];
    Refusal::looked(
        words::to_range_set(pool, &item.words(), &mut range),
        |refusal| detail::item(refusal, pool, item),
    )?;
    let [start, end, offset, length, end_offset, end_length] = range;
    Ok(RangeSet {
        start: Boundary {
            kind: BoundaryKind::numbered(start),
            key: KeyAt { offset, length },
        },
        end: Boundary {
            kind: BoundaryKind::numbered(end),
            key: KeyAt {
                offset: end_offset,
                length: end_length,
            },
        },
    })
}

/// The item of two boundaries, where there is one. From a key to the same bytes, both held, is the key itself. O(bytes of the shorter key).
///
/// # Errors
///
/// Refused with 1 where an unbounded boundary has a key or the pool has more than 65,536 bytes, and with 2 where a key is longer than 255 bytes or
/// reaches past the pool.
///
/// ```
/// use fernsponge::{to_query_item, to_range_set, Item, Pool};
///
/// let mut pool = Pool::new();
/// let key = pool.add(&[5])?;
/// let range = to_range_set(pool.bytes(), Item::range_inclusive(key, key))?;
/// assert_eq!(to_query_item(pool.bytes(), range)?, Some(Item::key(key)));
/// # Ok::<(), fernsponge::Refusal>(())
/// ```
pub fn to_query_item(pool: &[u8], range: RangeSet) -> Result<Option<Item>, Refusal> {
    let RangeSet { start, end } = range;
    let given = [
        start.kind as u32,
        end.kind as u32,
        start.key.offset,
        start.key.length,
        end.key.offset,
        end.key.length,
    ];
    let mut item = [0; 7];
    Refusal::looked(words::to_query_item(pool, &given, &mut item), |refusal| {
        let ends = [start, end].map(|end| (end.kind.is_unbounded(), end.key));
        detail::range(refusal, pool, ends)
    })?;
    Ok(maybe(item))
}

/// How an item and a key stand.
#[derive(Clone, Copy, Debug, PartialEq, Eq, Hash)]
#[non_exhaustive]
pub struct KeyContainment {
    /// The item holds the key.
    pub included: bool,
    /// The key sits on a bound that is not held.
    pub on_bounds_not_included: bool,
}

/// Whether an item, upright or not, holds a key of any length, and whether the key sits on an exclusive bound of it. O(bytes of the shorter key).
///
/// # Errors
///
/// As [`to_range_set`] is refused.
///
/// ```
/// use fernsponge::{could_contain_key, Item, Pool};
///
/// let mut pool = Pool::new();
/// let item = Item::range(pool.add(&[1])?, pool.add(&[5])?);
/// let at = could_contain_key(pool.bytes(), item, &[5])?;
/// assert!(!at.included && at.on_bounds_not_included);
/// # Ok::<(), fernsponge::Refusal>(())
/// ```
pub fn could_contain_key(pool: &[u8], item: Item, key: &[u8]) -> Result<KeyContainment, Refusal> {
    let mut held = [0; 2];
    Refusal::looked(
        words::could_contain_key(pool, &item.words(), key, &mut held),
        |refusal| detail::item(refusal, pool, item),
    )?;
    Ok(KeyContainment {
        included: held[0] == 1,
        on_bounds_not_included: held[1] == 1,
    })
}

/// Where keys are looked for.
#[derive(Clone, Copy, Debug, PartialEq, Eq, Hash)]
pub enum Direction {
    /// Below the asked key.
    LeftOf,
    /// Above it.
    RightOf,
}

/// Whether keys that an item holds may stand in a direction of a key. No means that none does; yes may be a false hope. O(bytes of the shorter key).
///
/// # Errors
///
/// As [`to_range_set`] is refused.
pub fn could_have_items_in_direction(
    pool: &[u8],
    item: Item,
    key: &[u8],
    direction: Direction,
) -> Result<bool, Refusal> {
    let mut yes = 0;
    let to_left = direction == Direction::LeftOf;
    Refusal::looked(
        words::could_have_items(pool, &item.words(), key, to_left, &mut yes),
        |refusal| detail::item(refusal, pool, item),
    )?;
    Ok(yes == 1)
}

/// Whether a list can be used in the algebra: its items are sound and upright, and each ends below the start of the next. O(items) comparisons of
/// keys.
///
/// # Errors
///
/// It cannot where this is refused: with 1 where the pool has more than 65,536 bytes or the list more than 2,048 items; then, item by item, with 1
/// where one is malformed, with 2 where a key of it is longer than 255 bytes or reaches past the pool, and with 3 where its start is above its
/// end, or they are equal and one of them is left out; then with 4 where one does not start above the end of the one before it. The refusal has the
/// side.
pub fn check_list(pool: &[u8], items: &[Item], side: Side) -> Result<(), Refusal> {
    Refusal::looked(
        words::check_list(pool, words::of_items(items), side == Side::Theirs),
        |refusal| detail::list(refusal, pool, items, Use::Algebra),
    )
}

/// Which item of a list holds a key of any length, if one does. The list is checked as [`check_list`] does it, as ours: so no two items hold the
/// same key. O(items) comparisons for the check, and O(log items) for the search.
///
/// # Errors
///
/// As [`check_list`] is refused.
///
/// ```
/// use fernsponge::{find_item, Item, Pool};
///
/// let mut pool = Pool::new();
/// let (low, middle, high) = (pool.add(&[1])?, pool.add(&[5])?, pool.add(&[9])?);
/// let list = [Item::range(low, middle), Item::range_inclusive(middle, high)];
/// assert_eq!(find_item(pool.bytes(), &list, &[4, 255])?, Some(0));
/// assert_eq!(find_item(pool.bytes(), &list, &[5])?, Some(1));
/// assert_eq!(find_item(pool.bytes(), &list, &[9, 0])?, None);
/// # Ok::<(), fernsponge::Refusal>(())
/// ```
pub fn find_item(pool: &[u8], items: &[Item], key: &[u8]) -> Result<Option<usize>, Refusal> {
    let mut found = [0; 2];
    Refusal::looked(
        words::find_item(pool, words::of_items(items), key, &mut found),
        |refusal| detail::list(refusal, pool, items, Use::Algebra),
    )?;
    let [some, index] = found;
    Ok((some == 1).then_some(index as usize))
}

/// An item or none, of the seven words that stand for it.
pub(crate) fn maybe([some, code, wrapper, a, b, c, d]: words::MaybeWords) -> Option<Item> {
    (some == 1).then(|| Item::from_words([code, wrapper, a, b, c, d]))
}

fn ordering(number: u64) -> Ordering {
    match number {
        0 => Ordering::Less,
        1 => Ordering::Equal,
        _ => Ordering::Greater,
    }
}
