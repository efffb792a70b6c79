//! Items and lists of items, two at a time; insertion; and the keys that two lists name, collected.

use crate::{
    ask::maybe,
    detail::{self, Detail},
    item::Item,
    refusal::Refusal,
    words,
};

/// What two items share, and what each keeps without the other, left and right of it.
#[derive(Clone, Copy, Debug, PartialEq, Eq, Hash)]
#[non_exhaustive]
pub struct Pair {
    /// What both hold.
    pub shared: Option<Item>,
    /// What only ours holds, left of theirs.
    pub ours_left: Option<Item>,
    /// What only ours holds, right of theirs.
    pub ours_right: Option<Item>,
    /// What only theirs holds, left of ours.
    pub theirs_left: Option<Item>,
    /// What only theirs holds, right of ours.
    pub theirs_right: Option<Item>,
}

/// What two upright items share, and what each keeps without the other. Wrappers are read through and dropped. A few comparisons of keys, O(1).
///
/// # Errors
///
/// Refused with 1 where the pool has more than 65,536 bytes; then, ours before theirs, with 1 where an item is malformed, with 2 where a key of it is
/// longer than 255 bytes or reaches past the pool, and with 3 where its start is above its end, or they are equal and one of them is left out.
///
/// ```
/// use fernsponge::{intersect, Item, Pool};
///
/// let mut pool = Pool::new();
/// let ours = Item::range(pool.add(&[1])?, pool.add(&[5])?);
/// let theirs = Item::range_inclusive(pool.add(&[5])?, pool.add(&[9])?);
/// let pair = intersect(pool.bytes(), ours, theirs)?;
/// assert_eq!((pair.shared, pair.ours_left, pair.theirs_right), (None, Some(ours), Some(theirs)));
/// # Ok::<(), fernsponge::Refusal>(())
/// ```
pub fn intersect(pool: &[u8], ours: Item, theirs: Item) -> Result<Pair, Refusal> {
    let mut parts = [[0; 7]; 5];
    Refusal::looked(
        words::intersect_items(pool, &ours.words(), &theirs.words(), &mut parts),
        |refusal| detail::lists(refusal, pool, &[ours], &[theirs]),
    )?;
    let [shared, ours_left, ours_right, theirs_left, theirs_right] = parts.map(maybe);
    Ok(Pair {
        shared,
        ours_left,
        ours_right,
        theirs_left,
        theirs_right,
    })
}

/// The three lists of two lists. Each key that a list holds is in exactly one of shared and that list's own.
#[derive(Clone, Debug, Default, PartialEq, Eq)]
pub struct Lists {
    /// What both hold.
    pub shared: Vec<Item>,
    /// What only ours holds.
    pub ours: Vec<Item>,
    /// What only theirs holds.
    pub theirs: Vec<Item>,
}

/// How many items the three lists have.
#[derive(Clone, Copy, Debug, Default, PartialEq, Eq, Hash)]
pub struct Counts {
    /// Of what both hold.
    pub shared: usize,
    /// Of what only ours holds.
    pub ours: usize,
    /// Of what only theirs holds.
    pub theirs: usize,
}

/// What two lists share, what only ours holds and what only theirs holds. Every item of them holds a key, so that none is fetched in vain: what
/// lies below the empty key, and what lies between a key and that key with a zero byte appended, is in none of them.
///
/// It makes O(ours + theirs) comparisons of keys, and takes memory for as many items in each list.
///
/// # Errors
///
/// As [`check_list`](crate::check_list) refuses the lists, ours entirely before theirs.
///
/// ```
/// use fernsponge::{intersect_many_ordered, Item, Pool};
///
/// let mut pool = Pool::new();
/// let mut between = |a, b| Ok(Item::range_inclusive(pool.add(&[a])?, pool.add(&[b])?));
/// let (ours, theirs) = ([between(1, 3)?, between(7, 9)?], [between(2, 8)?]);
/// let lists = intersect_many_ordered(pool.bytes(), &ours, &theirs)?;
/// let shown = |items: &[Item]| items.iter().map(|i| i.shown(pool.bytes())).collect::<Vec<_>>().join(", ");
/// assert_eq!(shown(&lists.shared), "RangeInclusive 02 03, RangeInclusive 07 08");
/// assert_eq!(shown(&lists.ours), "Range 01 02, RangeAfterToInclusive 08 09");
/// assert_eq!(shown(&lists.theirs), "RangeAfterTo 03 07");
/// # Ok::<(), fernsponge::Refusal>(())
/// ```
pub fn intersect_many_ordered(
    pool: &[u8],
    ours: &[Item],
    theirs: &[Item],
) -> Result<Lists, Refusal> {
    let room = || vec![Item::default(); ours.len() + theirs.len()];
    let mut lists = Lists {
        shared: room(),
        ours: room(),
        theirs: room(),
    };
    let Lists {
        shared: shared_out,
        ours: ours_out,
        theirs: theirs_out,
    } = &mut lists;
    let counts = intersect_many_into(pool, ours, theirs, [shared_out, ours_out, theirs_out])?;
    lists.shared.truncate(counts.shared);
    lists.ours.truncate(counts.ours);
    lists.theirs.truncate(counts.theirs);
    Ok(lists)
}

/// The same into lent items: shared, ours and theirs, each to the front of its own, whose other items stay as they are. As many as
/// both lists have together are always enough for each; with less, the lists are counted before they are written, at twice the cost.
///
/// # Errors
///
/// As [`intersect_many_ordered`] is refused, and then with 6 where one of the three does not fit. Nothing is written then.
pub fn intersect_many_into(
    pool: &[u8],
    ours: &[Item],
    theirs: &[Item],
    lent: [&mut [Item]; 3],
) -> Result<Counts, Refusal> {
    let mut counts = [0; 3];
    let room = [lent[0].len(), lent[1].len(), lent[2].len()];
    Refusal::looked(
        words::intersect_many(
            pool,
            words::of_items(ours),
            words::of_items(theirs),
            lent.map(words::of_items_mut),
            &mut counts,
        ),
        |refusal| match refusal.number {
            6 => Some(Detail::RoomOfLists(room, ours.len() + theirs.len())),
            _ => detail::lists(refusal, pool, ours, theirs),
        },
    )?;
    let [shared, ours, theirs] = counts.map(|count| count as usize);
    Ok(Counts {
        shared,
        ours,
        theirs,
    })
}

/// Inserts an item into the list of the first `count` lent items, and answers how many there are then. Plain items that meet merge, an
/// equal item is replaced, wrapped ones stay apart. Items that this frees become zeros.
///
/// The list is checked each time, O(items) comparisons; the place is found by O(log items), and the items behind it are moved once.
///
/// # Errors
///
/// Refused with 1 where the pool has more than 65,536 bytes, or `count` is more than were lent or than 2,048; then, item by item, with 1, 2 and 3 as
/// [`check_list`](crate::check_list) has it; with 4 where an item sorts below one before it, by start and then end, is equal to one, or is plain and
/// meets a plain one; then, of the new item, which is theirs, with 1, 2 and 3; at last with 6 where the list would not fit, or would have more than
/// 2,048 items. Nothing is written then.
pub fn insert_item(
    pool: &[u8],
    lent: &mut [Item],
    count: usize,
    item: Item,
) -> Result<usize, Refusal> {
    let mut after = 0;
    let returned = words::insert_item(
        pool,
        words::of_items_mut(lent),
        count,
        &item.words(),
        &mut after,
    );
    Refusal::looked(returned, |refusal| {
        detail::insertion(refusal, pool, lent, count, item)
    })?;
    Ok(after as usize)
}

/// Inserts an item into a list that grows or shrinks with it. It costs what [`insert_item`] does.
///
/// # Errors
///
/// As [`insert_item`] is refused; the list then stays as it is.
///
/// Plain items may come in any order: two desks that save the same ones have the same list, item by item, by kind, wrapper and key bytes,
/// whoever goes first, where neither is refused for having more than 2,048 items on the way. Offsets may differ where equal keys stand at two
/// places of the pool. A wrapped item and another of the same range stand in order of arrival, the later one first; the result of an insertion
/// arrives with it, whatever it replaced or merged with.
///
/// ```
/// use fernsponge::{insert, Item, Pool, Refusal};
///
/// let mut pool = Pool::new();
/// let nine = Item::key(pool.add(&[9])?);
/// let ours = Item::range_inclusive(pool.add(&[1])?, pool.add(&[3])?);
/// let theirs = Item::range(pool.add(&[2])?, pool.add(&[6])?);
/// let saved = |items: [Item; 2]| -> Result<Vec<String>, Refusal> {
///     let mut list = vec![nine];
///     for item in items {
///         insert(pool.bytes(), &mut list, item)?;
///     }
///     Ok(list.iter().map(|item| item.shown(pool.bytes())).collect())
/// };
/// assert_eq!(saved([ours, theirs])?, ["Range 01 06", "Key 09"]);
/// assert_eq!(saved([theirs, ours])?, saved([ours, theirs])?);
/// # Ok::<(), fernsponge::Refusal>(())
/// ```
///
/// ```
/// use fernsponge::{insert, Item, Pool};
///
/// let mut pool = Pool::new();
/// let mut list = vec![Item::range_inclusive(pool.add(&[1])?, pool.add(&[3])?), Item::key(pool.add(&[5])?)];
/// let item = Item::range(pool.add(&[2])?, pool.add(&[6])?);
/// insert(pool.bytes(), &mut list, item)?;
/// assert_eq!(list.len(), 1);
/// assert_eq!(list[0].shown(pool.bytes()), "Range 01 06");
/// # Ok::<(), fernsponge::Refusal>(())
/// ```
pub fn insert(pool: &[u8], list: &mut Vec<Item>, item: Item) -> Result<(), Refusal> {
    let count = list.len();
    list.push(Item::default());
    let after = insert_item(pool, list, count, item);
    list.truncate(*after.as_ref().unwrap_or(&count));
    after.map(|_| ())
}

/// Writes the keys that the items of two lists name to the front of `fresh`, rewrites the items' offsets, and answers how many bytes the keys
/// have there. What [`Pool::collect`](crate::Pool::collect) says of keys, lists and cost holds here too; bytes of `fresh` past the keys stay, and
/// later keys may be written there.
///
/// # Errors
///
/// As [`Pool::collect`](crate::Pool::collect) is refused; with 1 also where `pool` or `fresh` has more than 65,536 bytes, and with 6 exactly where
/// the distinct keys together have more bytes than `fresh`.
///
/// ```
/// use fernsponge::{collect_into, Item, KeyAt};
///
/// let key = |offset, length| KeyAt { offset, length };
/// let mut ours = [Item::range(key(3, 2), key(1, 2))];
/// let mut theirs = [Item::key(key(6, 2))];
/// let mut fresh = *b"........";
/// assert_eq!(collect_into(b"xbbaaxbb", &mut fresh, &mut ours, &mut theirs), Ok(4));
/// assert_eq!(&fresh, b"aabb....");
/// assert_eq!(ours, [Item::range(key(0, 2), key(2, 2))]);
/// assert_eq!(theirs, [Item::key(key(2, 2))]);
/// ```
pub fn collect_into(
    pool: &[u8],
    fresh: &mut [u8],
    ours: &mut [Item],
    theirs: &mut [Item],
) -> Result<usize, Refusal> {
    let mut used = 0;
    let returned = words::collect(
        pool,
        fresh,
        words::of_items_mut(ours),
        words::of_items_mut(theirs),
        &mut used,
    );
    Refusal::looked(returned, |refusal| match refusal.number {
        6 => Some(Detail::RoomOfKeys(fresh.len())),
        _ => detail::pool_size(refusal, "the old pool", pool)
            .or_else(|| detail::pool_size(refusal, "the fresh pool", fresh))
            .or_else(|| detail::lists(refusal, pool, ours, theirs)),
    })?;
    Ok(used as usize)
}
