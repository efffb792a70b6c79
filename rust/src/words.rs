//! The functions that libfernsponge.a exports, each behind a safe one that takes and writes plain numbers: for callers who keep their
//! items as words. All of the crate's `unsafe` stands here.
//!
//! A lent slice is an address and a length, and lent numbers of a known count are an address alone. A call that may refuse returns
//! number + 256 · side + 65,536 · index ([`Refusal::from_number`](crate::Refusal::from_number) takes it apart), or 0, and writes only
//! where it returns 0. What each refuses and costs stands in `include/fernsponge.h`, which declares the same functions, but for one that is the
//! crate's own (`contains_accepted`).

use crate::{positions, Amount, Item, KeyAt, MAX_REPORTED_POSITIONS};

/// The six words of an item: code, wrapper, start offset, start length, end offset, end length.
pub type Words = [u32; 6];

/// The six words of two boundaries: the kinds of start and end, then offset and length of each key.
pub type SetWords = [u32; 6];

/// An item or none: 1 and its six words, or seven times 0.
pub type MaybeWords = [u32; 7];

/// A span: its start and its end.
pub type Span = [u64; 2];

/// The words of items, in place.
#[must_use]
pub fn of_items(items: &[Item]) -> &[u32] {
    // SAFETY: an Item is its six words (`repr(transparent)`), so that so many items are six times as many words at the same address
    unsafe { std::slice::from_raw_parts(items.as_ptr().cast(), items.len() * 6) }
}

/// The words of items lent for writing, in place. Every six words are an item.
pub fn of_items_mut(items: &mut [Item]) -> &mut [u32] {
    // SAFETY: as in `of_items`, and the items are lent to no one else meanwhile
    unsafe { std::slice::from_raw_parts_mut(items.as_mut_ptr().cast(), items.len() * 6) }
}

/// The two numbers of each span, start and end, in place.
#[must_use]
pub fn of_spans(spans: &[positions::Span]) -> &[Span] {
    // SAFETY: a span is its two numbers, start first (`repr(C)`), as the array is
    unsafe { std::slice::from_raw_parts(spans.as_ptr().cast(), spans.len()) }
}

// what the next two functions rest on
const _: () = assert!(
    size_of::<KeyAt>() == 8
        && std::mem::offset_of!(KeyAt, offset) == 0
        && std::mem::offset_of!(KeyAt, length) == 4
        && size_of::<Amount>() == 8
);

/// The offset and length of each key, in place: two words a key.
#[must_use]
pub fn of_keys(keys: &[KeyAt]) -> &[u32] {
    // SAFETY: a KeyAt is its two words, offset first (`repr(C)`), so that so many keys are twice as many words at the same address
    unsafe { std::slice::from_raw_parts(keys.as_ptr().cast(), keys.len() * 2) }
}

/// The numbers of amounts, in place: ten-thousandths.
#[must_use]
pub fn of_amounts(amounts: &[Amount]) -> &[i64] {
    // SAFETY: an Amount is its number (`repr(transparent)`)
    unsafe { std::slice::from_raw_parts(amounts.as_ptr().cast(), amounts.len()) }
}

/// The totals of an invoice.
#[derive(Clone, Copy, Debug, Default, PartialEq, Eq, Hash)]
pub struct Invoice {
    /// The exact sum, in ten-thousandths.
    pub sum: i64,
    /// How many keys no item holds.
    pub without: u64,
    /// The sum in cents, halves to the even cent.
    pub cents: i64,
}

/// Positions that are off: how many, and the smallest of them in the first places.
#[derive(Clone, Debug, Default, PartialEq, Eq, Hash)]
pub struct Report {
    /// How many positions are off.
    pub total: u64,
    /// How many places of `examples` are used.
    pub count: u64,
    /// The smallest positions that are off; unused places are 0.
    pub examples: [u64; MAX_REPORTED_POSITIONS],
}

mod c {
    use super::{MaybeWords, SetWords, Span, Words, MAX_REPORTED_POSITIONS};

    /// A part of a lent slice, as it is handed back.
    #[repr(C)]
    pub struct Part {
        pub at: *const u8,
        pub length: usize,
    }

    extern "C" {
        pub fn fernsponge_compare(
            a: *const u8,
            a_length: usize,
            b: *const u8,
            b_length: usize,
        ) -> u64;

        pub fn fernsponge_order_items(
            a: *const u8,
            a_length: usize,
            b: *const u8,
            b_length: usize,
            part: *mut Part,
        );

        pub fn fernsponge_compare_boundaries(
            kind_a: u32,
            a: *const u8,
            a_length: usize,
            kind_b: u32,
            b: *const u8,
            b_length: usize,
            order: &mut u32,
        ) -> u64;

        pub fn fernsponge_invert(kind: u32, is_start: bool, inverted: &mut u32) -> u64;

        pub fn fernsponge_to_range_set(
            pool: *const u8,
            pool_length: usize,
            item: &Words,
            range: &mut SetWords,
        ) -> u64;

        pub fn fernsponge_to_query_item(
            pool: *const u8,
            pool_length: usize,
            range: &SetWords,
            item: &mut MaybeWords,
        ) -> u64;

        pub fn fernsponge_could_contain_key(
            pool: *const u8,
            pool_length: usize,
            item: &Words,
            key: *const u8,
            key_length: usize,
            held: &mut [u32; 2],
        ) -> u64;

        pub fn fernsponge_could_have_items_in_direction(
            pool: *const u8,
            pool_length: usize,
            item: &Words,
            key: *const u8,
            key_length: usize,
            to_left: bool,
            yes: &mut u32,
        ) -> u64;

        pub fn fernsponge_check_list(
            pool: *const u8,
            pool_length: usize,
            words: *const u32,
            words_length: usize,
            theirs: bool,
        ) -> u64;

        pub fn fernsponge_find_item(
            pool: *const u8,
            pool_length: usize,
            words: *const u32,
            words_length: usize,
            key: *const u8,
            key_length: usize,
            found: &mut [u64; 2],
        ) -> u64;

        pub fn fernsponge_intersect_items(
            pool: *const u8,
            pool_length: usize,
            ours: &Words,
            theirs: &Words,
            in_both: &mut MaybeWords,
            ours_left: &mut MaybeWords,
            ours_right: &mut MaybeWords,
            theirs_left: &mut MaybeWords,
            theirs_right: &mut MaybeWords,
        ) -> u64;

        pub fn fernsponge_intersect_many(
            pool: *const u8,
            pool_length: usize,
            ours: *const u32,
            ours_length: usize,
            theirs: *const u32,
            theirs_length: usize,
            shared_out: *mut u32,
            shared_out_length: usize,
            ours_out: *mut u32,
            ours_out_length: usize,
            theirs_out: *mut u32,
            theirs_out_length: usize,
            counts: &mut [u64; 3],
        ) -> u64;

        pub fn fernsponge_insert_item(
            pool: *const u8,
            pool_length: usize,
            words: *mut u32,
            words_length: usize,
            count: usize,
            item: &Words,
            after: &mut u64,
        ) -> u64;

        pub fn fernsponge_collect(
            pool: *const u8,
            pool_length: usize,
            fresh: *mut u8,
            fresh_length: usize,
            ours: *mut u32,
            ours_length: usize,
            theirs: *mut u32,
            theirs_length: usize,
            used: &mut u64,
        ) -> u64;

        pub fn fernsponge_read_sheet(
            text: *const u8,
            text_length: usize,
            pool: *mut u8,
            pool_length: usize,
            out: *mut u32,
            out_length: usize,
            items: &mut u64,
            bytes: &mut u64,
        ) -> u64;

        pub fn fernsponge_write_sheet(
            pool: *const u8,
            pool_length: usize,
            words: *const u32,
            words_length: usize,
            text: *mut u8,
            text_length: usize,
            bytes: &mut u64,
        ) -> u64;

        pub fn fernsponge_to_cents(amount: i64) -> i64;

        pub fn fernsponge_rate(
            pool: *const u8,
            pool_length: usize,
            words: *const u32,
            words_length: usize,
            amounts: *const i64,
            amounts_length: usize,
            key: *const u8,
            key_length: usize,
            has: &mut u32,
            amount: &mut i64,
        ) -> u64;

        pub fn fernsponge_invoice(
            pool: *const u8,
            pool_length: usize,
            words: *const u32,
            words_length: usize,
            amounts: *const i64,
            amounts_length: usize,
            keys: *const u32,
            keys_length: usize,
            sum: &mut i64,
            without: &mut u64,
            cents: &mut i64,
        ) -> u64;

        pub fn fernsponge_be_u64(key: *const u8, key_length: usize, position: &mut u64) -> u64;

        pub fn fernsponge_from_query_items(
            pool: *const u8,
            pool_length: usize,
            items: *const u32,
            items_length: usize,
            count: u64,
            out: *mut u64,
            out_length: usize,
            pairs: &mut u64,
            total: &mut u64,
        ) -> u64;

        pub fn fernsponge_stored_total(
            words: *const u64,
            words_length: usize,
            pairs: usize,
            total: u64,
            rows: &mut u64,
        ) -> u64;

        pub fn fernsponge_cover(
            words: *mut u64,
            words_length: usize,
            pairs: usize,
            total: u64,
            start: u64,
            end: u64,
            after: &mut u64,
            rows: &mut u64,
        ) -> u64;

        pub fn fernsponge_uncover(
            words: *mut u64,
            words_length: usize,
            pairs: usize,
            total: u64,
            start: u64,
            end: u64,
            after: &mut u64,
            rows: &mut u64,
        ) -> u64;

        pub fn fernsponge_contains(
            intervals: *const u64,
            intervals_length: usize,
            position: u64,
            yes: &mut u32,
        ) -> u64;

        pub fn fernsponge_contains_accepted(
            intervals: *const u64,
            intervals_length: usize,
            position: u64,
        ) -> u32;

        pub fn fernsponge_len(
            intervals: *const u64,
            intervals_length: usize,
            rows: &mut u64,
        ) -> u64;

        pub fn fernsponge_is_empty(
            intervals: *const u64,
            intervals_length: usize,
            yes: &mut u32,
        ) -> u64;

        pub fn fernsponge_empty_report(
            total: &mut u64,
            count: &mut u64,
            examples: &mut [u64; MAX_REPORTED_POSITIONS],
        ) -> u64;

        pub fn fernsponge_missing_from(
            intervals: *const u64,
            intervals_length: usize,
            proved: *const u64,
            proved_length: usize,
            total: &mut u64,
            count: &mut u64,
            examples: &mut [u64; MAX_REPORTED_POSITIONS],
        ) -> u64;

        pub fn fernsponge_missing_from_spans(
            intervals: *const u64,
            intervals_length: usize,
            spans: *const Span,
            spans_length: usize,
            total: &mut u64,
            count: &mut u64,
            examples: &mut [u64; MAX_REPORTED_POSITIONS],
        ) -> u64;

        pub fn fernsponge_extra_in(
            intervals: *const u64,
            intervals_length: usize,
            proved: *const u64,
            proved_length: usize,
            total: &mut u64,
            count: &mut u64,
            examples: &mut [u64; MAX_REPORTED_POSITIONS],
        ) -> u64;

        pub fn fernsponge_plan_refetch(
            intervals: *const u64,
            intervals_length: usize,
            proved: *const u64,
            proved_length: usize,
            most: u64,
            out: *mut u64,
            out_length: usize,
            windows: &mut u64,
        ) -> u64;

        pub fn fernsponge_check_plan(
            intervals: *const u64,
            intervals_length: usize,
            proved: *const u64,
            proved_length: usize,
            most: u64,
            plan: *const u64,
            plan_length: usize,
            yes: &mut u32,
        ) -> u64;

        pub fn fernsponge_describe(
            total: u64,
            count: u64,
            examples: &[u64; MAX_REPORTED_POSITIONS],
            out: *mut u8,
            out_length: usize,
            written: &mut u64,
        ) -> u64;
    }
}

/// 0 less, 1 equal, 2 greater.
#[must_use]
pub fn compare(a: &[u8], b: &[u8]) -> u64 {
    // SAFETY: both slices are lent for reading until the call returns
    unsafe { c::fernsponge_compare(a.as_ptr(), a.len(), b.as_ptr(), b.len()) }
}

/// The smaller of two keys, and `b` on a tie: the lent slice itself.
#[must_use]
pub fn order_items<'a>(a: &'a [u8], b: &'a [u8]) -> &'a [u8] {
    let mut part = c::Part {
        at: [].as_ptr(),
        length: 0,
    };
    // SAFETY: as in `compare`, and `part` is an empty slice that the call may replace
    unsafe {
        c::fernsponge_order_items(a.as_ptr(), a.len(), b.as_ptr(), b.len(), &mut part);
    }
    // SAFETY: the call is proved to hand back `a` or `b`
    unsafe { std::slice::from_raw_parts(part.at, part.length) }
}

/// Writes 0 less, 1 equal, 2 greater.
#[must_use = "what it returns is a refusal, or 0"]
pub fn compare_boundaries(left: u32, a: &[u8], right: u32, b: &[u8], order: &mut u32) -> u64 {
    // SAFETY: as in `compare`, and `order` is lent for writing, which nothing else overlaps; so in those below
    unsafe {
        c::fernsponge_compare_boundaries(
            left,
            a.as_ptr(),
            a.len(),
            right,
            b.as_ptr(),
            b.len(),
            order,
        )
    }
}

/// Writes the kind.
#[must_use = "what it returns is a refusal, or 0"]
pub fn invert(kind: u32, is_start: bool, inverted: &mut u32) -> u64 {
    // SAFETY: as above
    unsafe { c::fernsponge_invert(kind, is_start, inverted) }
}

/// Writes the kinds of start and end, then offset and length of each key.
#[must_use = "what it returns is a refusal, or 0"]
pub fn to_range_set(pool: &[u8], item: &Words, range: &mut SetWords) -> u64 {
    // SAFETY: as above
    unsafe { c::fernsponge_to_range_set(pool.as_ptr(), pool.len(), item, range) }
}

/// Writes the item of two boundaries.
#[must_use = "what it returns is a refusal, or 0"]
pub fn to_query_item(pool: &[u8], range: &SetWords, item: &mut MaybeWords) -> u64 {
    // SAFETY: as above
    unsafe { c::fernsponge_to_query_item(pool.as_ptr(), pool.len(), range, item) }
}

/// Writes two numbers, 1 for yes: the key is held; it sits on an exclusive bound.
#[must_use = "what it returns is a refusal, or 0"]
pub fn could_contain_key(pool: &[u8], item: &Words, key: &[u8], held: &mut [u32; 2]) -> u64 {
    // SAFETY: as above
    unsafe {
        c::fernsponge_could_contain_key(
            pool.as_ptr(),
            pool.len(),
            item,
            key.as_ptr(),
            key.len(),
            held,
        )
    }
}

/// Writes 1 for yes.
#[must_use = "what it returns is a refusal, or 0"]
pub fn could_have_items(pool: &[u8], item: &Words, key: &[u8], left: bool, yes: &mut u32) -> u64 {
    // SAFETY: as above
    unsafe {
        c::fernsponge_could_have_items_in_direction(
            pool.as_ptr(),
            pool.len(),
            item,
            key.as_ptr(),
            key.len(),
            left,
            yes,
        )
    }
}

/// The refusal alone.
#[must_use]
pub fn check_list(pool: &[u8], words: &[u32], theirs: bool) -> u64 {
    // SAFETY: all are lent for reading until the call returns
    unsafe {
        c::fernsponge_check_list(
            pool.as_ptr(),
            pool.len(),
            words.as_ptr(),
            words.len(),
            theirs,
        )
    }
}

/// Writes 1 and the index of the item that holds the key, or twice 0.
#[must_use = "what it returns is a refusal, or 0"]
pub fn find_item(pool: &[u8], words: &[u32], key: &[u8], found: &mut [u64; 2]) -> u64 {
    // SAFETY: as in `compare_boundaries`
    unsafe {
        c::fernsponge_find_item(
            pool.as_ptr(),
            pool.len(),
            words.as_ptr(),
            words.len(),
            key.as_ptr(),
            key.len(),
            found,
        )
    }
}

/// Writes the five parts: the shared one, ours left and right, theirs left and right.
#[must_use]
pub fn intersect_items(
    pool: &[u8],
    ours: &Words,
    theirs: &Words,
    [in_both, ours_left, ours_right, theirs_left, theirs_right]: &mut [MaybeWords; 5],
) -> u64 {
    // SAFETY: as in `compare_boundaries`, of each of the five that are lent for writing
    unsafe {
        c::fernsponge_intersect_items(
            pool.as_ptr(),
            pool.len(),
            ours,
            theirs,
            in_both,
            ours_left,
            ours_right,
            theirs_left,
            theirs_right,
        )
    }
}

/// The items of the three lists, shared, ours and theirs, go to the front of the words lent for each, and their counts to `counts`.
#[must_use = "what it returns is a refusal, or 0"]
pub fn intersect_many(
    pool: &[u8],
    ours: &[u32],
    theirs: &[u32],
    [shared_out, ours_out, theirs_out]: [&mut [u32]; 3],
    counts: &mut [u64; 3],
) -> u64 {
    // SAFETY: as in `compare_boundaries`, of each of the four that are lent for writing
    unsafe {
        c::fernsponge_intersect_many(
            pool.as_ptr(),
            pool.len(),
            ours.as_ptr(),
            ours.len(),
            theirs.as_ptr(),
            theirs.len(),
            shared_out.as_mut_ptr(),
            shared_out.len(),
            ours_out.as_mut_ptr(),
            ours_out.len(),
            theirs_out.as_mut_ptr(),
            theirs_out.len(),
            counts,
        )
    }
}

/// Inserts an item into the first so many items of the words, and writes how many there are then.
#[must_use = "what it returns is a refusal, or 0"]
pub fn insert_item(
    pool: &[u8],
    words: &mut [u32],
    count: usize,
    item: &Words,
    after: &mut u64,
) -> u64 {
    // SAFETY: as in `compare_boundaries`, of both that are lent for writing
    unsafe {
        c::fernsponge_insert_item(
            pool.as_ptr(),
            pool.len(),
            words.as_mut_ptr(),
            words.len(),
            count,
            item,
            after,
        )
    }
}

/// Writes the keys that the items of two lists name to the front of `fresh`, the items' offsets there, and how many bytes the keys have.
#[must_use = "what it returns is a refusal, or 0"]
pub fn collect(
    pool: &[u8],
    fresh: &mut [u8],
    ours: &mut [u32],
    theirs: &mut [u32],
    used: &mut u64,
) -> u64 {
    // SAFETY: as in `compare_boundaries`, of each of the four that are lent for writing
    unsafe {
        c::fernsponge_collect(
            pool.as_ptr(),
            pool.len(),
            fresh.as_mut_ptr(),
            fresh.len(),
            ours.as_mut_ptr(),
            ours.len(),
            theirs.as_mut_ptr(),
            theirs.len(),
            used,
        )
    }
}

/// Writes the keys of a sheet to the front of `pool`, its items to the front of `out`, how many items these are, and how many bytes the keys have.
#[must_use = "what it returns is a refusal, or 0"]
pub fn read_sheet(
    text: &[u8],
    pool: &mut [u8],
    out: &mut [u32],
    items: &mut u64,
    bytes: &mut u64,
) -> u64 {
    // SAFETY: as in `compare_boundaries`, of each of the four that are lent for writing
    unsafe {
        c::fernsponge_read_sheet(
            text.as_ptr(),
            text.len(),
            pool.as_mut_ptr(),
            pool.len(),
            out.as_mut_ptr(),
            out.len(),
            items,
            bytes,
        )
    }
}

/// Writes plain items as a sheet to the front of `text`, and how many bytes it has.
#[must_use = "what it returns is a refusal, or 0"]
pub fn write_sheet(pool: &[u8], words: &[u32], text: &mut [u8], bytes: &mut u64) -> u64 {
    // SAFETY: as in `compare_boundaries`, of both that are lent for writing
    unsafe {
        c::fernsponge_write_sheet(
            pool.as_ptr(),
            pool.len(),
            words.as_ptr(),
            words.len(),
            text.as_mut_ptr(),
            text.len(),
            bytes,
        )
    }
}

/// The nearest number of cents of ten-thousandths, and of two the even one. Nothing is refused.
#[must_use]
pub fn to_cents(amount: i64) -> i64 {
    // SAFETY: nothing is lent
    unsafe { c::fernsponge_to_cents(amount) }
}

/// Writes 1 and the amount of the item that holds the key, or 0 and 0.
#[must_use = "what it returns is a refusal, or 0"]
pub fn rate(
    pool: &[u8],
    words: &[u32],
    amounts: &[i64],
    key: &[u8],
    has: &mut u32,
    amount: &mut i64,
) -> u64 {
    // SAFETY: as in `compare_boundaries`, of both that are lent for writing
    unsafe {
        c::fernsponge_rate(
            pool.as_ptr(),
            pool.len(),
            words.as_ptr(),
            words.len(),
            amounts.as_ptr(),
            amounts.len(),
            key.as_ptr(),
            key.len(),
            has,
            amount,
        )
    }
}

/// Writes the totals of an invoice, whose keys are two words each, offset and length.
#[must_use = "what it returns is a refusal, or 0"]
pub fn invoice(
    pool: &[u8],
    words: &[u32],
    amounts: &[i64],
    keys: &[u32],
    invoice: &mut Invoice,
) -> u64 {
    // SAFETY: as in `compare_boundaries`, of each of the three that are lent for writing
    unsafe {
        c::fernsponge_invoice(
            pool.as_ptr(),
            pool.len(),
            words.as_ptr(),
            words.len(),
            amounts.as_ptr(),
            amounts.len(),
            keys.as_ptr(),
            keys.len(),
            &mut invoice.sum,
            &mut invoice.without,
            &mut invoice.cents,
        )
    }
}

/// Writes the position of a key.
#[must_use = "what it returns is a refusal, or 0"]
pub fn be_u64(key: &[u8], position: &mut u64) -> u64 {
    // SAFETY: as in `compare_boundaries`
    unsafe { c::fernsponge_be_u64(key.as_ptr(), key.len(), position) }
}

/// Writes the pairs of the covered positions to the front of `out`, how many there are, and how many positions they cover: a stored list.
#[must_use = "what it returns is a refusal, or 0"]
pub fn from_query_items(
    pool: &[u8],
    items: &[u32],
    count: u64,
    out: &mut [u64],
    pairs: &mut u64,
    total: &mut u64,
) -> u64 {
    // SAFETY: as above, of each of the three that are lent for writing
    unsafe {
        c::fernsponge_from_query_items(
            pool.as_ptr(),
            pool.len(),
            items.as_ptr(),
            items.len(),
            count,
            out.as_mut_ptr(),
            out.len(),
            pairs,
            total,
        )
    }
}

/// Checks a stored list, the first so many pairs of the words and the total of the rows that they cover, and writes that total.
#[must_use = "what it returns is a refusal, or 0"]
pub fn stored_total(words: &[u64], pairs: usize, total: u64, rows: &mut u64) -> u64 {
    // SAFETY: as above
    unsafe { c::fernsponge_stored_total(words.as_ptr(), words.len(), pairs, total, rows) }
}

/// Covers the rows from `start` on, below `end`, in a stored list, and writes how many pairs there are then, and the total.
#[must_use = "what it returns is a refusal, or 0"]
pub fn cover(
    words: &mut [u64],
    pairs: usize,
    total: u64,
    start: u64,
    end: u64,
    new_pairs: &mut u64,
    new_total: &mut u64,
) -> u64 {
    // SAFETY: as above, of each of the three that are lent for writing
    unsafe {
        c::fernsponge_cover(
            words.as_mut_ptr(),
            words.len(),
            pairs,
            total,
            start,
            end,
            new_pairs,
            new_total,
        )
    }
}

/// Uncovers the rows from `start` on, below `end`, in a stored list, and writes how many pairs there are then, and the total.
#[must_use = "what it returns is a refusal, or 0"]
pub fn uncover(
    words: &mut [u64],
    pairs: usize,
    total: u64,
    start: u64,
    end: u64,
    new_pairs: &mut u64,
    new_total: &mut u64,
) -> u64 {
    // SAFETY: as above, of each of the three that are lent for writing
    unsafe {
        c::fernsponge_uncover(
            words.as_mut_ptr(),
            words.len(),
            pairs,
            total,
            start,
            end,
            new_pairs,
            new_total,
        )
    }
}

/// Writes 1 for yes.
#[must_use = "what it returns is a refusal, or 0"]
pub fn contains(intervals: &[u64], position: u64, yes: &mut u32) -> u64 {
    // SAFETY: as above
    unsafe { c::fernsponge_contains(intervals.as_ptr(), intervals.len(), position, yes) }
}

/// Whether a position lies in one of the intervals, unchecked: it answers rightly of intervals that a call has accepted, and of other words
/// something or other.
pub(crate) fn contains_accepted(intervals: &[u64], position: u64) -> bool {
    // SAFETY: as above
    unsafe { c::fernsponge_contains_accepted(intervals.as_ptr(), intervals.len(), position) == 1 }
}

/// Writes how many positions are covered.
#[must_use = "what it returns is a refusal, or 0"]
pub fn len(intervals: &[u64], rows: &mut u64) -> u64 {
    // SAFETY: as above
    unsafe { c::fernsponge_len(intervals.as_ptr(), intervals.len(), rows) }
}

/// Writes 1 for yes.
#[must_use = "what it returns is a refusal, or 0"]
pub fn is_empty(intervals: &[u64], yes: &mut u32) -> u64 {
    // SAFETY: as above
    unsafe { c::fernsponge_is_empty(intervals.as_ptr(), intervals.len(), yes) }
}

/// Writes the report that nothing is off.
#[must_use = "what it returns is a refusal, or 0"]
pub fn empty_report(report: &mut Report) -> u64 {
    // SAFETY: as above, of each of the three that are lent for writing
    unsafe {
        c::fernsponge_empty_report(&mut report.total, &mut report.count, &mut report.examples)
    }
}

/// Writes which covered positions are not proved.
#[must_use = "what it returns is a refusal, or 0"]
pub fn missing_from(intervals: &[u64], proved: &[u64], report: &mut Report) -> u64 {
    // SAFETY: as above
    unsafe {
        c::fernsponge_missing_from(
            intervals.as_ptr(),
            intervals.len(),
            proved.as_ptr(),
            proved.len(),
            &mut report.total,
            &mut report.count,
            &mut report.examples,
        )
    }
}

/// Writes which covered positions lie in no span, each a start and an end.
#[must_use = "what it returns is a refusal, or 0"]
pub fn missing_from_spans(intervals: &[u64], spans: &[Span], report: &mut Report) -> u64 {
    // SAFETY: as above; a span is its two numbers, as in C
    unsafe {
        c::fernsponge_missing_from_spans(
            intervals.as_ptr(),
            intervals.len(),
            spans.as_ptr(),
            spans.len(),
            &mut report.total,
            &mut report.count,
            &mut report.examples,
        )
    }
}

/// Writes which proved positions are not covered.
#[must_use = "what it returns is a refusal, or 0"]
pub fn extra_in(intervals: &[u64], proved: &[u64], report: &mut Report) -> u64 {
    // SAFETY: as above
    unsafe {
        c::fernsponge_extra_in(
            intervals.as_ptr(),
            intervals.len(),
            proved.as_ptr(),
            proved.len(),
            &mut report.total,
            &mut report.count,
            &mut report.examples,
        )
    }
}

/// Writes the windows that fetch the missing rows again, each of at most so many rows, to the front of `out`, and how many there are.
#[must_use = "what it returns is a refusal, or 0"]
pub fn plan_refetch(
    intervals: &[u64],
    proved: &[u64],
    most: u64,
    out: &mut [u64],
    windows: &mut u64,
) -> u64 {
    // SAFETY: as above, of both that are lent for writing
    unsafe {
        c::fernsponge_plan_refetch(
            intervals.as_ptr(),
            intervals.len(),
            proved.as_ptr(),
            proved.len(),
            most,
            out.as_mut_ptr(),
            out.len(),
            windows,
        )
    }
}

/// Writes 1 where a plan, two numbers a window, is accepted.
#[must_use = "what it returns is a refusal, or 0"]
pub fn check_plan(
    intervals: &[u64],
    proved: &[u64],
    most: u64,
    plan: &[u64],
    yes: &mut u32,
) -> u64 {
    // SAFETY: as above
    unsafe {
        c::fernsponge_check_plan(
            intervals.as_ptr(),
            intervals.len(),
            proved.as_ptr(),
            proved.len(),
            most,
            plan.as_ptr(),
            plan.len(),
            yes,
        )
    }
}

/// Writes the text of a report to the front of `out`, and how long it is.
#[must_use = "what it returns is a refusal, or 0"]
pub fn describe(report: &Report, out: &mut [u8], length: &mut u64) -> u64 {
    // SAFETY: as above, of both that are lent for writing
    unsafe {
        c::fernsponge_describe(
            report.total,
            report.count,
            &report.examples,
            out.as_mut_ptr(),
            out.len(),
            length,
        )
    }
}
