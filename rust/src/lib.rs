//! Ranges of keys and positions of a log, as a rate shopping engine compares them: which lanes two lists share, which only ours has and
//! which only theirs; what an inserted lane merges with; what a lane costs by a rate card, and an invoice of lanes; which rows of a log are
//! covered, missing or extra, and in which windows to fetch the missing ones again.
//!
//! The answers come from `libfernsponge.a`, whose every function is proved to meet its contract: each call ends on any input, checks the
//! input itself, and answers, or refuses with a number, a side and an index ([`Refusal`]). A refused call changes nothing.
//!
//! Keys stand one after another in a pool of bytes that the caller keeps ([`Pool`] makes one), and an [`Item`] names its keys by offset and
//! length. A list of items is a slice of them. Where insertions have left keys that no item names, [`Pool::collect`] drops them. Lists that are
//! mailed as comma-separated text are read, and written, by [`Sheet`].
//!
//! ```
//! use fernsponge::{intersect_many_ordered, Item, Pool};
//!
//! let mut pool = Pool::new();
//! let ours = [Item::range(pool.add(&[1])?, pool.add(&[5])?)];
//! let theirs = [Item::key(pool.add(&[3])?)];
//!
//! let lists = intersect_many_ordered(pool.bytes(), &ours, &theirs)?;
//! let shown = |items: &[Item]| items.iter().map(|item| item.shown(pool.bytes())).collect::<Vec<_>>();
//! assert_eq!(shown(&lists.shared), ["Key 03"]);
//! assert_eq!(shown(&lists.ours), ["Range 01 03", "RangeAfterTo 03 05"]);
//! assert!(lists.theirs.is_empty());
//! # Ok::<(), fernsponge::Refusal>(())
//! ```
//!
//! # Limits
//!
//! A list has at most [`MOST_ITEMS`], a pool [`MOST_POOL_BYTES`], a key [`MOST_KEY_BYTES`], an invoice [`MOST_INVOICE_KEYS`], and a report tells at
//! most [`MAX_REPORTED_POSITIONS`] positions one by one. An [`Amount`] is from [`Amount::MIN`] to [`Amount::MAX`].
//!
//! # Costs
//!
//! Each call says what it costs. Every call checks the list that it is given, so that a call on n items costs at least O(n), also where its answer is
//! found by halving. Intervals are checked when they are made or changed; [`PositionIntervals::contains`] relies on that and does not check them
//! again, and what is a field of a type here, as [`PositionIntervals::len`], costs O(1). To compare two keys costs O(bytes of the shorter one), of
//! which items have at most 255.
//!
//! | calls | cost |
//! |---|---|
//! | [`compare`], [`order_items`], [`compare_boundaries`], [`to_query_item`] | one comparison |
//! | [`could_contain_key`], [`could_have_items_in_direction`] | one comparison, or two |
//! | [`BoundaryKind::invert`], [`to_range_set`], [`position_of`], [`Amount::cents`], [`Total::cents`], a report's text | O(1) |
//! | [`intersect`] | O(1) comparisons |
//! | [`check_list`], [`find_item`], [`RateCard::check`], [`RateCard::rate`] | O(items) comparisons |
//! | [`RateCard::invoice`] | O(items + keys · log items) comparisons |
//! | [`intersect_many_ordered`], [`intersect_many_into`] | O(ours + theirs) comparisons |
//! | [`insert`], [`insert_item`] | O(items) comparisons |
//! | [`Pool::add`], [`Pool::add_once`] | O(bytes of the key) |
//! | [`Pool::collect`], [`collect_into`] | O(n log n) comparisons of n keys, and at worst n² / 2 moves of two bytes |
//! | [`Sheet::read`], [`Sheet::read_into`], [`Sheet::write`] | O(bytes of the text + items) |
//! | [`PositionIntervals::from_query_items`] | O(items) where they ascend apart, else O(items · log items) |
//! | [`PositionIntervals`]' `from_ranges`, `from_stored`, `cover`, `uncover` | O(intervals) |
//! | its `contains` | O(log intervals) |
//! | its `missing_from`, `extra_in`, `missing_from_spans` | O(intervals + proved), or spans |
//! | its `plan_refetch`, and [`RefetchPlan::check`] | O(intervals + proved + windows) |
//!
//! # Threads
//!
//! No call keeps anything, and none waits: calls may run at the same time, each on what it is lent.
//!
//! # The library
//!
//! `make lib` in the project's root puts `libfernsponge.a` into `target/lib`, where it is looked for. Elsewhere, FERNSPONGE_LIB names its folder; a
//! relative name is read from the folder in PWD, which a shell sets to where it stands, and so from where cargo is run. `cargo check` and
//! `cargo doc` need no library: a warning says that there is none, and what is to be run then does not link.

#![deny(missing_docs, unsafe_code)]
#![warn(clippy::missing_errors_doc, clippy::must_use_candidate)]

mod ask;
mod card;
mod detail;
mod item;
mod limits;
mod lists;
mod memory;
mod positions;
mod quantities;
mod refusal;
mod sheet;
// the calls across the language's border, and slices seen as their words: all that is unsafe
#[allow(unsafe_code)]
pub mod words;

pub use ask::{
    check_list, compare, compare_boundaries, could_contain_key, could_have_items_in_direction,
    find_item, order_items, to_query_item, to_range_set, Boundary, BoundaryKind, Direction,
    KeyContainment, RangeSet,
};
pub use card::{Amount, AmountError, Cents, Invoice, RateCard, Total};
pub use item::{Item, KeyAt, Pool, QueryItem, Shown, Wrapper};
pub use limits::{
    MAX_REPORTED_POSITIONS, MOST_INVOICE_KEYS, MOST_ITEMS, MOST_KEY_BYTES, MOST_POOL_BYTES,
    MOST_REPORT_BYTES, MOST_ROW_BYTES, POSITION_KEY_BYTES,
};
pub use lists::{
    collect_into, insert, insert_item, intersect, intersect_many_into, intersect_many_ordered,
    Counts, Lists, Pair,
};
pub use positions::{position_of, PositionIntervals, PositionMismatch, Ranges, RefetchPlan, Span};
pub use quantities::{LogPosition, RowCount};
pub use refusal::{Reason, Refusal, Side};
pub use sheet::{Sheet, SheetCause, SheetError, SheetFault};

/// These may get more fields in a later version. So they are taken apart with `..`, and not without.
///
/// ```
/// fn apart(fernsponge::Refusal { number: _, side: _, index: _, .. }: fernsponge::Refusal) {}
/// ```
///
/// ```compile_fail,E0638
/// fn apart(fernsponge::Refusal { number: _, side: _, index: _ }: fernsponge::Refusal) {}
/// ```
///
/// ```
/// fn apart(fernsponge::KeyContainment { included: _, on_bounds_not_included: _, .. }: fernsponge::KeyContainment) {}
/// ```
///
/// ```compile_fail,E0638
/// fn apart(fernsponge::KeyContainment { included: _, on_bounds_not_included: _ }: fernsponge::KeyContainment) {}
/// ```
///
/// ```
/// fn apart(fernsponge::Pair { shared: _, ours_left: _, ours_right: _, theirs_left: _, theirs_right: _, .. }: fernsponge::Pair) {}
/// ```
///
/// ```compile_fail,E0638
/// fn apart(fernsponge::Pair { shared: _, ours_left: _, ours_right: _, theirs_left: _, theirs_right: _ }: fernsponge::Pair) {}
/// ```
#[cfg(doctest)]
struct MayGrow;
