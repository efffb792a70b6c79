//! What is told where the system grants no memory: for one interval more, a fresh pool, the items, the keys or the text of a sheet, and the windows of
//! a plan; and that such a refusal is known from one for want of room.

use fernsponge::{Item, Pool, PositionIntervals, Reason, Refusal, Sheet};
use std::{
    alloc::{GlobalAlloc, Layout, System},
    cell::Cell,
};

thread_local! {
    /// The most bytes that this thread is granted at once.
    static GRANTED: Cell<usize> = const { Cell::new(usize::MAX) };
}

/// The system's memory, but no more at once than is granted.
struct Scarce;

// SAFETY: memory is the system's, or there is none
unsafe impl GlobalAlloc for Scarce {
    unsafe fn alloc(&self, layout: Layout) -> *mut u8 {
        if layout.size() > GRANTED.get() {
            return std::ptr::null_mut();
        }
        System.alloc(layout)
    }

    unsafe fn dealloc(&self, at: *mut u8, layout: Layout) {
        System.dealloc(at, layout);
    }
}

#[global_allocator]
static MEMORY: Scarce = Scarce;

/// What is done where so many bytes are granted at once.
fn with_granted<T>(bytes: usize, act: impl FnOnce() -> T) -> T {
    GRANTED.set(bytes);
    let done = act();
    GRANTED.set(usize::MAX);
    done
}

/// A call was refused for want of memory, with this detailed text.
#[track_caller]
fn lacks_memory(refusal: Refusal, text: &str) {
    assert_eq!(refusal.reason(), Reason::NoRoom);
    assert!(refusal.lacks_memory());
    assert_eq!(format!("{refusal:#}"), text);
}

#[test]
fn no_memory_for_one_more() {
    // 10,000 pairs in room for as many; room for twice as many takes 320,000 bytes
    let words: Vec<u64> = (0..10_000)
        .flat_map(|row| [10 * row, 10 * row + 5])
        .collect();
    let mut covered = PositionIntervals::from_stored(words, 10_000, 50_000).unwrap();
    // nothing is asserted while memory is scarce: to tell of a failure takes some
    let refused = with_granted(300_000, || [covered.cover(7..8), covered.uncover(2..3)]);
    for refusal in refused.map(Result::unwrap_err) {
        lacks_memory(
            refusal,
            "the system has no memory for one more interval (refusal 6)",
        );
    }
}

#[test]
fn no_memory_for_a_fresh_pool() {
    let mut pool = Pool::new();
    let mut list = [Item::key(pool.add(b"DE-FR/05").unwrap())];
    let refusal = with_granted(65_535, || pool.collect(&mut list, &mut [])).unwrap_err();
    lacks_memory(
        refusal,
        "the system has no memory for a fresh pool of 65,536 bytes (refusal 6)",
    );
}

#[test]
fn no_memory_for_a_sheet() {
    // 50 rows of 40 bytes: asked for are 333 items of 24 bytes, a row having at least six, and 1,000 bytes for keys
    let text = format!("RangeAfter,{},\r\n", "5A".repeat(13)).repeat(50);
    let text = text.as_bytes();
    let error = with_granted(7_991, || Sheet::read(text)).unwrap_err();
    lacks_memory(
        error.refusal,
        "the system has no memory for the items of the sheet (refusal 6)",
    );

    // a pool of 60,000 bytes, with no room for more, that cannot grow by 1,000
    let mut pool = Pool::new();
    for number in 0..240 {
        pool.add_once(&[number; 250]).unwrap();
    }
    let mut pool = pool.clone();
    let refused = with_granted(60_999, || Sheet::read_into(text, &mut pool));
    let refusal = refused.unwrap_err().refusal;
    lacks_memory(
        refusal,
        "the system has no memory for the keys of the sheet (refusal 6)",
    );
    let items = with_granted(61_000, || Sheet::read_into(text, &mut pool)).unwrap();

    // the text takes as many bytes as it has
    let written = with_granted(1_999, || Sheet::write(pool.bytes(), &items));
    lacks_memory(
        written.unwrap_err(),
        "the system has no memory for the text of the sheet (refusal 6)",
    );
}

#[test]
fn no_memory_for_a_plan() {
    // 10,000 windows of one row each: 160,000 bytes
    let covered = PositionIntervals::from_ranges(&[0..10_000]).unwrap();
    let refused = with_granted(100_000, || covered.plan_refetch(&[], 1, 10_000));
    let refusal = refused.unwrap_err();
    assert_eq!(refusal.reason(), Reason::NoRoom);
    let text = "the system has no memory for the windows of the plan (refusal 6)";
    assert_eq!(format!("{refusal:#}"), text);
    assert!(refusal.lacks_memory());
    let short = covered.plan_refetch(&[], 1, 9_999).unwrap_err();
    assert_eq!((short, short.lacks_memory()), (refusal, false));
    let plan = with_granted(160_000, || covered.plan_refetch(&[], 1, 10_000));
    assert_eq!(plan.unwrap().len(), 10_000);
}
