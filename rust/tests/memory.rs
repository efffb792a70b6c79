//! Covered positions where the system grants no memory for one interval more, a pool where it grants none for a fresh one, and sheets where it
//! grants none for the items, the keys or the text; and that sheets ask for no more memory than they can need.

use fernsponge::{Item, KeyAt, Pool, PositionIntervals, Reason, Sheet, SheetCause, Side};
use std::{
    alloc::{GlobalAlloc, Layout, System},
    cell::Cell,
};

thread_local! {
    /// The most bytes that this thread is granted at once.
    static GRANTED: Cell<usize> = const { Cell::new(usize::MAX) };
    /// The most bytes that it has asked for at once.
    static ASKED: Cell<usize> = const { Cell::new(0) };
}

/// The system's memory, but no more at once than is granted.
struct Scarce;

// SAFETY: memory is the system's, or there is none
unsafe impl GlobalAlloc for Scarce {
    unsafe fn alloc(&self, layout: Layout) -> *mut u8 {
        ASKED.set(ASKED.get().max(layout.size()));
        if layout.size() > GRANTED.get() {
            return std::ptr::null_mut();
        }
        System.alloc(layout)
    }

    unsafe fn dealloc(&self, at: *mut u8, layout: Layout) {
        System.dealloc(at, layout);
    }
}

#[global_allocator]
static MEMORY: Scarce = Scarce;

/// What is done where so many bytes are granted at once.
fn with_granted<T>(bytes: usize, act: impl FnOnce() -> T) -> T {
    GRANTED.set(bytes);
    let done = act();
    GRANTED.set(usize::MAX);
    done
}

/// What is done where 300,000 bytes are granted at once.
fn with_scarce<T>(act: impl FnOnce() -> T) -> T {
    with_granted(300_000, act)
}

#[test]
fn no_memory_for_one_more() {
    // 10,000 pairs in room for as many; room for twice as many takes 320,000 bytes
    let words: Vec<u64> = (0..10_000)
        .flat_map(|row| [10 * row, 10 * row + 5])
        .collect();
    let mut covered = PositionIntervals::from_stored(words.clone(), 10_000, 50_000).unwrap();
    // nothing is asserted while memory is scarce: to tell of a failure takes some
    let refused = with_scarce(|| [covered.cover(7..8), covered.uncover(2..3)]);
    let [cover, uncover] = refused.map(Result::unwrap_err);
    assert_eq!((cover.reason(), uncover), (Reason::NoRoom, cover));
    assert_eq!((covered.pair_words(), covered.len()), (&words[..], 50_000));
    // what needs no room is done all the same
    let done = with_scarce(|| covered.cover(5..10).map(|()| covered.len()));
    assert_eq!(done, Ok(50_005));
    let done = with_scarce(|| covered.uncover(2..3).map(|()| covered.len()));
    assert_eq!(done, Ok(50_004));
    covered.cover(99_998..99_999).unwrap();
    assert_eq!(covered.len(), 50_005);
    assert_eq!(covered.into_stored().0.len(), 40_000);
}

#[test]
fn no_memory_for_a_fresh_pool() {
    let mut pool = Pool::new();
    pool.add(b"named by nothing").unwrap();
    let mut list = [Item::key(pool.add(b"DE-FR/05").unwrap())];
    let before = (pool.bytes().to_vec(), list);
    let refusal = with_granted(65_535, || pool.collect(&mut list, &mut [])).unwrap_err();
    assert_eq!(
        (refusal.reason(), refusal.side, refusal.index),
        (Reason::NoRoom, Side::Ours, 0)
    );
    assert_eq!((pool.bytes().to_vec(), list), before);
    // 65,536 bytes are enough
    assert_eq!(
        with_granted(65_536, || pool.collect(&mut list, &mut [])),
        Ok(())
    );
    assert_eq!(pool.bytes(), b"DE-FR/05");
    assert_eq!(list[0].words(), [0, 0, 0, 8, 0, 0]);
}

#[test]
fn no_memory_for_a_sheet() {
    // 50 rows of 40 bytes: asked for are 333 items of 24 bytes, a row having at least six, and 1,000 bytes for keys
    let text = format!("RangeAfter,{},\r\n", "5A".repeat(13)).repeat(50);
    let (text, bad) = (text.as_bytes(), text.replacen("5A", "5", 1));
    assert_eq!(text.len(), 2_000);
    let refusal = with_granted(7_991, || Sheet::read(text))
        .unwrap_err()
        .refusal;
    assert_eq!(
        (refusal.reason(), refusal.side, refusal.index),
        (Reason::NoRoom, Side::Ours, 0)
    );
    // a bad row is told all the same
    let fault = with_granted(0, || Sheet::read(bad.as_bytes()))
        .unwrap_err()
        .fault;
    assert_eq!(fault.unwrap().cause, SheetCause::OddDigits);
    let sheet = with_granted(7_992, || Sheet::read(text)).unwrap();
    assert_eq!((sheet.items.len(), sheet.pool.bytes().len()), (50, 650));

    // a pool of 60,000 bytes, with no room for more, that cannot grow by 1,000
    let mut pool = Pool::new();
    for _ in 0..240 {
        pool.add(&[7; 250]).unwrap();
    }
    let mut pool = pool.clone();
    let before = pool.bytes().to_vec();
    let refusal = with_granted(60_999, || Sheet::read_into(text, &mut pool))
        .unwrap_err()
        .refusal;
    assert_eq!(refusal.reason(), Reason::NoRoom);
    assert_eq!(pool.bytes(), before);
    let items = with_granted(61_000, || Sheet::read_into(text, &mut pool)).unwrap();
    assert_eq!((items.len(), pool.bytes().len()), (50, 60_650));

    // the text takes as many bytes as it has
    let written = with_granted(1_999, || Sheet::write(pool.bytes(), &items));
    assert_eq!(written.unwrap_err().reason(), Reason::NoRoom);
    let written = with_granted(2_000, || Sheet::write(pool.bytes(), &items)).unwrap();
    assert_eq!(written.as_bytes(), text);
}

/// The most bytes that something asks for at once.
fn most_asked<T>(act: impl FnOnce() -> T) -> usize {
    ASKED.set(0);
    drop(act());
    ASKED.get()
}

#[test]
fn sheets_ask_for_what_they_can_need() {
    // a key that reaches past every pool, and a list that is too long, are refused before there is a text
    let long = Item::key(KeyAt {
        offset: 0,
        length: u32::MAX,
    });
    assert!(most_asked(|| Sheet::write(&[], &[long])) < 2_000);
    let key = Item::key(KeyAt {
        offset: 0,
        length: 1,
    });
    let items = vec![key; 100_000];
    assert!(most_asked(|| Sheet::write(&[1], &items)) < 30_000);
    // a text of any length has at most 2,048 items and 65,536 bytes of keys
    let text = vec![b'x'; 10_000_000];
    assert!(most_asked(|| Sheet::read(&text)) <= 65_536);
}
