//! What the crate's own types do: items of each kind, pools that have each key once, ranges from both ends, positions and numbers of rows.

use fernsponge::*;
use std::collections::HashSet;

fn key(offset: u32, length: u32) -> KeyAt {
    KeyAt { offset, length }
}

#[test]
fn an_item_of_each_kind() {
    let (a, b) = (key(1, 2), key(3, 4));
    for (item, range) in [
        (Item::key(a), QueryItem::Key(a)),
        (Item::range(a, b), QueryItem::Range(a, b)),
        (Item::range_inclusive(a, b), QueryItem::RangeInclusive(a, b)),
        (Item::range_full(), QueryItem::RangeFull),
        (Item::range_from(a), QueryItem::RangeFrom(a)),
        (Item::range_to(b), QueryItem::RangeTo(b)),
        (Item::range_to_inclusive(b), QueryItem::RangeToInclusive(b)),
        (Item::range_after(a), QueryItem::RangeAfter(a)),
        (Item::range_after_to(a, b), QueryItem::RangeAfterTo(a, b)),
        (
            Item::range_after_to_inclusive(a, b),
            QueryItem::RangeAfterToInclusive(a, b),
        ),
    ] {
        assert_eq!((item, item.range_of()), (range.into(), Some(range)));
        assert_eq!(item.wrapper(), Some(Wrapper::Plain));
    }
}

/// The keys of so many lanes, of some 16 bytes each.
fn lanes(count: usize) -> Vec<Vec<u8>> {
    let lane = |number| format!("DE-FR/{number:010}").into_bytes();
    (0..count).map(lane).collect()
}

#[test]
fn two_lists_of_the_same_keys_fit_once() {
    let mut pool = Pool::new();
    let keys = lanes(4_000);
    let [ours, theirs] = [0, 1].map(|_| {
        let places = keys.iter().map(|key| pool.add_once(key));
        places.collect::<Result<Vec<_>, _>>().unwrap()
    });
    assert_eq!(ours, theirs);
    assert_eq!(pool.len(), 64_000);
    for (place, key) in ours.iter().zip(&keys) {
        assert_eq!(place.bytes(&pool), key);
    }
    // a full pool takes the keys that it has, and the empty one
    for number in 0..96_u8 {
        pool.add_once(&[number; 16]).unwrap();
    }
    assert_eq!(pool.len(), 65_536);
    assert_eq!(pool.add_once(&keys[7]), Ok(ours[7]));
    assert_eq!(pool.add_once(&[1]), Err(Refusal::new(1, Side::Ours, 0)));
    let empty = pool.add_once(&[]).unwrap();
    assert_eq!((pool.add_once(&[]), empty.length), (Ok(empty), 0));
}

#[test]
fn a_key_is_found_by_its_bytes_alone() {
    let mut pool = Pool::new();
    let whole = pool.add_once(b"abc").unwrap();
    // a part of a key that stands there, and a longer one, are keys of their own
    let (part, longer) = (
        pool.add_once(b"ab").unwrap(),
        pool.add_once(b"abcd").unwrap(),
    );
    assert_eq!([whole, part, longer], [key(0, 3), key(3, 2), key(5, 4)]);
    assert_eq!(&*pool, b"abcababcd");
}

#[test]
fn keys_are_found_after_a_collection() {
    let mut pool = Pool::new();
    let [a, b, c] = [b"aa", b"bb", b"cc"].map(|key| pool.add_once(key).unwrap());
    let (mut ours, mut theirs) = ([Item::key(c)], [Item::range(b, c)]);
    pool.collect(&mut ours, &mut theirs).unwrap();
    assert_eq!(&*pool, b"ccbb");
    // the kept ones stand where the items say, and the dropped one is added anew
    assert_eq!(ours, [Item::key(pool.add_once(b"cc").unwrap())]);
    let (b_now, c_now) = (pool.add_once(b"bb").unwrap(), pool.add_once(b"cc").unwrap());
    assert_eq!(theirs, [Item::range(b_now, c_now)]);
    let a_now = pool.add_once(b"aa").unwrap();
    assert_eq!((a, a_now), (key(0, 2), key(4, 2)));
    // a refused collection leaves what is known
    let before = pool.bytes().to_vec();
    assert!(pool.collect(&mut [Item::key(key(5, 2))], &mut []).is_err());
    assert_eq!(
        (pool.add_once(b"aa"), pool.bytes()),
        (Ok(a_now), &before[..])
    );
}

#[test]
fn keys_are_found_beside_a_sheet_and_in_a_copy() {
    let mut pool = Pool::new();
    let first = pool.add_once(&[0x05]).unwrap();
    let items = Sheet::read_into(b"Range,05,07\r\n", &mut pool).unwrap();
    assert_eq!(items, [Item::range(key(1, 1), key(2, 1))]);
    assert_eq!(pool.add_once(&[0x05]), Ok(first));
    // a sheet's keys are not looked for
    assert_eq!(pool.add_once(&[0x07]), Ok(key(3, 1)));
    // a refused sheet leaves what is known
    assert!(Sheet::read_into(b"Key,5,", &mut pool).is_err());
    let mut copy = pool.clone();
    for pool in [&mut pool, &mut copy] {
        assert_eq!(pool.add_once(&[0x07]), Ok(key(3, 1)));
        assert_eq!(pool.bytes(), [5, 5, 7, 7]);
    }
    // what one of them gets, the other does not know
    copy.add_once(&[0x09]).unwrap();
    assert_eq!(pool.add_once(&[0x08]), Ok(key(4, 1)));
    assert_eq!(pool.add_once(&[0x09]), Ok(key(5, 1)));
    assert_eq!(
        (pool.bytes(), copy.bytes()),
        (&[5, 5, 7, 7, 8, 9][..], &[5, 5, 7, 7, 9][..])
    );
    assert_eq!(format!("{copy:?}"), "Pool([5, 5, 7, 7, 9])");
}

#[test]
fn ranges_from_both_ends() {
    let covered = PositionIntervals::from_ranges(&[0..3, 5..9, 20..24]).unwrap();
    let mut ranges = covered.iter();
    assert_eq!((ranges.len(), ranges.size_hint()), (3, (3, Some(3))));
    assert_eq!(ranges.next_back(), Some(20..24));
    assert_eq!((ranges.len(), ranges.next()), (2, Some(0..3)));
    assert_eq!((ranges.next(), ranges.len()), (Some(5..9), 0));
    assert_eq!(
        [ranges.next(), ranges.next_back(), ranges.next()],
        [None, None, None]
    );
    assert!(covered.iter().rev().eq([20..24, 5..9, 0..3]));
    let plan = RefetchPlan::from_windows(&[5..9, 0..3]);
    assert_eq!(plan.windows().len(), plan.len());
    assert!(plan.windows().rev().eq([0..3, 5..9]));
}

#[test]
fn positions_and_numbers_of_rows() {
    let position = LogPosition::from(7);
    assert_eq!(
        (position, u64::from(position), position.0),
        (LogPosition(7), 7, 7)
    );
    assert!(position == 7 && position < 8 && position > LogPosition(6));
    assert_eq!(
        (LogPosition::default(), RowCount::default()),
        (LogPosition(0), RowCount(0))
    );
    assert_eq!(
        format!("{position} {position:>3} {:03}", RowCount(5)),
        "7   7 005"
    );
    assert_eq!(HashSet::from([RowCount(1), 1.into(), RowCount(2)]).len(), 2);

    // each call takes either a number or what it stands for
    let mut covered = PositionIntervals::from_stored(vec![0, 10], 1, RowCount(10)).unwrap();
    covered.cover(LogPosition(20)..LogPosition(24)).unwrap();
    covered.uncover(3..5_u64).unwrap();
    assert_eq!(covered.len(), 12);
    assert!(covered.contains(LogPosition(20)) && !covered.contains(4));
    let missing = covered.missing_from(&[0, 20]).unwrap();
    assert_eq!(missing.total(), 10);
    assert_eq!(missing.examples()[..3], [1, 2, 5]);
    assert_eq!(missing.examples()[3], LogPosition(6));
    let plan = covered.plan_refetch(&[0, 20], RowCount(5), 9).unwrap();
    assert_eq!(plan, covered.plan_refetch(&[0, 20], 5, 9).unwrap());
    assert_eq!(plan.check(&covered, &[0, 20], RowCount(5)), Ok(true));
}

#[test]
fn reports_are_compared_and_kept() {
    let covered = PositionIntervals::from_ranges(&[0..20]).unwrap();
    let report = covered.missing_from(&[3]).unwrap();
    assert_eq!(report, covered.missing_from(&[3]).unwrap());
    assert_ne!(report, covered.missing_from(&[4]).unwrap());
    assert_eq!(
        report.examples().len(),
        PositionMismatch::MAX_REPORTED_POSITIONS
    );
    let kept = HashSet::from([report, report, PositionMismatch::empty()]);
    assert_eq!(kept.len(), 2);
}

#[test]
fn what_stands_at_a_limit() {
    // the longest text of a report, and the longest row of a sheet
    let report = words::Report {
        total: u64::MAX,
        count: MAX_REPORTED_POSITIONS as u64,
        examples: [u64::MAX; MAX_REPORTED_POSITIONS],
    };
    let (mut text, mut length) = ([0; MOST_REPORT_BYTES], 0);
    assert_eq!(words::describe(&report, &mut text, &mut length), 0);
    assert_eq!(length as usize, MOST_REPORT_BYTES);
    let mut pool = Pool::new();
    let (low, high) = (
        pool.add(&[1; MOST_KEY_BYTES]).unwrap(),
        pool.add(&[2; MOST_KEY_BYTES]).unwrap(),
    );
    let row = Sheet::write(&pool, &[Item::range_after_to_inclusive(low, high)]).unwrap();
    assert_eq!(row.len(), MOST_ROW_BYTES);
    // as many items, bytes and keys as there may be are taken, and no more
    let pool = vec![0; MOST_POOL_BYTES];
    assert_eq!(check_list(&pool, &[], Side::Ours), Ok(()));
    assert!(Sheet::write(&pool, &[Item::range_full(); MOST_ITEMS]).is_ok());
    assert!(Sheet::write(&pool, &[Item::range_full(); MOST_ITEMS + 1]).is_err());
    let card = RateCard::new(&pool, &[], &[]);
    assert!(card.invoice(&[key(0, 1); MOST_INVOICE_KEYS]).is_ok());
    assert!(card.invoice(&[key(0, 1); MOST_INVOICE_KEYS + 1]).is_err());
    assert!(position_of(&[0; POSITION_KEY_BYTES]).is_ok());
}
