//! The detailed texts of refusals, as `{:#}` writes them: each sentence once, whole; and that number, side and index stay what the library has said, whatever a text names.

use fernsponge::*;
use std::collections::HashSet;

/// A key by offset and length.
fn key(offset: u32, length: u32) -> KeyAt {
    KeyAt { offset, length }
}

/// An item of code, wrapper, and the offset and length of both keys.
fn item(code: u32, wrapper: u32, start: (u32, u32), end: (u32, u32)) -> Item {
    Item::from_words([code, wrapper, start.0, start.1, end.0, end.1])
}

/// A call was refused with this number, side and index, and this detailed text, which has the number at its end.
#[track_caller]
fn refused<T>(answer: Result<T, Refusal>, told: (u8, Side, u64), text: &str) {
    let refusal = answer.map(|_| ()).unwrap_err();
    assert_eq!((refusal.number, refusal.side, refusal.index), told);
    assert_eq!(
        format!("{refusal:#}"),
        format!("{text} (refusal {})", told.0)
    );
    // without it the text is the general one
    let (number, side, index) = told;
    assert_eq!(
        refusal.to_string(),
        Refusal::new(number, side, index).to_string()
    );
}

const OURS: Side = Side::Ours;
const THEIRS: Side = Side::Theirs;

/// Ten bytes, 0 to 9.
const POOL: [u8; 10] = [0, 1, 2, 3, 4, 5, 6, 7, 8, 9];

#[test]
fn general_texts() {
    for (number, side, text) in [
        (
            1,
            OURS,
            "our item 3: malformed: an unknown code or wrapper, a word of an absent key that is not 0, a list, pool or count beyond its limit, \
             an odd number of words, or not one amount for each item of a card (refusal 1)",
        ),
        (2, OURS, "our item 3: a key of it is longer than 255 bytes or reaches past the pool (refusal 2)"),
        (
            2,
            THEIRS,
            "their item or invoice key 3: a key is longer than 255 bytes or reaches past the pool (refusal 2)",
        ),
        (3, THEIRS, "their item 3: its start is above its end, or they are equal and one of them is left out (refusal 3)"),
        (4, OURS, "our item 3: it does not stand in order after the items before it (refusal 4)"),
        (
            5,
            OURS,
            "our item 3: a wrapped item cannot ask for positions, and has no row in a sheet (refusal 5)",
        ),
        (6, OURS, "the result needs more room than was lent (refusal 6)"),
        (7, OURS, "our item 3: a position key has exactly 8 bytes (refusal 7)"),
        (
            8,
            THEIRS,
            "their position or span 3: positions ascend strictly, and a span neither ends before its start nor starts before the end of the \
             one before it (refusal 8)",
        ),
        (
            9,
            OURS,
            "our interval 3: intervals are not empty, ascend, and stand apart from each other; where the index is their number, the stored \
             total is not theirs (refusal 9)",
        ),
        (
            12,
            OURS,
            "row 3 of the sheet is bad: a row is an item's name, its start key and its end key, and ends in CR LF (refusal 12)",
        ),
        (14, OURS, "our amount 3: it is not from -100,000,000 to 100,000,000 currency units (refusal 14)"),
        (15, THEIRS, "an invoice has at most 1,000 keys (refusal 15)"),
        (16, OURS, "windows of at most 0 rows can fetch nothing (refusal 16)"),
        (13, OURS, "our input 3: refused for a reason that this version does not know (refusal 13)"),
    ] {
        let refusal = Refusal::new(number, side, 3);
        assert_eq!(format!("{refusal:#}"), text);
        // one of them is shorter without it
        let short = text.replace("is above its end, or they are equal and one of them is left out", "stands above its end");
        assert_eq!(refusal.to_string(), short);
        let returned = u64::from(number) + 256 * (side == THEIRS) as u64 + 65_536 * 3;
        assert_eq!(Refusal::from_number(returned), Err(refusal));
    }
}

#[test]
fn what_a_text_names_is_no_part_of_a_refusal() {
    let named = check_list(&[7; 70_000], &[], OURS).unwrap_err();
    let general = Refusal::new(1, OURS, 0);
    assert_ne!(format!("{named:#}"), format!("{general:#}"));
    assert_eq!(named, general);
    assert_eq!(HashSet::from([named, general]).len(), 1);
}

#[test]
fn pools() {
    let long = [7; 70_000];
    let text = "the pool has 70,000 bytes, and a pool has at most 65,536";
    let told = (1, OURS, 0);
    let full: Item = QueryItem::RangeFull.into();
    refused(to_range_set(&long, full), told, text);
    let range = to_range_set(&POOL, full).unwrap();
    refused(to_query_item(&long, range), told, text);
    refused(could_contain_key(&long, full, &[]), told, text);
    refused(
        could_have_items_in_direction(&long, full, &[], Direction::LeftOf),
        told,
        text,
    );
    refused(check_list(&long, &[], THEIRS), told, text);
    refused(find_item(&long, &[], &[]), told, text);
    refused(intersect(&long, full, full), told, text);
    refused(intersect_many_ordered(&long, &[], &[]), told, text);
    refused(insert(&long, &mut vec![], full), told, text);
    refused(Sheet::write(&long, &[]), told, text);
    refused(RateCard::new(&long, &[], &[]).check(), told, text);
    refused(RateCard::new(&long, &[], &[]).rate(&[]), told, text);
    refused(
        PositionIntervals::from_query_items(&long, &[], 1),
        told,
        text,
    );
    refused(
        collect_into(&long, &mut [], &mut [], &mut []),
        told,
        "the old pool has 70,000 bytes, and a pool has at most 65,536",
    );
    refused(
        collect_into(&POOL, &mut [0; 65_537], &mut [], &mut []),
        told,
        "the fresh pool has 65,537 bytes, and a pool has at most 65,536",
    );

    let mut pool = Pool::new();
    for number in 0..257_u16 {
        let key = [&number.to_be_bytes()[..], &[7; 253]].concat();
        pool.add(&key).unwrap();
    }
    refused(
        pool.add(b"ab"),
        told,
        "the pool has 65,535 bytes, the new key 2, and a pool has at most 65,536",
    );
    refused(
        pool.add(&[7; 300]),
        (2, OURS, 0),
        "the new key: it has 300 bytes, and a key has at most 255",
    );
    refused(
        pool.add_once(b"ab"),
        told,
        "the pool has 65,535 bytes, the new key 2, and a pool has at most 65,536",
    );
    refused(
        pool.add_once(&[7; 300]),
        (2, OURS, 0),
        "the new key: it has 300 bytes, and a key has at most 255",
    );
}

#[test]
fn lengths_of_lists() {
    let items = [Item::default(); 2_049];
    let ours = "our list has 2,049 items, and a list has at most 2,048";
    let theirs = "their list has 2,049 items, and a list has at most 2,048";
    refused(check_list(&POOL, &items, OURS), (1, OURS, 0), ours);
    refused(check_list(&POOL, &items, THEIRS), (1, THEIRS, 0), theirs);
    refused(find_item(&POOL, &items, &[]), (1, OURS, 0), ours);
    refused(
        intersect_many_ordered(&POOL, &[], &items),
        (1, THEIRS, 0),
        theirs,
    );
    refused(Sheet::write(&POOL, &items), (1, OURS, 0), ours);
    refused(
        RateCard::new(&POOL, &items, &[]).check(),
        (1, OURS, 0),
        ours,
    );
    refused(
        PositionIntervals::from_query_items(&POOL, &items, 1),
        (1, OURS, 0),
        ours,
    );
    refused(
        insert(&POOL, &mut items.to_vec(), items[0]),
        (1, OURS, 0),
        ours,
    );
    let mut pool = Pool::new();
    refused(
        pool.collect(&mut [], &mut items.clone()),
        (1, THEIRS, 0),
        theirs,
    );
    refused(
        insert_item(&POOL, &mut [Item::default(); 4], 5, items[0]),
        (1, OURS, 0),
        "the list is said to have 5 items, and 4 were lent",
    );
}

#[test]
fn items() {
    let good = item(0, 0, (1, 1), (0, 0));
    for (bad, number, fault) in [
        (item(12, 0, (1, 1), (0, 0)), 1, "its code is 12, and codes are 0 to 9"),
        (item(1, 7, (1, 1), (2, 1)), 1, "its wrapper is 7, and wrappers are 0 to 3"),
        (
            item(0, 0, (1, 1), (5, 1)),
            1,
            "a Key has no end key, so that offset and length of one are 0, and here they are 5 and 1",
        ),
        (
            item(5, 0, (3, 0), (5, 1)),
            1,
            "a RangeTo has no start key, so that offset and length of one are 0, and here they are 3 and 0",
        ),
        (item(1, 0, (1, 300), (2, 1)), 2, "its start key has 300 bytes, and a key has at most 255"),
        (item(1, 0, (1, 1), (8, 3)), 2, "its end key is 3 bytes from offset 8 on, and the pool has 10 bytes"),
        (item(1, 0, (5, 1), (2, 1)), 3, "its start is above its end, or they are equal and one of them is left out"),
    ] {
        let text = |name: &str| format!("{name}: {fault}");
        refused(check_list(&POOL, &[good, bad], OURS), (number, OURS, 1), &text("our item 1"));
        refused(intersect(&POOL, good, bad), (number, THEIRS, 0), &text("their item 0"));
        refused(insert(&POOL, &mut vec![], bad), (number, THEIRS, 0), &text("the new item"));
        if number < 3 {
            refused(to_range_set(&POOL, bad), (number, OURS, 0), &text("the item"));
            let (mut ours, mut theirs) = ([good], [good, bad]);
            let collected = collect_into(&POOL, &mut [0; 9], &mut ours, &mut theirs);
            refused(collected, (number, THEIRS, 1), &text("their item 1"));
        }
    }
}

#[test]
fn ranges_by_boundaries() {
    let [inclusive, unbounded] = [BoundaryKind::Inclusive, BoundaryKind::UnboundedEnd];
    let range = |start, end: (BoundaryKind, KeyAt)| RangeSet {
        start: Boundary {
            kind: inclusive,
            key: start,
        },
        end: Boundary {
            kind: end.0,
            key: end.1,
        },
    };
    refused(
        to_query_item(&POOL, range(key(1, 1), (unbounded, key(5, 1)))),
        (1, OURS, 0),
        "the range: its end is unbounded, so that offset and length of a key there are 0, and here they are 5 and 1",
    );
    refused(
        to_query_item(&POOL, range(key(11, 0), (unbounded, key(0, 0)))),
        (2, OURS, 0),
        "the range: its start key is 0 bytes from offset 11 on, and the pool has 10 bytes",
    );
}

#[test]
fn orders_and_wrappers() {
    let (one, five) = (item(0, 0, (1, 1), (0, 0)), item(0, 0, (5, 1), (0, 0)));
    refused(
        intersect_many_ordered(&POOL, &[], &[five, one]),
        (4, THEIRS, 1),
        "their item 1: it does not start above the end of the item before it",
    );
    refused(
        insert(&POOL, &mut vec![five, one], one),
        (4, OURS, 1),
        "our item 1: it sorts below an item before it, is equal to one, or is plain and meets a plain one",
    );
    let wrapped = item(3, 3, (0, 0), (0, 0));
    refused(
        PositionIntervals::from_query_items(&POOL, &[wrapped], 1),
        (5, OURS, 0),
        "our item 0: its wrapper is count and sum, and only plain items ask for positions",
    );
    refused(
        Sheet::write(&POOL, &[one, item(3, 2, (0, 0), (0, 0))]),
        (5, OURS, 1),
        "our item 1: its wrapper is sum, and only plain items have a row in a sheet",
    );
}

#[test]
fn rooms() {
    let (one, five, nine) = (
        item(0, 0, (1, 1), (0, 0)),
        item(0, 0, (5, 1), (0, 0)),
        item(0, 0, (9, 1), (0, 0)),
    );
    let told = (6, OURS, 0);
    refused(
        intersect_many_into(&POOL, &[one, five], &[nine], [&mut [], &mut [one], &mut [one; 4]]),
        told,
        "the three lists need more room than was lent: 0 items for shared, 1 for ours and 4 for theirs; 3 are always enough for each",
    );
    refused(
        insert_item(&POOL, &mut [one, five], 2, nine),
        told,
        "the list would have 3 items, and 2 were lent",
    );
    let pool: Vec<u8> = (0..2_049_u16).flat_map(u16::to_be_bytes).collect();
    let mut list: Vec<Item> = (0..2_048)
        .map(|number| Item::key(key(2 * number, 2)))
        .collect();
    refused(
        insert(&pool, &mut list, Item::key(key(4_096, 2))),
        told,
        "the list would have 2,049 items, and a list has at most 2,048",
    );
    refused(
        collect_into(&POOL, &mut [0], &mut [one, five], &mut []),
        told,
        "the keys need more room than the fresh pool has, which is 1 byte",
    );
    let covered = PositionIntervals::from_ranges(&[0..10]).unwrap();
    refused(
        covered.plan_refetch(&[3, 4], 4, 2),
        told,
        "the plan has more windows than the 2 that there is room for",
    );
}

#[test]
fn positions() {
    refused(
        position_of(b"short").map(|_| ()),
        (7, OURS, 0),
        "the asked key: it has 5 bytes, and a position key has 8",
    );
    refused(
        PositionIntervals::from_query_items(&POOL, &[item(1, 0, (0, 8), (1, 9))], 1),
        (7, OURS, 0),
        "our item 0: its end key has 9 bytes, and a position key has 8",
    );
    let covered = PositionIntervals::from_ranges(&[0..10]).unwrap();
    let text = "proved position 2: it is 4, and the one before it is 5: they ascend strictly";
    refused(covered.missing_from(&[1, 5, 4]), (8, THEIRS, 2), text);
    refused(covered.extra_in(&[1, 5, 4]), (8, THEIRS, 2), text);
    refused(covered.plan_refetch(&[1, 5, 4], 4, 9), (8, THEIRS, 2), text);
    refused(
        RefetchPlan::default().check(&covered, &[1, 5, 4], 4),
        (8, THEIRS, 2),
        text,
    );
    let span = |start, end| Span { start, end };
    refused(
        covered.missing_from_spans(&[span(1, 1), span(7, 5)]),
        (8, THEIRS, 1),
        "span 1: it starts at 7 and ends at 5: a span does not end below its start",
    );
    refused(
        covered.missing_from_spans(&[span(1, 7), span(5, 8)]),
        (8, THEIRS, 1),
        "span 1: it starts at 5, and the one before it ends at 7: a span does not start below that",
    );
    refused(
        PositionIntervals::from_ranges(&[0..3, 5..5]),
        (9, OURS, 1),
        "interval 1: it starts at 5 and ends at 5: an interval has a position at least",
    );
    refused(
        PositionIntervals::from_ranges(&[0..5, 5..9]),
        (9, OURS, 1),
        "interval 1: it starts at 5, and the one before it ends at 5: an interval starts above that",
    );
    refused(
        PositionIntervals::from_stored(vec![0, 5, 7, 9, 3], 3, 7),
        (1, OURS, 0),
        "the stored list is said to have 3 pairs, and there are words for 2",
    );
    refused(
        PositionIntervals::from_stored(vec![0, 5, 7, 9, 3], 2, 8),
        (9, OURS, 2),
        "the stored total is 8, and the intervals cover 7",
    );
}

#[test]
fn cards_and_invoices() {
    let items = [item(0, 0, (1, 1), (0, 0))];
    let amounts = [Amount::MAX; 2];
    refused(
        RateCard::new(&POOL, &items, &amounts).rate(&[]),
        (1, OURS, 0),
        "the card has 1 item and 2 amounts, and has to have one for each item",
    );
    let card = RateCard::new(&POOL, &items, &amounts[..1]);
    refused(
        card.invoice(&[key(1, 1), key(0, 256)]),
        (2, THEIRS, 1),
        "key 1 of the invoice: it has 256 bytes, and a key has at most 255",
    );
    refused(
        card.invoice(&[key(9, 2)]),
        (2, THEIRS, 0),
        "key 0 of the invoice: it is 2 bytes from offset 9 on, and the pool has 10 bytes",
    );
    refused(
        card.invoice(&[key(1, 1); 1_001]),
        (15, THEIRS, 0),
        "the invoice has 1,001 keys, and an invoice has at most 1,000",
    );
}

#[test]
fn sheets() {
    let long = format!("Key,05,\r\nKey,{},\r\n", "05".repeat(256));
    let error = Sheet::read(long.as_bytes()).unwrap_err();
    refused::<()>(
        Err(error.refusal),
        (2, OURS, 1),
        "row 1 of the sheet: a key of it has more than 255 bytes",
    );
    let rows = "RangeFull,,\r\n".repeat(2_050);
    refused::<()>(
        Err(Sheet::read(rows.as_bytes()).unwrap_err().refusal),
        (6, OURS, 0),
        "the sheet has 2,050 rows, and a list has at most 2,048",
    );
    let mut pool = Pool::new();
    for number in 0..256_u16 {
        let key = [&number.to_be_bytes()[..], &[7; 253]].concat();
        pool.add(&key).unwrap();
    }
    let keys = format!("Key,{},\r\n", "05".repeat(100)).repeat(3);
    refused::<()>(
        Err(Sheet::read_into(keys.as_bytes(), &mut pool).unwrap_err().refusal),
        (6, OURS, 0),
        "the pool has 65,280 bytes before the keys of the sheet, and would have more than 65,536 with them",
    );
    // of a refusal that comes from elsewhere nothing is known
    let error = SheetError::new(Refusal::new(6, OURS, 0), b"");
    assert_eq!(
        format!("{error:#}"),
        "no room: a sheet has at most 2,048 rows, and the pool that its keys go to at most 65,536 bytes (refusal 6)"
    );
    assert_eq!(error.to_string(), format!("{error:#}"));
}
