//! The typed calls: that each hands its input on and takes its answer apart as it should, and that a refusal changes nothing.

use fernsponge::*;
use std::{
    collections::{BTreeSet, HashSet},
    ops::Range,
};

/// A pool of the bytes 0 to 255, so that the key of one byte b stands at offset b.
fn pool() -> Vec<u8> {
    (0..=255).collect()
}

fn at(b: u8) -> KeyAt {
    KeyAt {
        offset: b.into(),
        length: 1,
    }
}

fn shown(items: &[Item]) -> Vec<String> {
    items.iter().map(|item| item.shown(&pool())).collect()
}

#[test]
fn every_kind_there_and_back() {
    let (a, b) = (at(1), at(5));
    for range in [
        QueryItem::Key(a),
        QueryItem::Range(a, b),
        QueryItem::RangeInclusive(a, b),
        QueryItem::RangeFull,
        QueryItem::RangeFrom(a),
        QueryItem::RangeTo(b),
        QueryItem::RangeToInclusive(b),
        QueryItem::RangeAfter(a),
        QueryItem::RangeAfterTo(a, b),
        QueryItem::RangeAfterToInclusive(a, b),
    ] {
        let item = Item::from(range);
        assert_eq!(item.range_of(), Some(range));
        let set = to_range_set(&pool(), item).unwrap();
        assert_eq!(to_query_item(&pool(), set), Ok(Some(item)));
    }
    for wrapper in [
        Wrapper::Plain,
        Wrapper::Count,
        Wrapper::Sum,
        Wrapper::CountSum,
    ] {
        assert_eq!(
            Item::new(wrapper, QueryItem::RangeFull).wrapper(),
            Some(wrapper)
        );
    }
}

#[test]
fn no_list_has_what_holds_no_key() {
    // 05 00 stands behind the bytes 0 to 255, and its first byte is 05 again
    let pool = [&pool()[..], &[5, 0]].concat();
    let (five, next) = (
        KeyAt {
            offset: 256,
            length: 1,
        },
        KeyAt {
            offset: 256,
            length: 2,
        },
    );
    let empty = KeyAt {
        offset: 0,
        length: 0,
    };
    let shown = |items: &[Item]| {
        items
            .iter()
            .map(|item| item.shown(&pool))
            .collect::<Vec<_>>()
    };
    let lists = intersect_many_ordered(
        &pool,
        &[Item::from(QueryItem::RangeFull)],
        &[Item::from(QueryItem::RangeFrom(empty))],
    )
    .unwrap();
    assert_eq!(
        (shown(&lists.shared), lists.ours, lists.theirs),
        (vec!["RangeFrom -".to_string()], vec![], vec![])
    );
    // (05,05 00) is in no list, and still cuts
    let around = Item::range_inclusive(at(1), at(9));
    let lists = intersect_many_ordered(
        &pool,
        &[around],
        &[Item::from(QueryItem::RangeAfterTo(five, next))],
    )
    .unwrap();
    assert_eq!(
        shown(&lists.ours),
        ["RangeInclusive 01 05", "RangeInclusive 0500 09"]
    );
    assert_eq!((lists.shared, lists.theirs), (vec![], vec![]));
}

#[test]
fn no_item_of_two_boundaries() {
    let end = Boundary {
        kind: BoundaryKind::ExclusiveEnd,
        key: at(1),
    };
    assert_eq!(
        to_query_item(&pool(), RangeSet { start: end, end }),
        Ok(None)
    );
}

#[test]
fn an_unbounded_boundary_has_no_key() {
    use BoundaryKind::*;
    let set = |start, a, end, b| RangeSet {
        start: Boundary {
            kind: start,
            key: a,
        },
        end: Boundary { kind: end, key: b },
    };
    let key = |offset, length| KeyAt { offset, length };
    let full = set(UnboundedStart, key(0, 0), UnboundedEnd, key(0, 0));
    assert_eq!(
        to_query_item(&pool(), full),
        Ok(Some(Item::from(QueryItem::RangeFull)))
    );
    for word in [key(0, 1), key(1, 0)] {
        for range in [
            set(UnboundedStart, word, Inclusive, at(1)),
            set(Inclusive, at(1), UnboundedEnd, word),
        ] {
            let refusal = to_query_item(&pool(), range).unwrap_err();
            assert_eq!(
                (refusal.reason(), refusal.side, refusal.index),
                (Reason::Malformed, Side::Ours, 0)
            );
        }
    }
}

#[test]
fn boundaries() {
    use BoundaryKind::*;
    assert_eq!(Inclusive.invert(true), ExclusiveStart);
    assert_eq!(Inclusive.invert(false), ExclusiveEnd);
    assert_eq!(ExclusiveEnd.invert(true), Inclusive);
    assert_eq!(UnboundedEnd.invert(false), UnboundedEnd);
    assert!(compare_boundaries(Inclusive, &[5], ExclusiveStart, &[5]).is_lt());
    assert!(compare_boundaries(UnboundedStart, &[9], Inclusive, &[]).is_lt());
    assert!(compare_boundaries(Inclusive, &[5], Inclusive, &[5]).is_eq());
}

#[test]
fn the_smaller_key_itself() {
    let (a, b) = (vec![1, 2], vec![1]);
    assert!(std::ptr::eq(order_items(&a, &b), &b[..]));
    let tie = vec![1, 2];
    assert!(std::ptr::eq(order_items(&a, &tie), &tie[..]));
}

#[test]
fn directions() {
    let item = Item::from(QueryItem::RangeTo(at(3)));
    let asked = |direction| could_have_items_in_direction(&pool(), item, &[5], direction);
    assert_eq!(asked(Direction::LeftOf), Ok(true));
    assert_eq!(asked(Direction::RightOf), Ok(false));
}

#[test]
fn a_pair_on_both_sides() {
    let pair = intersect(&pool(), Item::range(at(1), at(5)), Item::key(at(3))).unwrap();
    assert_eq!(pair.shared, Some(Item::key(at(3))));
    assert_eq!(pair.ours_left, Some(Item::range(at(1), at(3))));
    assert_eq!(
        pair.ours_right,
        Some(QueryItem::RangeAfterTo(at(3), at(5)).into())
    );
    assert_eq!((pair.theirs_left, pair.theirs_right), (None, None));
}

#[test]
fn a_refused_call_changes_nothing() {
    let mark = Item::from_words([7; 6]);
    let (mut shared_out, mut ours_out, mut theirs_out) = ([mark; 2], [mark; 1], [mark; 2]);
    let refused = intersect_many_into(
        &pool(),
        &[Item::range(at(1), at(5))],
        &[Item::key(at(3))],
        [&mut shared_out, &mut ours_out, &mut theirs_out],
    );
    let refusal = refused.unwrap_err();
    assert_eq!(refusal.reason(), Reason::NoRoom);
    assert_eq!(
        refusal.to_string(),
        "the result needs more room than was lent (refusal 6)"
    );
    assert_eq!(
        (shared_out, ours_out, theirs_out),
        ([mark; 2], [mark; 1], [mark; 2])
    );

    let mut list = vec![Item::key(at(5)), Item::key(at(1))];
    let refusal = insert(&pool(), &mut list, Item::key(at(3))).unwrap_err();
    assert_eq!(
        (refusal.reason(), refusal.side, refusal.index),
        (Reason::OutOfOrder, Side::Ours, 1)
    );
    assert_eq!(list, [Item::key(at(5)), Item::key(at(1))]);
}

#[test]
fn spare_items_stay() {
    let mark = Item::from_words([7; 6]);
    let (mut shared_out, mut ours_out, mut theirs_out) = ([mark; 2], [mark; 3], [mark; 1]);
    let counts = intersect_many_into(
        &pool(),
        &[Item::range(at(1), at(5))],
        &[Item::key(at(3))],
        [&mut shared_out, &mut ours_out, &mut theirs_out],
    );
    let expected = Counts {
        shared: 1,
        ours: 2,
        theirs: 0,
    };
    assert_eq!(counts, Ok(expected));
    assert_eq!(shown(&ours_out[..2]), ["Range 01 03", "RangeAfterTo 03 05"]);
    assert_eq!(
        (shared_out[1], ours_out[2], theirs_out[0]),
        (mark, mark, mark)
    );
}

#[test]
fn lists_that_are_refused() {
    let said = |items: &[Item], side| check_list(&pool(), items, side).unwrap_err().to_string();
    assert_eq!(
        said(&[Item::key(at(5)), Item::key(at(5))], Side::Theirs),
        "their item 1: it does not stand in order after the items before it (refusal 4)"
    );
    let past = KeyAt {
        offset: 256,
        length: 1,
    };
    assert_eq!(
        said(&[Item::key(past)], Side::Ours),
        "our item 0: a key of it is longer than 255 bytes or reaches past the pool (refusal 2)"
    );
    let unknown = Item::from_words([10, 0, 0, 0, 0, 0]);
    assert_eq!(unknown.range_of(), None);
    assert!(said(&[unknown], Side::Ours).starts_with("our item 0: malformed"));
}

#[test]
fn insertion_by_hand() {
    let mut lent = [Item::key(at(5)), Item::key(at(6)), Item::from_words([7; 6])];
    let after = insert_item(&pool(), &mut lent, 2, Item::range_inclusive(at(4), at(6)));
    assert_eq!(after, Ok(1));
    assert_eq!(lent[0], Item::range_inclusive(at(4), at(6)));
    assert_eq!(lent[1], Item::default());
    assert_eq!(lent[2], Item::from_words([7; 6]));
}

#[test]
fn insertions_in_any_order() {
    let sum = Item::new(Wrapper::Sum, QueryItem::Key(at(2)));
    let saved = |items: &[Item]| {
        let mut list = vec![sum];
        for item in items {
            insert(&pool(), &mut list, *item).unwrap();
        }
        list
    };
    // the first two meet by the third alone
    let items = [
        Item::range_inclusive(at(1), at(3)),
        Item::key(at(5)),
        Item::range_inclusive(at(3), at(5)),
    ];
    for [x, y, z] in [
        [0, 1, 2],
        [0, 2, 1],
        [1, 0, 2],
        [1, 2, 0],
        [2, 0, 1],
        [2, 1, 0],
    ] {
        let list = saved(&[items[x], items[y], items[z]]);
        assert_eq!(list, [Item::range_inclusive(at(1), at(5)), sum]);
    }
    for some in [[items[0], items[1]], [items[1], items[0]]] {
        assert_eq!(saved(&some), [items[0], sum, items[1]]);
    }
    // a wrapped item and one of the same range: the later first
    let [plain, count] =
        [Wrapper::Plain, Wrapper::Count].map(|w| Item::new(w, QueryItem::Key(at(5))));
    assert_eq!(saved(&[plain, count]), [sum, count, plain]);
    assert_eq!(saved(&[count, plain]), [sum, plain, count]);
}

#[test]
fn room_in_one_order_only() {
    let (range, key) = (Item::range_inclusive(at(1), at(3)), Item::key(at(2)));
    let saved = |lent: &mut [Item], one, other| {
        let after = insert_item(&pool(), lent, lent.len(), one)?;
        insert_item(&pool(), lent, after, other)
    };
    for lent in [
        &[Item::key(at(1))][..],
        &[Item::key(at(1)), Item::key(at(9))],
    ] {
        let mut left = lent.to_vec();
        assert_eq!(saved(&mut left, range, key), Ok(lent.len()));
        assert_eq!(left[0], range);
        let mut left = lent.to_vec();
        let refused = saved(&mut left, key, range).unwrap_err();
        assert_eq!((refused.reason(), &left[..]), (Reason::NoRoom, lent));
    }
}

/// Two lists over the pool 09 09 05 06 07 05 06 03: 05 06 stands there twice, and 05 is the front of it.
fn overlapping() -> ([u8; 8], [Item; 3], [Item; 4]) {
    let ours = [[2, 0, 2, 2, 4, 1], [0, 2, 5, 2, 0, 0], [5, 0, 0, 0, 3, 0]];
    let theirs = [
        [8, 1, 7, 1, 2, 1],
        [3, 3, 0, 0, 0, 0],
        [9, 0, 8, 0, 4, 1],
        [0, 0, 7, 1, 0, 0],
    ];
    (
        [9, 9, 5, 6, 7, 5, 6, 3],
        ours.map(Item::from_words),
        theirs.map(Item::from_words),
    )
}

#[test]
fn keys_collected_in_order_of_use() {
    let (pool, mut ours, mut theirs) = overlapping();
    let shown = |pool: &[u8], ours: &[Item], theirs: &[Item]| {
        let items = [ours, theirs].concat();
        items.into_iter().map(|item| item.shown(pool)).collect()
    };
    let before: Vec<String> = shown(&pool, &ours, &theirs);
    let mut fresh = [0xEE; 7];
    let used = collect_into(&pool, &mut fresh, &mut ours, &mut theirs);
    assert_eq!(used, Ok(5));
    assert_eq!(fresh, [5, 6, 7, 3, 5, 0xEE, 0xEE]);
    // the empty keys, and the words of absent ones, are 0; codes, wrappers and lengths stay
    assert_eq!(
        ours.map(Item::words),
        [[2, 0, 0, 2, 2, 1], [0, 2, 0, 2, 0, 0], [5, 0, 0, 0, 0, 0]]
    );
    assert_eq!(
        theirs.map(Item::words),
        [
            [8, 1, 3, 1, 4, 1],
            [3, 3, 0, 0, 0, 0],
            [9, 0, 0, 0, 2, 1],
            [0, 0, 3, 1, 0, 0]
        ]
    );
    assert_eq!(shown(&fresh, &ours, &theirs), before);
    // once more, in exactly the room that is used: nothing is left to change
    let (left, left_ours, left_theirs) = (fresh, ours, theirs);
    let mut again = [0; 5];
    let used = collect_into(&left, &mut again, &mut ours, &mut theirs);
    assert_eq!((used, &again[..]), (Ok(5), &left[..5]));
    assert_eq!((ours, theirs), (left_ours, left_theirs));
    // the other way round theirs go first
    let used = collect_into(&left, &mut again, &mut theirs, &mut ours);
    assert_eq!((used, again), (Ok(5), [3, 5, 7, 5, 6]));
    assert_eq!(collect_into(&[], &mut [], &mut [], &mut []), Ok(0));
}

#[test]
fn a_collected_pool_goes_on() {
    let (mut pool, mut ours, mut theirs) = (Pool::new(), vec![], vec![]);
    let add = |pool: &mut Pool, list: &mut Vec<Item>, low: u8, high: u8| {
        let item = Item::range_inclusive(pool.add(&[0, low]).unwrap(), pool.add(&[high]).unwrap());
        insert(pool.bytes(), list, item).unwrap();
        item
    };
    for byte in 1..100 {
        add(&mut pool, &mut ours, byte, byte + 1);
    }
    let lost = add(&mut pool, &mut theirs, 50, 60);
    assert_eq!((pool.bytes().len(), ours.len()), (300, 1));
    // a list that is refused leaves the pool, and the lists, as they are
    let (before, kept) = (pool.bytes().to_vec(), ours.clone());
    let past = Item::key(KeyAt {
        offset: 300,
        length: 1,
    });
    let refusal = pool.collect(&mut ours, &mut [lost, past]).unwrap_err();
    assert_eq!(
        (refusal.reason(), refusal.side, refusal.index),
        (Reason::KeyOutside, Side::Theirs, 1)
    );
    assert_eq!((pool.bytes(), &ours), (&before[..], &kept));

    pool.collect(&mut ours, &mut theirs).unwrap();
    assert_eq!(pool.bytes(), [0, 1, 100, 0, 50, 60]);
    assert_eq!(ours[0].words(), [2, 0, 0, 2, 2, 1]);
    assert_eq!(theirs[0].words(), [2, 0, 3, 2, 5, 1]);
    // new keys go behind those
    add(&mut pool, &mut ours, 0, 101);
    assert_eq!(pool.bytes(), [0, 1, 100, 0, 50, 60, 0, 0, 101]);
    assert_eq!(ours[0].shown(pool.bytes()), "RangeInclusive 0000 65");
    // and theirs is dropped where it is not lent
    pool.collect(&mut [], &mut ours).unwrap();
    assert_eq!(pool.bytes(), [0, 0, 101]);
    pool.collect(&mut [], &mut []).unwrap();
    assert_eq!(pool.bytes(), []);
}

#[test]
fn as_many_keys_as_there_can_be() {
    // 8,192 keys of 8 bytes, named from the last to the first: a whole pool, there and after
    let mut pool = Pool::new();
    let mut keys: Vec<KeyAt> = (0..8_192u64)
        .map(|number| pool.add(&number.to_be_bytes()).unwrap())
        .collect();
    keys.reverse();
    let mut items: Vec<Item> = keys
        .chunks(2)
        .map(|pair| Item::range(pair[0], pair[1]))
        .collect();
    let (ours, theirs) = items.split_at_mut(2_048);
    // one byte more than that has no room
    let (before, last) = (pool.bytes().to_vec(), theirs[0]);
    theirs[0] = Item::from_words([1, 0, keys[4_096].offset, 9, keys[4_097].offset, 8]);
    let left = (ours.to_vec(), theirs.to_vec());
    let refusal = pool.collect(ours, theirs).unwrap_err();
    assert_eq!(
        (refusal.reason(), refusal.side, refusal.index),
        (Reason::NoRoom, Side::Ours, 0)
    );
    assert_eq!((ours.to_vec(), theirs.to_vec()), left);
    assert_eq!(pool.bytes(), before);

    theirs[0] = last;
    pool.collect(ours, theirs).unwrap();
    let turned: Vec<u8> = before.chunks(8).rev().flatten().copied().collect();
    assert_eq!(pool.bytes(), turned);
    for (number, item) in items.iter().enumerate() {
        let offset = 16 * number as u32;
        assert_eq!(item.words(), [1, 0, offset, 8, offset + 8, 8]);
    }
    // apart, keys that overlap need more bytes than before
    let (mut pool, mut lists) = (Pool::new(), [Item::default(); 2]);
    let one = pool.add(&[&[0; 100][..], &[1; 100]].concat()).unwrap();
    for (item, offset) in lists.iter_mut().zip([0, 1]) {
        *item = Item::key(KeyAt {
            offset,
            length: one.length - 1,
        });
    }
    pool.collect(&mut lists, &mut []).unwrap();
    assert_eq!((pool.bytes().len(), lists[1].words()[2]), (398, 199));
}

#[test]
fn collecting_in_lent_memory() {
    // what is lent stands between bytes, words and numbers that are not
    let (pool, ours, theirs) = overlapping();
    let between = |items: &[Item]| [&[7], words::of_items(items), &[7]].concat();
    for (room, refused, told) in [(4, 6, 7), (5, 0, 5), (7, 0, 5)] {
        let mut bytes = [0xEE; 9];
        let (mut our_words, mut their_words) = (between(&ours), between(&theirs));
        let mut used = [7; 3];
        let returned = words::collect(
            &pool,
            &mut bytes[1..1 + room],
            &mut our_words[1..19],
            &mut their_words[1..25],
            &mut used[1],
        );
        assert_eq!((returned, used), (refused, [7, told, 7]));
        let (mut fresh, mut our_items, mut their_items) = ([0xEE; 7], ours, theirs);
        if refused == 0 {
            collect_into(&pool, &mut fresh, &mut our_items, &mut their_items).unwrap();
        }
        assert_eq!(bytes[..], [&[0xEE], &fresh[..], &[0xEE]].concat());
        assert_eq!(our_words, between(&our_items));
        assert_eq!(their_words, between(&their_items));
    }
}

#[test]
fn a_refused_collection_leaves_what_is_lent() {
    let refusal = |number, side: u64, index: u64| number + 256 * side + 65_536 * index;
    let (pool, long) = (pool(), vec![0; 65_537]);
    let key = |byte| [0, 0, byte, 1, 0, 0];
    let (unknown, past) = ([10, 0, 0, 0, 0, 0], [0, 0, 256, 1, 0, 0]);
    let words = |items: &[[u32; 6]]| items.concat();
    let cut = |items: &[[u32; 6]]| items.concat()[1..].to_vec();
    // each fault beside those that stand behind it, of which the last is that no byte has room
    for (pool, room, ours, theirs, refused) in [
        (
            &long,
            65_537,
            words(&[key(5), past]),
            cut(&[past]),
            refusal(1, 0, 0),
        ),
        (&long, 0, words(&[key(5)]), words(&[past]), refusal(1, 0, 0)),
        (
            &pool,
            65_537,
            words(&[key(5)]),
            words(&[past]),
            refusal(1, 0, 0),
        ),
        (
            &pool,
            65_537,
            words(&[key(5), past]),
            cut(&[past]),
            refusal(1, 0, 0),
        ),
        (&pool, 0, cut(&[past, past]), cut(&[past]), refusal(1, 0, 0)),
        (
            &pool,
            0,
            words(&[past; 2_049]),
            cut(&[past]),
            refusal(1, 0, 0),
        ),
        (
            &pool,
            0,
            words(&[key(5), unknown, past]),
            cut(&[past]),
            refusal(1, 0, 1),
        ),
        (
            &pool,
            0,
            words(&[key(5), past, unknown]),
            cut(&[past]),
            refusal(2, 0, 1),
        ),
        (
            &pool,
            0,
            words(&[key(5)]),
            cut(&[past, past]),
            refusal(1, 1, 0),
        ),
        (
            &pool,
            0,
            words(&[key(5)]),
            words(&[past; 2_049]),
            refusal(1, 1, 0),
        ),
        (
            &pool,
            0,
            words(&[key(5)]),
            words(&[key(5), key(6), unknown]),
            refusal(1, 1, 2),
        ),
        (
            &pool,
            0,
            words(&[key(5)]),
            words(&[key(5), past, unknown]),
            refusal(2, 1, 1),
        ),
        // of one item: a wrapper, a word of an absent key, and then its keys, too long or past the pool
        (
            &pool,
            0,
            words(&[[0, 4, 256, 1, 0, 0]]),
            vec![],
            refusal(1, 0, 0),
        ),
        (
            &pool,
            0,
            words(&[[0, 0, 256, 1, 0, 1]]),
            vec![],
            refusal(1, 0, 0),
        ),
        (
            &pool,
            0,
            words(&[[0, 0, 256, 1, 1, 0]]),
            vec![],
            refusal(1, 0, 0),
        ),
        (
            &pool,
            0,
            words(&[[0, 0, 0, 256, 0, 0]]),
            vec![],
            refusal(2, 0, 0),
        ),
        (
            &pool,
            0,
            words(&[[0, 0, 257, 0, 0, 0]]),
            vec![],
            refusal(2, 0, 0),
        ),
        (
            &pool,
            0,
            words(&[[2, 0, 0, 1, 255, 2]]),
            vec![],
            refusal(2, 0, 0),
        ),
        (
            &pool,
            0,
            words(&[[0, 0, u32::MAX, 1, 0, 0]]),
            vec![],
            refusal(2, 0, 0),
        ),
        // three distinct keys
        (
            &pool,
            2,
            words(&[key(5), key(6), key(5)]),
            words(&[key(6), key(7)]),
            refusal(6, 0, 0),
        ),
        (&pool, 0, vec![], words(&[key(7)]), refusal(6, 0, 0)),
    ] {
        let (mut fresh, mut used) = (vec![0xEE; room], 7);
        let (mut our_words, mut their_words) = (ours.clone(), theirs.clone());
        let returned = words::collect(
            pool,
            &mut fresh,
            &mut our_words,
            &mut their_words,
            &mut used,
        );
        assert_eq!((returned, used), (refused, 7));
        assert_eq!((our_words, their_words), (ours, theirs));
        assert!(fresh.iter().all(|&byte| byte == 0xEE));
    }
    // neither order nor an upright item is asked for, and no byte where no key has one
    for (room, ours, theirs, used) in [
        (3, vec![[2, 0, 5, 1, 3, 1]], vec![key(9), key(5), key(5)], 3),
        (0, vec![[0, 0, 256, 0, 0, 0]], vec![[3, 0, 0, 0, 0, 0]], 0),
        (
            0,
            vec![[3, 0, 0, 0, 0, 0]; 2_048],
            vec![[0, 3, 9, 0, 0, 0]; 2_048],
            0,
        ),
    ] {
        let mut told = 7;
        let returned = words::collect(
            &pool,
            &mut vec![0; room],
            &mut words(&ours),
            &mut words(&theirs),
            &mut told,
        );
        assert_eq!((returned, told), (0, used));
    }
}

/// A sheet of every kind, with keys of one byte and empty ones, and the words of its items over the keys as they are packed.
const EVERY_KIND: (&str, [[u32; 6]; 13]) = (
    "Key,01,\r\nRange,02,03\r\nRangeInclusive,04,-\r\nRangeFull,,\r\nRangeFrom,05,\r\nRangeTo,,06\r\nRangeToInclusive,,-\r\nRangeAfter,-,\r\n\
     RangeAfterTo,-,07\r\nRangeAfterToInclusive,08,09\r\nKey,-,\r\nKey,01,\r\nRangeInclusive,FF,00\r\n",
    [
        [0, 0, 0, 1, 0, 0],
        [1, 0, 1, 1, 2, 1],
        [2, 0, 3, 1, 4, 0],
        [3, 0, 0, 0, 0, 0],
        [4, 0, 4, 1, 0, 0],
        [5, 0, 0, 0, 5, 1],
        [6, 0, 0, 0, 6, 0],
        [7, 0, 6, 0, 0, 0],
        [8, 0, 6, 0, 6, 1],
        [9, 0, 7, 1, 8, 1],
        [0, 0, 9, 0, 0, 0],
        [0, 0, 9, 1, 0, 0],
        [2, 0, 10, 1, 11, 1],
    ],
);

#[test]
fn sheets_there_and_back() {
    let (text, items) = EVERY_KIND;
    let items = items.map(Item::from_words);
    let sheet = Sheet::read(text.as_bytes()).unwrap();
    assert_eq!(sheet.items, items);
    assert_eq!(sheet.pool.bytes(), [1, 2, 3, 4, 5, 6, 7, 8, 9, 1, 0xFF, 0]);
    assert_eq!(Sheet::write(sheet.pool.bytes(), &items).unwrap(), text);
    // keys that overlap, and stand in another order: the same by kind and bytes
    let (pool, ours, theirs) = overlapping();
    let plain: Vec<Item> = [&ours[..], &theirs]
        .concat()
        .into_iter()
        .map(|item| item.range_of().unwrap().into())
        .collect();
    let text = Sheet::write(&pool, &plain).unwrap();
    assert_eq!(
        text,
        "RangeInclusive,0506,07\r\nKey,0506,\r\nRangeTo,,-\r\nRangeAfterTo,03,05\r\nRangeFull,,\r\nRangeAfterToInclusive,-,07\r\nKey,03,\r\n"
    );
    let sheet = Sheet::read(text.as_bytes()).unwrap();
    let shown = |pool: &[u8], items: &[Item]| -> Vec<String> {
        items.iter().map(|item| item.shown(pool)).collect()
    };
    assert_eq!(
        shown(sheet.pool.bytes(), &sheet.items),
        shown(&pool, &plain)
    );
    assert_eq!(
        sheet.pool.bytes(),
        [5, 6, 7, 5, 6, 3, 5, 7, 3],
        "packed, equal keys each time"
    );
}

#[test]
fn sheets_as_others_write_them() {
    for (text, plain) in [
        ("", ""),
        ("Key,03,", "Key,03,\r\n"),
        ("RangeFull,,", "RangeFull,,\r\n"),
        ("RangeTo,,0a", "RangeTo,,0A\r\n"),
        ("Key,aBcDeF09,\r\n", "Key,ABCDEF09,\r\n"),
        ("\"Key\",\"03\",\"\"\r\n", "Key,03,\r\n"),
        ("Key,\"-\",\"\"", "Key,-,\r\n"),
        (
            "\"RangeFull\",\"\",\r\n\"Range\",01,\"05\"",
            "RangeFull,,\r\nRange,01,05\r\n",
        ),
    ] {
        let sheet = Sheet::read(text.as_bytes()).unwrap();
        let written = Sheet::write(sheet.pool.bytes(), &sheet.items).unwrap();
        assert_eq!(written, plain, "{text:?}");
        // and its plain form is read as the same items, word by word
        let again = Sheet::read(written.as_bytes()).unwrap();
        assert_eq!(again.items, sheet.items);
        assert_eq!(again.pool.bytes(), sheet.pool.bytes());
    }
}

#[test]
fn bad_rows() {
    use SheetCause::*;
    for (text, column, cause) in [
        ("\u{FEFF}Key,03,", 0, ByteOrderMark),
        ("\u{FEFF}\"Key\",03,", 0, ByteOrderMark),
        ("\r\n", 0, BlankRow),
        ("Key", 1, TooFewFields),
        ("Key;03;\r\n", 1, TooFewFields),
        ("Key,03\r\n", 2, TooFewFields),
        ("\"Key\",\"03\"", 2, TooFewFields),
        ("\"Key\"\r\n", 1, TooFewFields),
        ("Key,03,,", 3, TooManyFields),
        ("Key,03,\"\",x\r\n", 3, TooManyFields),
        ("Key,03,\r", 2, BareCarriageReturn),
        ("Key,03,\rKey,05,\r\n", 2, BareCarriageReturn),
        ("Key\r,03,", 0, BareCarriageReturn),
        ("\r", 0, BareCarriageReturn),
        ("\n", 0, BareLineFeed),
        ("Key,03,\nKey,05,\n", 2, BareLineFeed),
        ("Key,\"03\"\n,", 1, BareLineFeed),
        ("\"Key,03,\r\n", 0, UnclosedQuote),
        ("Key,03,\"", 2, UnclosedQuote),
        ("Key,\"03\" ,\r\n", 1, TextAfterQuote),
        ("Key,\"03,\r\nKey,\"05\",", 1, TextAfterQuote),
        ("Key,03,\"\"x", 2, TextAfterQuote),
        ("Key, \"03\",", 1, QuoteInside),
        ("Key\",03,", 0, QuoteInside),
        ("Key,03,-\"", 2, QuoteInside),
        ("Key,\"03\"\"\",", 1, DoubledQuote),
        ("\"Key\"\"", 0, DoubledQuote),
        ("RangeTo,,\"\"\"\"", 2, DoubledQuote),
        ("item,start,end\r\n", 0, UnknownName),
        ("key,03,", 0, UnknownName),
        ("KEY,03,", 0, UnknownName),
        ("Keys,03,", 0, UnknownName),
        (" Key,03,", 0, UnknownName),
        (",,", 0, UnknownName),
        ("\"Key\r\n\",03,", 0, UnknownName),
        ("\"Key,03,\"\r\n,,", 1, TooFewFields),
        ("Key,,", 1, MissingKey),
        ("RangeAfter,\"\",", 1, MissingKey),
        ("RangeInclusive,01,", 2, MissingKey),
        ("RangeTo,-,05", 1, UnexpectedKey),
        ("RangeFull,,-", 2, UnexpectedKey),
        ("Key,03, ", 2, UnexpectedKey),
        ("Key, 03,", 1, NoDigit(b' ')),
        ("Key,03h,", 1, NoDigit(b'h')),
        ("Range,01,0G", 2, NoDigit(b'G')),
        ("Key,--,", 1, NoDigit(b'-')),
        ("Key,\"03\r\n\",", 1, NoDigit(b'\r')),
        ("Key,\u{FF11}0,", 1, NoDigit(0xEF)),
        ("Key,3,", 1, OddDigits),
        ("Range,01,00000", 2, OddDigits),
        // of two faults the one further left, and first of all what keeps the row from being three fields
        ("Range,0,G", 1, OddDigits),
        ("Ranges,0,\"", 2, UnclosedQuote),
    ] {
        for (before, row) in [("", 0), ("Key,03,\r\n\"RangeFull\",\"\",\"\"\r\n", 2)] {
            let error = Sheet::read([before, text].concat().as_bytes()).unwrap_err();
            let refusal = error.refusal;
            assert_eq!(
                (refusal.reason(), refusal.side, refusal.index),
                (Reason::BadRow, Side::Ours, row)
            );
            let fault = SheetFault { row, column, cause };
            assert_eq!(error.fault, Some(fault), "{text:?}");
            assert_eq!(error.to_string(), format!("{fault} (refusal 12)"));
            // what follows may make another fault of it, but none in another row
            for after in ["\r\nKey,03,\r\n", "\r\nKey,3,\r\n"] {
                let error = Sheet::read([before, text, after].concat().as_bytes()).unwrap_err();
                assert_eq!((error.refusal, error.fault.unwrap().row), (refusal, row));
            }
        }
    }
    let refusal = Sheet::read(b"Key,03,\r\n\r\n").unwrap_err().refusal;
    assert_eq!(
        refusal.to_string(),
        "row 1 of the sheet is bad: a row is an item's name, its start key and its end key, and ends in CR LF (refusal 12)"
    );
}

#[test]
fn what_bad_rows_are_told() {
    for (text, row, column, said) in [
        ("\u{FEFF}Key,03,", 0, 0, "a byte order mark stands before the name"),
        ("Key,03,\r\n\r\n", 1, 0, "the row is blank"),
        ("Key,03", 0, 2, "the row ends before the end key: a row has three fields, separated by commas"),
        ("Key,03,,", 0, 3, "there is a fourth field: a row has three, separated by commas"),
        ("Key,03,\r", 0, 2, "a carriage return without a line feed behind it: a row ends in both"),
        ("Key,03,\n", 0, 2, "a line feed without a carriage return before it: a row ends in both"),
        ("Key,\"03,", 0, 1, "the quote that the start key starts with is not closed"),
        ("\"Key\" ,03,", 0, 0, "there is text between the closing quote of the name and the comma or the end of the row"),
        ("Key, \"03\",", 0, 1, "there is a quote in the start key, which does not start with one"),
        ("Key,\"03\"\"\",", 0, 1, "there is a doubled quote in the start key: no name and no key has a quote"),
        ("item,start,end", 0, 0, "no item has this name: names are as Key or RangeInclusive, in exactly this case, and a sheet has no header"),
        ("Range,01,", 0, 2, "the end key is missing: this item has one, and the empty key is written as -"),
        ("RangeTo,-,05", 0, 1, "the start key has to be empty: this item does not have one"),
        ("Key, 03,", 0, 1, "the start key has ' ', which is no hexadecimal digit"),
        ("Key,\"03\r\n\",", 0, 1, "the start key has '\\r', which is no hexadecimal digit"),
        ("Key,03,\r\nRange,01,5", 1, 2, "the end key has an odd number of hexadecimal digits"),
    ] {
        let error = Sheet::read(text.as_bytes()).unwrap_err();
        assert_eq!(
            error.to_string(),
            format!("row {row}, column {column}, counted from 0: {said} (refusal 12)")
        );
    }
}

/// A row whose keys have so many bytes.
fn row_of(start: usize, end: usize) -> String {
    let key = |length| "Ab".repeat(length);
    format!("RangeAfterToInclusive,{},{}\r\n", key(start), key(end))
}

#[test]
fn keys_of_a_sheet_that_are_too_long() {
    let longest = row_of(255, 255);
    let sheet = Sheet::read(longest.as_bytes()).unwrap();
    assert_eq!(sheet.items[0].words(), [9, 0, 0, 255, 255, 255]);
    let written = Sheet::write(sheet.pool.bytes(), &sheet.items).unwrap();
    assert_eq!(
        (written.len(), written),
        (
            1_045,
            longest
                .to_uppercase()
                .replace("RANGEAFTERTOINCLUSIVE", "RangeAfterToInclusive")
        )
    );
    for (rows, row, column) in [
        ([row_of(256, 1), row_of(300, 300)].concat(), 0, 1),
        (
            [row_of(1, 1), row_of(255, 256), row_of(256, 1)].concat(),
            1,
            2,
        ),
        // before want of room: more than 2,048 rows, and more than 65,536 bytes
        (
            [row_of(255, 255).repeat(2_048), row_of(70_000, 1)].concat(),
            2_048,
            1,
        ),
    ] {
        let error = Sheet::read(rows.as_bytes()).unwrap_err();
        assert_eq!(
            (
                error.refusal.reason(),
                error.refusal.side,
                error.refusal.index
            ),
            (Reason::KeyOutside, Side::Ours, row)
        );
        let cause = SheetCause::KeyTooLong;
        assert_eq!(error.fault, Some(SheetFault { row, column, cause }));
        let key = ["name", "start key", "end key"][column];
        assert_eq!(
            error.to_string(),
            format!("row {row}, column {column}, counted from 0: the {key} has more than 255 bytes (refusal 2)")
        );
        // a bad row behind it comes first
        let bad = [&rows[..], "Key,3,"].concat();
        let error = Sheet::read(bad.as_bytes()).unwrap_err();
        let last = bad.lines().count() as u64 - 1;
        assert_eq!(
            (error.refusal.reason(), error.refusal.index),
            (Reason::BadRow, last)
        );
        assert_eq!(error.fault.unwrap().cause, SheetCause::OddDigits);
    }
}

#[test]
fn sheets_in_lent_memory() {
    let (text, items) = EVERY_KIND;
    let keys = [1, 2, 3, 4, 5, 6, 7, 8, 9, 1, 0xFF, 0];
    // what is lent stands between bytes, words and numbers that are not; keys have 12 bytes, and items 78 words
    for (pool_room, list_room, refused) in [
        (12, 78, 0),
        (11, 78, 6),
        (12, 77, 6),
        (0, 0, 6),
        (12, 83, 0),
        (13, 84, 0),
        (20, 90, 0),
    ] {
        let (mut pool, mut out, mut told) = ([0xEE; 22], [7; 92], [7; 4]);
        let (items_told, bytes_told) = told.split_at_mut(2);
        let returned = words::read_sheet(
            text.as_bytes(),
            &mut pool[1..1 + pool_room],
            &mut out[1..1 + list_room],
            &mut items_told[1],
            &mut bytes_told[0],
        );
        assert_eq!(returned, refused);
        let (mut left_pool, mut left_out, mut left_told) = ([0xEE; 22], [7; 92], [7; 4]);
        if refused == 0 {
            left_pool[1..13].copy_from_slice(&keys);
            left_out[1..79].copy_from_slice(&items.concat());
            left_told = [7, 13, 12, 7];
        }
        assert_eq!((pool, out, told), (left_pool, left_out, left_told));
    }
    let length = text.len();
    for (room, refused) in [(length, 0), (length - 1, 6), (0, 6), (length + 9, 0)] {
        let (mut lent, mut told) = (vec![b'.'; length + 11], [7; 3]);
        let returned =
            words::write_sheet(&keys, &items.concat(), &mut lent[1..1 + room], &mut told[1]);
        let mut left = vec![b'.'; length + 11];
        let mut left_told = [7; 3];
        if refused == 0 {
            left[1..1 + length].copy_from_slice(text.as_bytes());
            left_told[1] = length as u64;
        }
        assert_eq!((returned, lent, told), (refused, left, left_told));
    }
}

#[test]
fn sheets_that_are_refused_leave_what_is_lent() {
    let refusal = |number: u64, index: u64| number + 65_536 * index;
    let (good, long, bad) = ("Key,03,\r\n", row_of(256, 1), "Key,3,\r\n");
    let many = good.repeat(2_049);
    // each fault beside those that stand behind it
    for (text, pool_room, list_room, refused) in [
        ([good, &long, bad].concat(), 65_537, 0, refusal(12, 2)),
        ([&many, bad, &long].concat(), 0, 0, refusal(12, 2_049)),
        ([good, &long].concat(), 65_537, 0, refusal(1, 0)),
        (String::new(), 65_537, 6, refusal(1, 0)),
        ([good, &long].concat(), 0, 0, refusal(2, 1)),
        ([&many[..], &long].concat(), 0, 0, refusal(2, 2_049)),
        (many, 65_536, 6 * 2_049, refusal(6, 0)),
        (good.repeat(2), 1, 12, refusal(6, 0)),
        (good.repeat(2), 2, 11, refusal(6, 0)),
    ] {
        let (mut pool, mut out) = (vec![0xEE; pool_room], vec![7; list_room]);
        let (mut items, mut bytes) = (7, 7);
        let returned =
            words::read_sheet(text.as_bytes(), &mut pool, &mut out, &mut items, &mut bytes);
        assert_eq!((returned, items, bytes), (refused, 7, 7));
        assert!(pool.iter().all(|&byte| byte == 0xEE) && out.iter().all(|&word| word == 7));
    }
}

#[test]
fn lists_that_make_no_sheet() {
    let refusal = |number: u64, index: u64| number + 65_536 * index;
    let (pool, large) = (pool(), vec![0; 65_537]);
    let key = [0, 0, 5, 1, 0, 0];
    let (unknown, absent) = ([10, 1, 256, 1, 0, 0], [0, 1, 256, 1, 0, 1]);
    let (past, wrapped) = ([0, 1, 256, 1, 0, 0], [0, 1, 5, 1, 0, 0]);
    // each fault beside those that stand behind it, of which the last is that the text has no room
    for (pool, words, refused) in [
        (
            &large,
            [&[unknown; 2_049].concat()[..], &[0]].concat(),
            refusal(1, 0),
        ),
        (&large, key.to_vec(), refusal(1, 0)),
        (&pool, [&key[..], &unknown, &[0]].concat(), refusal(1, 0)),
        (&pool, [key; 2_049].concat(), refusal(1, 0)),
        (&pool, [key, unknown, wrapped].concat(), refusal(1, 1)),
        (&pool, [key, absent, past].concat(), refusal(1, 1)),
        (&pool, [key, [0, 4, 256, 1, 0, 0]].concat(), refusal(1, 1)),
        (&pool, [past, unknown, wrapped].concat(), refusal(2, 0)),
        (
            &pool,
            [key, [0, 3, 0, 256, 0, 0], wrapped].concat(),
            refusal(2, 1),
        ),
        (
            &pool,
            [key, [2, 0, 5, 1, 255, 2], wrapped].concat(),
            refusal(2, 1),
        ),
        (
            &pool,
            [key, [0, 0, u32::MAX, u32::MAX, 0, 0]].concat(),
            refusal(2, 1),
        ),
        (&pool, [key, key, wrapped, past].concat(), refusal(5, 2)),
        (
            &pool,
            [key, [3, 3, 0, 0, 0, 0], unknown].concat(),
            refusal(5, 1),
        ),
        (&pool, [key, [5, 2, 0, 0, 5, 0]].concat(), refusal(5, 1)),
        (&pool, key.to_vec(), refusal(6, 0)),
    ] {
        let (mut text, mut bytes) = ([b'.'; 8], 7);
        let returned = words::write_sheet(pool, &words, &mut text, &mut bytes);
        assert_eq!((returned, text, bytes), (refused, [b'.'; 8], 7));
        if words.len() % 6 == 0 && refused != 6 {
            let items: Vec<Item> = words
                .chunks(6)
                .map(|six| Item::from_words(six.try_into().unwrap()))
                .collect();
            let refusal = Sheet::write(pool, &items).unwrap_err();
            assert_eq!(Err(refusal), Refusal::from_number(refused));
        }
    }
    let counted = Item::new(Wrapper::Count, QueryItem::RangeFull);
    assert_eq!(
        Sheet::write(&[], &[counted]).unwrap_err().to_string(),
        "our item 0: a wrapped item cannot ask for positions, and has no row in a sheet (refusal 5)"
    );
    // neither order nor an upright item is asked for
    let items = [[2, 0, 9, 1, 5, 1], key, key, [1, 0, 5, 1, 5, 1]].map(Item::from_words);
    assert_eq!(
        Sheet::write(&pool, &items).unwrap(),
        "RangeInclusive,09,05\r\nKey,05,\r\nKey,05,\r\nRange,05,05\r\n"
    );
    assert_eq!(Sheet::write(&[], &[]).unwrap(), "");
}

#[test]
fn as_many_rows_as_there_can_be() {
    // 2,048 rows, and keys of 65,536 bytes
    let full = row_of(16, 16).repeat(2_048);
    let sheet = Sheet::read(full.as_bytes()).unwrap();
    assert_eq!(
        (sheet.items.len(), sheet.pool.bytes().len()),
        (2_048, 65_536)
    );
    assert_eq!(sheet.items[2_047].words(), [9, 0, 65_504, 16, 65_520, 16]);
    let written = Sheet::write(sheet.pool.bytes(), &sheet.items).unwrap();
    assert!(written.eq_ignore_ascii_case(&full));
    // one row more, or one byte, have no room
    let one_more = [&full[..], "RangeFull,,\r\n"].concat();
    let longer = [&full[row_of(16, 16).len()..], &row_of(17, 16)].concat();
    for text in [one_more, longer] {
        let error = Sheet::read(text.as_bytes()).unwrap_err();
        let refusal = error.refusal;
        assert_eq!(
            (refusal.reason(), refusal.side, refusal.index),
            (Reason::NoRoom, Side::Ours, 0)
        );
        assert_eq!(error.fault, None);
        assert_eq!(
            error.to_string(),
            "no room: a sheet has at most 2,048 rows, and the pool that its keys go to at most 65,536 bytes (refusal 6)"
        );
    }
    // the smallest rows, with and without the last line end, of which each needs as much room as there can be
    for text in ["Key,-,\r\n".repeat(2_048), "RangeFull,,\r\n".repeat(2_048)] {
        for text in [&text[..], &text[..text.len() - 2]] {
            assert_eq!(Sheet::read(text.as_bytes()).unwrap().items.len(), 2_048);
        }
    }
    for (text, items) in [("Key,-,", 1), ("Key,-,\r\nKey,-,", 2), ("Key,00,", 1)] {
        assert_eq!(Sheet::read(text.as_bytes()).unwrap().items.len(), items);
    }
}

#[test]
fn sheets_over_one_pool() {
    let (text, items) = EVERY_KIND;
    let alone = Sheet::read(text.as_bytes()).unwrap();
    let mut pool = Pool::new();
    let nine = Item::key(pool.add(&[9, 9, 9]).unwrap());
    let read = Sheet::read_into(text.as_bytes(), &mut pool).unwrap();
    assert_eq!(pool.bytes(), [&[9, 9, 9], alone.pool.bytes()].concat());
    for ((there, words), here) in alone.items.iter().zip(items).zip(&read) {
        assert_eq!(here.shown(pool.bytes()), there.shown(alone.pool.bytes()));
        // keys that the item has, empty ones too, stand three bytes further on; the words of others are 0
        let [code, _, start, start_length, end, end_length] = words;
        let has_start = [0, 1, 2, 4, 7, 8, 9].contains(&code);
        let has_end = [1, 2, 5, 6, 8, 9].contains(&code);
        let moved = |has: bool, offset| if has { offset + 3 } else { 0 };
        let (start, end) = (moved(has_start, start), moved(has_end, end));
        assert_eq!(
            here.words(),
            [code, 0, start, start_length, end, end_length]
        );
    }
    assert_eq!(nine.shown(pool.bytes()), "Key 090909");
    assert_eq!(Sheet::write(pool.bytes(), &read).unwrap(), text);
    // new keys go behind those, and what is refused leaves the pool
    let before = pool.bytes().to_vec();
    let long = row_of(255, 255).repeat(129);
    for text in [
        "Key,3,",
        &row_of(256, 1),
        &"Key,03,\r\n".repeat(2_049),
        &long,
    ] {
        assert!(Sheet::read_into(text.as_bytes(), &mut pool).is_err());
        assert_eq!(pool.bytes(), before);
    }
    let last = pool.add(&[7]).unwrap();
    assert_eq!((last.offset, last.length), (15, 1));
    // 65,536 bytes together, and not one more
    let most = [row_of(255, 255).repeat(128), row_of(240, 0)].concat();
    let most = most.replace(",\r\n", ",-\r\n");
    let before = pool.bytes().to_vec();
    let short = Sheet::read_into(most.replace("AbAb,-", "AbAbAb,-").as_bytes(), &mut pool);
    assert_eq!(short.unwrap_err().refusal.reason(), Reason::NoRoom);
    assert_eq!(pool.bytes(), before);
    let items = Sheet::read_into(most.as_bytes(), &mut pool).unwrap();
    assert_eq!(pool.bytes().len(), 65_536);
    assert_eq!(items[128].words(), [9, 0, 65_296, 240, 65_536, 0]);
    assert!(Sheet::write(pool.bytes(), &items)
        .unwrap()
        .eq_ignore_ascii_case(&most));
    // a full pool takes a sheet without key bytes
    let none = Sheet::read_into(b"Key,-,\r\nRangeFull,,", &mut pool).unwrap();
    assert_eq!(none[0].words(), [0, 0, 65_536, 0, 0, 0]);
    assert!(Sheet::read_into(b"Key,00,", &mut pool).is_err());
    assert_eq!(Sheet::read_into(b"", &mut pool), Ok(vec![]));
}

#[test]
fn two_sheets_compared() {
    let mut pool = Pool::new();
    let ours =
        Sheet::read_into(b"RangeInclusive,01,03\r\nRangeInclusive,07,09", &mut pool).unwrap();
    let theirs = Sheet::read_into(b"\"RangeInclusive\",\"02\",\"08\"\r\n", &mut pool).unwrap();
    let lists = intersect_many_ordered(pool.bytes(), &ours, &theirs).unwrap();
    for (items, text) in [
        (
            lists.shared,
            "RangeInclusive,02,03\r\nRangeInclusive,07,08\r\n",
        ),
        (lists.ours, "Range,01,02\r\nRangeAfterToInclusive,08,09\r\n"),
        (lists.theirs, "RangeAfterTo,03,07\r\n"),
    ] {
        assert_eq!(Sheet::write(pool.bytes(), &items).unwrap(), text);
    }
}

/// What looking at a text again finds wrong with its rows, also where the library reads it.
fn bad_row_in(text: &[u8]) -> Option<SheetFault> {
    let bad_row = Refusal::from_number(12).unwrap_err();
    SheetError::new(bad_row, text).fault
}

/// Reads a text and looks at it again: the fault of a bad row, which is in the row that is refused; or none, and then none is found.
fn read_and_looked_at(text: &[u8]) -> Option<SheetFault> {
    let (mut pool, mut out, mut items, mut bytes) = ([0; 2_048], [0; 6 * 64], 0, 0);
    let returned = words::read_sheet(text, &mut pool, &mut out, &mut items, &mut bytes);
    let found = bad_row_in(text);
    let refused = Refusal::from_number(returned).err();
    let row = refused
        .filter(|refusal| refusal.reason() == Reason::BadRow)
        .map(|refusal| refusal.index);
    assert_eq!(found.map(|fault| fault.row), row, "{}", text.escape_ascii());
    if let Some(refusal) = refused {
        let error = SheetError::new(refusal, text);
        match refusal.reason() {
            Reason::BadRow => assert_eq!(error.fault, found),
            Reason::KeyOutside => {
                let fault = error.fault.unwrap();
                assert_eq!(
                    (fault.row, fault.cause),
                    (refusal.index, SheetCause::KeyTooLong)
                );
            }
            _ => assert_eq!(error.fault, None),
        }
    }
    found
}

/// Numbers that are the same in each run.
struct Numbers(u64);

impl Numbers {
    fn below(&mut self, bound: usize) -> usize {
        self.0 ^= self.0 << 13;
        self.0 ^= self.0 >> 7;
        self.0 ^= self.0 << 17;
        (self.0 >> 16) as usize % bound
    }

    fn one_of<T: Copy>(&mut self, things: &[T]) -> T {
        things[self.below(things.len())]
    }

    /// A field, quoted at times.
    fn field(&mut self, text: &str) -> String {
        match self.below(6) {
            0 => format!("\"{text}\""),
            _ => text.to_string(),
        }
    }

    /// The digits of a key, now and then of one that is too long; none where there is no key.
    fn key(&mut self, has: bool) -> String {
        match self.below(200) {
            _ if !has => String::new(),
            0 => "5a".repeat(255),
            1 => "5a".repeat(256),
            _ => self
                .one_of(&["-", "00", "05", "0aF0", "ffFF00"])
                .to_string(),
        }
    }

    /// A good row, without its line end.
    fn row(&mut self) -> String {
        let (name, has_start, has_end) = self.one_of(&[
            ("Key", true, false),
            ("Range", true, true),
            ("RangeInclusive", true, true),
            ("RangeFull", false, false),
            ("RangeFrom", true, false),
            ("RangeTo", false, true),
            ("RangeToInclusive", false, true),
            ("RangeAfter", true, false),
            ("RangeAfterTo", true, true),
            ("RangeAfterToInclusive", true, true),
        ]);
        let (start, end) = (self.key(has_start), self.key(has_end));
        let (start, end) = (self.field(&start), self.field(&end));
        format!("{},{start},{end}", self.field(name))
    }

    /// A good sheet, in which up to three places are damaged.
    fn sheet(&mut self) -> Vec<u8> {
        let rows: Vec<String> = (0..self.below(5)).map(|_| self.row()).collect();
        let mut text = rows.join("\r\n").into_bytes();
        if self.below(4) != 0 && !rows.is_empty() {
            text.extend(b"\r\n");
        }
        for _ in 0..self.below(4) {
            let from = self.below(text.len() + 1);
            let to = (from + self.one_of(&[0, 0, 1, 1, 2, 3])).min(text.len());
            let put = self.one_of(&[
                &b""[..],
                b"\"",
                b"\"\"",
                b",",
                b"\r",
                b"\n",
                b"\r\n",
                b"-",
                b"0",
                b"G",
                b" ",
                b"\xEF\xBB\xBF",
                b"\xFF",
                b"Key",
                b"Key,03,\r\n",
            ]);
            text.splice(from..to, put.iter().copied());
        }
        text
    }
}

#[test]
fn a_cause_for_every_bad_row() {
    let mut numbers = Numbers(0x5EED);
    let (mut causes, mut read) = (HashSet::new(), 0);
    for _ in 0..20_000 {
        let text = numbers.sheet();
        match read_and_looked_at(&text) {
            Some(fault) => {
                causes.insert(std::mem::discriminant(&fault.cause));
            }
            None => read += 1,
        }
        // what is read is written in its plain form, which is read as the same
        if let Ok(sheet) = Sheet::read(&text) {
            let plain = Sheet::write(sheet.pool.bytes(), &sheet.items).unwrap();
            let again = Sheet::read(plain.as_bytes()).unwrap();
            assert_eq!(
                (again.pool.bytes(), again.items),
                (sheet.pool.bytes(), sheet.items)
            );
        }
    }
    // all but KeyTooLong, which is no bad row
    assert_eq!(causes.len(), 15);
    assert!((4_000..16_000).contains(&read), "{read} of 20,000 are read");
}

#[test]
fn every_short_text_is_read_or_has_a_cause() {
    // up to six of these parts, alone and behind the front of a row
    let parts = [&b"Key"[..], b",", b"\"", b"\r", b"\n", b"-", b"05", b"5"];
    let mut read = 0;
    for front in [&b""[..], b"Key,", b"Key,05,"] {
        for length in 0..=6 {
            for number in 0..parts.len().pow(length) {
                let mut text = front.to_vec();
                for place in 0..length {
                    text.extend(parts[number / parts.len().pow(place) % parts.len()]);
                }
                read += usize::from(read_and_looked_at(&text).is_none());
            }
        }
    }
    // of 898,779: as many as a regular expression for sheets of keys finds
    assert_eq!(read, 85);
}

/// [01,05), then [05,09], then the key 0B, which is wrapped.
fn lanes() -> [Item; 3] {
    [
        Item::range(at(1), at(5)),
        Item::range_inclusive(at(5), at(9)),
        Item::new(Wrapper::Sum, QueryItem::Key(at(11))),
    ]
}

#[test]
fn the_item_that_holds_a_key() {
    let found = |key: &[u8]| find_item(&pool(), &lanes(), key).unwrap();
    for (key, index) in [
        (&[][..], None),
        (&[0, 255], None),
        (&[1], Some(0)),
        (&[1, 0], Some(0)),
        (&[4, 255], Some(0)),
        (&[5], Some(1)),
        (&[9], Some(1)),
        (&[9, 0], None),
        (&[11], Some(2)),
        (&[11, 0], None),
        (&[3; 300], Some(0)),
        (&[12; 300], None),
    ] {
        assert_eq!(found(key), index, "{key:?}");
    }
    let between = [Item::from(QueryItem::RangeAfterTo(at(12), at(14)))];
    let found = |key: &[u8]| find_item(&pool(), &between, key).unwrap();
    assert_eq!((found(&[12]), found(&[14])), (None, None));
    assert_eq!((found(&[12, 0]), found(&[13, 255])), (Some(0), Some(0)));
    assert_eq!(find_item(&[], &[], &[]), Ok(None));
    let all = [Item::from(QueryItem::RangeFull)];
    assert_eq!(find_item(&[], &all, &[]), Ok(Some(0)));
    let twice = [Item::key(at(5)), Item::key(at(5))];
    let refusal = find_item(&pool(), &twice, &[5]).unwrap_err();
    assert_eq!(Err(refusal), check_list(&pool(), &twice, Side::Ours));
    // what is lent for the answer stays
    let many = [0, 0, 5, 1, 0, 0].repeat(2_049);
    for (words, refused) in [
        (&[0; 5][..], 1),
        (&many, 1),
        (&[10, 0, 0, 0, 0, 0], 1),
        (&[0, 0, 256, 1, 0, 0], 2),
        (&[2, 0, 5, 1, 3, 1], 3),
        (&[0, 0, 5, 1, 0, 0, 0, 0, 5, 1, 0, 0], 4 + 65_536),
    ] {
        let mut found = [7; 2];
        let returned = words::find_item(&pool(), words, &[5], &mut found);
        assert_eq!((returned, found), (refused, [7; 2]));
    }
    let mut found = [7; 2];
    let returned = words::find_item(&[0; 65_537], &[], &[5], &mut found);
    assert_eq!((returned, found), (1, [7; 2]));
    // and is 0 where no item holds the key
    let returned = words::find_item(&[], &[], &[5], &mut found);
    assert_eq!((returned, found), (0, [0; 2]));
}

/// The amount of so many ten-thousandths.
fn amount(number: i64) -> Amount {
    Amount::from_ten_thousandths(number).unwrap()
}

#[test]
fn amounts_as_text() {
    for (text, number, written) in [
        ("12.3456", 123_456, "12.3456"),
        ("-0.5", -5_000, "-0.5"),
        ("7", 70_000, "7"),
        ("+1.25", 12_500, "1.25"),
        ("0", 0, "0"),
        ("-0", 0, "0"),
        ("-0.0000", 0, "0"),
        ("0.0001", 1, "0.0001"),
        ("1.5000", 15_000, "1.5"),
        ("007.50", 75_000, "7.5"),
        ("10", 100_000, "10"),
        ("100000000", 1_000_000_000_000, "100000000"),
        ("-100000000.0000", -1_000_000_000_000, "-100000000"),
        ("99999999.9999", 999_999_999_999, "99999999.9999"),
    ] {
        let read: Amount = text.parse().unwrap();
        assert_eq!(read.ten_thousandths(), number, "{text}");
        assert_eq!(read.to_string(), written);
    }
    let zeros = "0".repeat(100_000);
    assert_eq!(format!("-{zeros}1.5").parse(), Ok(amount(-15_000)));
    // a width is kept, as numbers do it
    assert_eq!(
        format!("{:8}|{:+}", amount(-5_000), amount(5_000)),
        "    -0.5|+0.5"
    );
}

#[test]
fn texts_that_are_no_amounts() {
    for text in [
        "",
        "-",
        "+",
        ".",
        ".5",
        "5.",
        "-.5",
        "-5.",
        "--1",
        "+-1",
        "1-",
        "1.2.3",
        "1.-2",
        "1e3",
        "1,5",
        "1_000",
        "1'000",
        " 1",
        "1 ",
        "1. 5",
        "\t1",
        "1\n",
        "0x10",
        "NaN",
        "inf",
        "\u{2212}1",
        "\u{661}",
        "1.\u{665}",
        "\u{ff11}",
        "\u{e9}",
        "1\0",
    ] {
        assert_eq!(
            text.parse::<Amount>(),
            Err(AmountError::NoNumber),
            "{text:?}"
        );
    }
    let long = "9".repeat(100_000);
    for text in [
        "1.50000",
        "0.00000",
        "1.23456",
        "-999999999999.00001",
        &format!("0.{long}"),
        &format!("{long}.{long}"),
    ] {
        assert_eq!(
            text.parse::<Amount>(),
            Err(AmountError::TooManyPlaces),
            "{text:.30}"
        );
    }
    for text in [
        "100000000.0001",
        "-100000000.0001",
        "100000001",
        "922337203685477.5807",
        "922337203685477.5808",
        "-922337203685477.5809",
        "18446744073709551616",
        &long,
        &format!("-{long}.5"),
    ] {
        assert_eq!(
            text.parse::<Amount>(),
            Err(AmountError::OutOfRange),
            "{text:.30}"
        );
    }
    for number in [-1_000_000_000_001, 1_000_000_000_001, i64::MIN, i64::MAX] {
        assert_eq!(
            Amount::from_ten_thousandths(number),
            Err(AmountError::OutOfRange)
        );
    }
    assert!(AmountError::NoNumber
        .to_string()
        .starts_with("no decimal number"));
    assert!(AmountError::TooManyPlaces
        .to_string()
        .contains("at most four"));
    assert!(AmountError::OutOfRange
        .to_string()
        .contains("from -100,000,000 to 100,000,000"));
}

#[test]
fn amounts_there_and_back() {
    let most = Amount::MAX.ten_thousandths();
    let (mut numbers, mut state): (Vec<i64>, u64) = ((-100_000..=100_000).collect(), 1);
    numbers.extend((most - 30_000..=most).flat_map(|number| [number, -number]));
    for _ in 0..100_000 {
        state = state
            .wrapping_mul(6_364_136_223_846_793_005)
            .wrapping_add(1_442_695_040_888_963_407);
        numbers.push((state >> 20) as i64 % (most + 1) * [1, -1][state as usize >> 63]);
    }
    for number in numbers {
        let text = amount(number).to_string();
        assert_eq!(text.parse(), Ok(amount(number)), "{text}");
        assert_eq!(text, Total::from_ten_thousandths(number).to_string());
        // no text of the same amount is shorter
        assert!(!text.contains('.') || !text.ends_with('0'), "{text}");
        assert!(
            text == "0" || !text.trim_start_matches('-').starts_with("00") && text != "-0",
            "{text}"
        );
    }
    assert!(amount(-1) < amount(0) && Amount::MIN < Amount::MAX);
    assert_eq!(Amount::default(), amount(0));
}

#[test]
fn sums_and_cents() {
    for (number, cents, text) in [
        (0, 0, "0.00"),
        (49, 0, "0.00"),
        (50, 0, "0.00"),
        (51, 1, "0.01"),
        (150, 2, "0.02"),
        (250, 2, "0.02"),
        (-49, 0, "0.00"),
        (-50, 0, "0.00"),
        (-51, -1, "-0.01"),
        (-150, -2, "-0.02"),
        (-250, -2, "-0.02"),
        (123_450, 1_234, "12.34"),
        (123_550, 1_236, "12.36"),
        (1_000_000_000_000_000, 10_000_000_000_000, "100000000000.00"),
        (i64::MAX, 92_233_720_368_547_758, "922337203685477.58"),
        (i64::MIN, -92_233_720_368_547_758, "-922337203685477.58"),
    ] {
        let total = Total::from_ten_thousandths(number);
        assert_eq!(
            (total.cents().number(), total.cents().to_string()),
            (cents, text.to_string())
        );
        assert_eq!(words::to_cents(number), cents);
    }
    assert_eq!(amount(150).cents(), Total::from(amount(150)).cents());
    let last = Total::from_ten_thousandths(i64::MAX);
    assert_eq!(last.to_string(), "922337203685477.5807");
    assert_eq!(
        Total::from_ten_thousandths(i64::MIN).to_string(),
        "-922337203685477.5808"
    );
    assert_eq!(last.checked_add(amount(1).into()), None);
    assert_eq!(
        last.checked_add(amount(-1).into())
            .map(Total::ten_thousandths),
        Some(i64::MAX - 1)
    );
}

#[test]
fn a_card_and_its_invoices() {
    let (pool, items) = (pool(), lanes());
    let amounts = [123_450, -12_500, 9_000].map(amount);
    let card = RateCard::new(&pool, &items, &amounts);
    assert_eq!(
        (card.check(), card.items(), card.amounts()),
        (Ok(()), &items[..], &amounts[..])
    );
    let rate = |key: &[u8]| card.rate(key).unwrap();
    assert_eq!(
        (rate(&[4]), rate(&[5]), rate(&[11])),
        (Some(amounts[0]), Some(amounts[1]), Some(amounts[2]))
    );
    assert_eq!(
        (rate(&[]), rate(&[10]), rate(&[4; 256])),
        (None, None, Some(amounts[0]))
    );

    let invoice = card
        .invoice(&[at(4), at(11), at(12), at(7), at(10)])
        .unwrap();
    assert_eq!(
        (
            invoice.sum.to_string(),
            invoice.without_rate,
            invoice.cents.to_string()
        ),
        ("11.995".to_string(), 2, "12.00".to_string())
    );
    let twice = card.invoice(&[at(7), at(12), at(7), at(12)]).unwrap();
    assert_eq!(
        (twice.sum, twice.without_rate),
        (Total::from_ten_thousandths(-25_000), 2)
    );
    assert_eq!(card.invoice(&[]), Ok(Invoice::default()));
    // keys of no byte and of several, wherever they stand
    let keys =
        [(0, 0), (256, 0), (4, 2), (3, 200)].map(|(offset, length)| KeyAt { offset, length });
    let invoice = card.invoice(&keys).unwrap();
    assert_eq!(
        (invoice.sum.ten_thousandths(), invoice.without_rate),
        (2 * 123_450, 2)
    );
    // what is lent is 0 where there is no rate
    let (mut has, mut amount) = (7, 7);
    let returned = words::rate(&[], &[], &[], &[5], &mut has, &mut amount);
    assert_eq!((returned, has, amount), (0, 0, 0));
    // the empty card
    let none = RateCard::new(&[], &[], &[]);
    assert_eq!(none.rate(&[]), Ok(None));
    assert_eq!(
        none.invoice(&[KeyAt::default(); 3]).unwrap().without_rate,
        3
    );
}

#[test]
fn a_rate_of_nothing_is_a_rate() {
    let (pool, items) = (pool(), lanes());
    let amounts = [0, 1, -1].map(amount);
    let card = RateCard::new(&pool, &items, &amounts);
    assert_eq!(card.rate(&[4]), Ok(Some(amounts[0])));
    assert_eq!(card.rate(&[10]), Ok(None));
    let invoice = card.invoice(&[at(4), at(4)]).unwrap();
    assert_eq!((invoice.sum, invoice.without_rate), (Total::default(), 0));
    let (mut has, mut amount) = (7, 7);
    let (words, numbers) = (words::of_items(&items), words::of_amounts(&amounts));
    let returned = words::rate(&pool, words, numbers, &[4], &mut has, &mut amount);
    assert_eq!((returned, has, amount), (0, 1, 0));
}

#[test]
fn the_last_of_many_items_is_found() {
    let pool: Vec<u8> = (0..2_048u16).flat_map(u16::to_be_bytes).collect();
    let item = |number: u32| {
        Item::key(KeyAt {
            offset: 2 * number,
            length: 2,
        })
    };
    let items: Vec<Item> = (0..2_048).map(item).collect();
    let amounts: Vec<Amount> = (0..2_048).map(amount).collect();
    for number in [0u16, 255, 256, 1_000, 2_047] {
        let key = number.to_be_bytes();
        assert_eq!(
            find_item(&pool, &items, &key),
            Ok(Some(usize::from(number)))
        );
        let rate = RateCard::new(&pool, &items, &amounts).rate(&key);
        assert_eq!(rate, Ok(Some(amount(number.into()))));
    }
    assert_eq!(find_item(&pool, &items, &[8, 0]), Ok(None));
}

#[test]
fn cards_and_invoices_at_the_limits() {
    let (pool, items) = (pool(), lanes());
    let card =
        |amounts: [Amount; 3]| RateCard::new(&pool, &items, &amounts).invoice(&[at(1); 1_000]);
    for (most, sum) in [
        (Amount::MAX, 1_000_000_000_000_000),
        (Amount::MIN, -1_000_000_000_000_000),
    ] {
        let invoice = card([most; 3]).unwrap();
        assert_eq!(
            (
                invoice.sum.ten_thousandths(),
                invoice.without_rate,
                invoice.cents.number()
            ),
            (sum, 0, sum / 100)
        );
    }
    let amounts = [amount(1); 3];
    let card = RateCard::new(&pool, &items, &amounts);
    let refusal = card.invoice(&[at(1); 1_001]).unwrap_err();
    assert_eq!(
        (refusal.reason(), refusal.side, refusal.index),
        (Reason::TooManyKeys, Side::Theirs, 0)
    );
    assert_eq!(
        refusal.to_string(),
        "an invoice has at most 1,000 keys (refusal 15)"
    );
    let long = KeyAt {
        offset: 0,
        length: 256,
    };
    let refusal = card.invoice(&[at(1), long]).unwrap_err();
    assert_eq!(refusal.to_string(), "their item or invoice key 1: a key is longer than 255 bytes or reaches past the pool (refusal 2)");
    let refusal = RateCard::new(&pool, &items, &amounts[..2])
        .rate(&[1])
        .unwrap_err();
    assert_eq!(
        (refusal.reason(), refusal.side, refusal.index),
        (Reason::Malformed, Side::Ours, 0)
    );
    assert!(refusal.to_string().contains("not one amount for each item"));
    let outside = Refusal::from_number(14 + 65_536).unwrap_err();
    assert_eq!(outside.reason(), Reason::AmountOutside);
    assert_eq!(
        outside.to_string(),
        "our amount 1: it is not from -100,000,000 to 100,000,000 currency units (refusal 14)"
    );
}

#[test]
fn a_refused_card_leaves_what_is_lent() {
    let refusal = |number, side: u64, index: u64| number + 256 * side + 65_536 * index;
    let (pool, long) = (pool(), vec![0; 65_537]);
    let key = |byte| [0, 0, byte, 1, 0, 0];
    let (unknown, past, turned) = (
        [10, 0, 0, 0, 0, 0],
        [0, 0, 256, 1, 0, 0],
        [2, 0, 5, 1, 3, 1],
    );
    let words = |items: &[[u32; 6]]| items.concat();
    let most = 1_000_000_000_000;
    let out = [most + 1; 2_049];
    // each fault beside those that stand behind it, of which the last are the keys'
    let (odd, many, far) = (vec![9; 2_003], vec![9; 2_002], [1, 1, 256, 1, 0, 256]);
    for (pool, words, amounts, refused) in [
        (&long, words(&[unknown; 2]), &out[..1], refusal(1, 0, 0)),
        (
            &pool,
            words(&[key(5), unknown])[..11].to_vec(),
            &out[..1],
            refusal(1, 0, 0),
        ),
        (&pool, words(&[key(5); 2_049]), &out[..], refusal(1, 0, 0)),
        (
            &pool,
            words(&[key(5), unknown]),
            &out[..1],
            refusal(1, 0, 0),
        ),
        (&pool, words(&[key(5), turned]), &out[..3], refusal(1, 0, 0)),
        (
            &pool,
            words(&[key(5), key(5), unknown]),
            &out[..3],
            refusal(1, 0, 2),
        ),
        (
            &pool,
            words(&[key(5), key(5), past]),
            &out[..3],
            refusal(2, 0, 2),
        ),
        (
            &pool,
            words(&[key(5), key(5), turned]),
            &out[..3],
            refusal(3, 0, 2),
        ),
        (
            &pool,
            words(&[key(1), key(5), key(5)]),
            &out[..3],
            refusal(4, 0, 2),
        ),
        (
            &pool,
            words(&[key(1), key(5)]),
            &out[..2],
            refusal(14, 0, 0),
        ),
        (
            &pool,
            words(&[key(1), key(5)]),
            &[most, -most - 1],
            refusal(14, 0, 1),
        ),
        (
            &pool,
            words(&[key(1), key(5)]),
            &[-most, i64::MAX],
            refusal(14, 0, 1),
        ),
        (
            &pool,
            words(&[key(1), key(5)]),
            &[i64::MIN, 0],
            refusal(14, 0, 0),
        ),
    ] {
        let (mut has, mut amount) = (7, 7);
        let returned = words::rate(pool, &words, amounts, &[1; 300], &mut has, &mut amount);
        assert_eq!((returned, has, amount), (refused, 7, 7));
        for keys in [&[][..], &odd, &many, &far] {
            assert_eq!(invoiced(pool, &words, amounts, keys), (refused, LENT));
        }
    }
    let (words, amounts) = (words(&[key(1), key(5)]), [most, -most]);
    for (keys, refused) in [
        (&odd[..], refusal(1, 1, 0)),
        (&[1, 1, 256, 1, 0], refusal(1, 1, 0)),
        (&many, refusal(15, 1, 0)),
        (&far, refusal(2, 1, 1)),
        (&[5, 1, 1, 1, 0, 256], refusal(2, 1, 2)),
        (&[257, 0, 0, 256], refusal(2, 1, 0)),
        (&[u32::MAX, u32::MAX], refusal(2, 1, 0)),
        (&[u32::MAX, 1], refusal(2, 1, 0)),
        (&[2, 255], refusal(2, 1, 0)),
    ] {
        assert_eq!(invoiced(&pool, &words, &amounts, keys), (refused, LENT));
    }
    let whole = [[1, 1]; 999].concat();
    let answer = words::Invoice {
        sum: 999 * most,
        without: 1,
        cents: 999 * most / 100,
    };
    assert_eq!(
        invoiced(&pool, &words, &amounts, &[&whole[..], &[256, 0]].concat()),
        (0, answer)
    );
}

const LENT: words::Invoice = words::Invoice {
    sum: 7,
    without: 7,
    cents: 7,
};

/// What the call returns, and leaves of what is lent.
fn invoiced(pool: &[u8], words: &[u32], amounts: &[i64], keys: &[u32]) -> (u64, words::Invoice) {
    let mut lent = LENT;
    let returned = words::invoice(pool, words, amounts, keys, &mut lent);
    (returned, lent)
}

#[test]
fn positions() {
    let mut pool = Pool::new();
    let mut key = |p: u64| pool.add(&p.to_be_bytes()).unwrap();
    let items = [
        Item::range(key(2), key(5)),
        Item::key(key(5)),
        Item::range_inclusive(key(5), key(7)),
    ];
    let covered = PositionIntervals::from_query_items(pool.bytes(), &items, 100).unwrap();
    assert_eq!(covered.iter().collect::<Vec<_>>(), [2..8]);
    assert!(covered.contains(7) && !covered.contains(8));
    assert!(!covered.is_empty() && PositionIntervals::default().is_empty());
    let clipped = PositionIntervals::from_query_items(pool.bytes(), &items, 6).unwrap();
    assert_eq!((&clipped).into_iter().collect::<Vec<_>>(), [2..6]);

    let touching = PositionIntervals::from_ranges(&[0..3, 3..4]).unwrap_err();
    assert_eq!(
        (touching.reason(), touching.index),
        (Reason::NotCanonical, 1)
    );
    let repeated = covered.extra_in(&[3, 3]).unwrap_err();
    assert_eq!(
        (repeated.reason(), repeated.side, repeated.index),
        (Reason::NotAscending, Side::Theirs, 1)
    );
    let turned = covered.missing_from_spans(&[Span { start: 3, end: 2 }]);
    assert_eq!(turned.unwrap_err().reason(), Reason::NotAscending);
    assert!(covered
        .missing_from_spans(&[Span { start: 0, end: 9 }])
        .unwrap()
        .is_empty());
}

/// The start and end of each interval, and the total, which a count afresh has to give too.
fn told(covered: &PositionIntervals) -> (Vec<(u64, u64)>, u64) {
    let mut rows = 0;
    assert_eq!(words::len(covered.pair_words(), &mut rows), 0);
    assert_eq!(covered.len(), rows);
    let pairs = covered.iter().map(|range| (range.start, range.end));
    (pairs.collect(), rows)
}

#[test]
fn a_list_that_is_changed() {
    let mut pool = Pool::new();
    let mut key = |p: u64| pool.add(&p.to_be_bytes()).unwrap();
    let items = [
        Item::range(key(20), key(24)),
        Item::range(key(0), key(10)),
        Item::key(key(5)),
    ];
    let mut covered = PositionIntervals::from_query_items(pool.bytes(), &items, 100).unwrap();
    assert_eq!(told(&covered), (vec![(0, 10), (20, 24)], 14));
    let mut after_cover = |range| {
        covered.cover(range).unwrap();
        told(&covered)
    };
    assert_eq!(after_cover(3..7), (vec![(0, 10), (20, 24)], 14));
    assert_eq!(after_cover(12..15), (vec![(0, 10), (12, 15), (20, 24)], 17));
    assert_eq!(after_cover(10..12), (vec![(0, 15), (20, 24)], 19));
    assert_eq!(after_cover(19..30), (vec![(0, 15), (19, 30)], 26));
    assert_eq!(after_cover(0..40), (vec![(0, 40)], 40));
    let mut after_uncover = |range| {
        covered.uncover(range).unwrap();
        told(&covered)
    };
    assert_eq!(after_uncover(10..20), (vec![(0, 10), (20, 40)], 30));
    assert_eq!(after_uncover(10..20), (vec![(0, 10), (20, 40)], 30));
    assert_eq!(after_uncover(9..21), (vec![(0, 9), (21, 40)], 28));
    assert_eq!(after_uncover(0..1), (vec![(1, 9), (21, 40)], 27));
    assert_eq!(after_uncover(39..50), (vec![(1, 9), (21, 39)], 26));
    assert_eq!(after_uncover(0..21), (vec![(21, 39)], 18));
    assert_eq!(after_uncover(0..u64::MAX), (vec![], 0));
    assert!(covered.is_empty() && covered == PositionIntervals::default());
}

#[test]
fn ranges_that_change_nothing() {
    for (start, end) in [(5, 5), (0, 0), (7, 3), (u64::MAX, u64::MAX), (u64::MAX, 0)] {
        let mut covered = PositionIntervals::from_ranges(&[0..10, 20..24]).unwrap();
        covered.cover(Range { start, end }).unwrap();
        covered.uncover(Range { start, end }).unwrap();
        assert_eq!(told(&covered), (vec![(0, 10), (20, 24)], 14));
    }
}

/// The canonical list of a set of rows, without row 0.
fn pairs_of(rows: &BTreeSet<u64>) -> Vec<(u64, u64)> {
    let starts = rows.iter().filter(|&&row| !rows.contains(&(row - 1)));
    let ends = rows.iter().filter(|&&row| !rows.contains(&(row + 1)));
    starts.zip(ends).map(|(&a, &b)| (a, b + 1)).collect()
}

/// Numbers by chance, below a bound, the same in each run.
struct Chance(u64);

impl Chance {
    fn below(&mut self, bound: u64) -> u64 {
        self.0 = self.0.wrapping_mul(6_364_136_223_846_793_005);
        self.0 = self.0.wrapping_add(1_442_695_040_888_963_407);
        (self.0 >> 33) % bound
    }
}

/// 10,000 changes, of few rows or of many, in the 60 rows from one on, held against a set of rows.
fn changed_beside_a_set(first: u64) {
    let mut chance = Chance(first);
    let mut covered = PositionIntervals::default();
    let mut rows = BTreeSet::new();
    for turn in 0..10_000 {
        let start = first + chance.below(60);
        let width = if turn % 50 < 45 { 3 } else { 40 };
        let end = start.saturating_add(chance.below(width)).min(first + 60);
        if chance.below(2) == 0 {
            covered.cover(start..end).unwrap();
            rows.extend(start..end);
        } else {
            covered.uncover(start..end).unwrap();
            rows.retain(|row| !(start..end).contains(row));
        }
        assert_eq!(told(&covered), (pairs_of(&rows), rows.len() as u64));
        assert!((first..first + 60).all(|row| covered.contains(row) == rows.contains(&row)));
    }
}

#[test]
fn changes_in_turn() {
    changed_beside_a_set(1);
    // the rows up to the last one that can be covered
    changed_beside_a_set(u64::MAX - 60);
}

#[test]
fn changes_at_the_greatest_positions() {
    const MAX: u64 = u64::MAX;
    let mut covered = PositionIntervals::default();
    covered.cover(0..MAX).unwrap();
    assert_eq!(told(&covered), (vec![(0, MAX)], MAX));
    assert!(covered.contains(MAX - 1) && !covered.contains(MAX));
    covered.cover(MAX - 1..MAX).unwrap();
    assert_eq!(told(&covered), (vec![(0, MAX)], MAX));
    covered.uncover(MAX - 1..MAX).unwrap();
    assert_eq!(told(&covered), (vec![(0, MAX - 1)], MAX - 1));
    covered.uncover(1..MAX - 2).unwrap();
    assert_eq!(told(&covered), (vec![(0, 1), (MAX - 2, MAX - 1)], 2));
    covered.cover(MAX - 1..MAX).unwrap();
    assert_eq!(told(&covered), (vec![(0, 1), (MAX - 2, MAX)], 3));
    covered.uncover(0..MAX).unwrap();
    assert_eq!(told(&covered), (vec![], 0));
}

#[test]
fn a_buffer_that_grows() {
    // every second row, from both ends in turn, into no room at all
    let mut covered = PositionIntervals::default();
    for row in 0..500 {
        covered.cover(2 * row..2 * row + 1).unwrap();
        covered.cover(1_998 - 2 * row..1_999 - 2 * row).unwrap();
    }
    let single = (0..1_000).map(|row| (2 * row, 2 * row + 1)).collect();
    assert_eq!(told(&covered), (single, 1_000));
    // one that is cut again and again, in no room but its own
    let mut cut = PositionIntervals::from_stored(vec![0, 1_999], 1, 1_999).unwrap();
    for row in 0..999 {
        cut.uncover(2 * row + 1..2 * row + 2).unwrap();
    }
    assert_eq!(told(&cut), told(&covered));
    // spare words are used before there are more of them, and an odd one is no room
    for (length, grown) in [(4, 16), (5, 16), (6, 6), (7, 7), (40, 40)] {
        let mut words = vec![7; length];
        words[..4].copy_from_slice(&[0, 10, 20, 24]);
        let mut stored = PositionIntervals::from_stored(words, 2, 14).unwrap();
        stored.cover(9..21).unwrap();
        stored.uncover(4..5).unwrap();
        stored.uncover(6..7).unwrap();
        assert_eq!(told(&stored), (vec![(0, 4), (5, 6), (7, 24)], 22));
        assert_eq!(stored.into_stored().0.len(), grown);
    }
}

#[test]
fn spare_words_tell_nothing() {
    let stored = |words: &[u64]| PositionIntervals::from_stored(words.to_vec(), 2, 14).unwrap();
    let mut grown = PositionIntervals::default();
    grown.cover(20..24).unwrap();
    grown.cover(0..10).unwrap();
    let mut cut = PositionIntervals::from_ranges(&[0..12, 14..16, 20..24]).unwrap();
    cut.uncover(10..16).unwrap();
    let same = [
        PositionIntervals::from_ranges(&[0..10, 20..24]).unwrap(),
        stored(&[0, 10, 20, 24]),
        stored(&[0, 10, 20, 24, 30]),
        stored(&[0, 10, 20, 24, 30, 40, 1, 1]),
        stored(&[0, 10, 20, 24, 30, 40, 1, 1]).clone(),
        grown,
        cut,
    ];
    for list in &same {
        assert_eq!(list, &same[0]);
        assert_eq!(list.pair_words(), [0, 10, 20, 24]);
        assert_eq!(format!("{list:?}"), "PositionIntervals [0..10, 20..24]");
        assert_eq!(list.clone().into_stored(), (vec![0, 10, 20, 24], 2, 14));
        assert_eq!(list.missing_from(&[]).unwrap().total(), 14);
        assert_eq!(list.extra_in(&[9, 30]).unwrap().examples(), [30]);
        let spans = [Span { start: 0, end: 24 }];
        assert!(list.missing_from_spans(&spans).unwrap().is_empty());
        let plan = list.plan_refetch(&[], 10, 2).unwrap();
        assert_eq!(plan.windows().collect::<Vec<_>>(), [0..10, 20..24]);
        assert_eq!(plan.check(list, &[], 10), Ok(true));
        assert!(!list.contains(30) && !list.is_empty());
    }
    assert_eq!(same.into_iter().collect::<HashSet<_>>().len(), 1);
    let other = PositionIntervals::from_ranges(&[0..10, 20..23]).unwrap();
    assert_ne!(other, stored(&[0, 10, 20, 24]));
    let first = PositionIntervals::from_stored(vec![0, 10, 20, 24], 1, 10).unwrap();
    assert_ne!(first, stored(&[0, 10, 20, 24]));
    let none = PositionIntervals::from_stored(vec![7, 7, 7], 0, 0).unwrap();
    assert_eq!(none, PositionIntervals::default());
    assert_eq!(none.into_stored(), (vec![7, 7, 7], 0, 0));
}

/// Words of which a stored list is no list, or has not its total, with the refusal.
fn stored_wrongly() -> Vec<(Vec<u64>, usize, u64, u64)> {
    let nine = |index: u64| 9 + 65_536 * index;
    vec![
        (vec![0, 10, 20, 24], 3, 14, 1),
        (vec![0, 10, 20, 24, 30], 3, 14, 1),
        (vec![], 1, 0, 1),
        (vec![5, 5], usize::MAX, 0, 1),
        (vec![5, 5, 20, 24], 2, 9, nine(0)),
        (vec![0, 10, 24, 20], 2, 14, nine(1)),
        (vec![0, 10, 10, 24], 2, 24, nine(1)),
        (vec![0, 10, 9, 24], 2, 24, nine(1)),
        (vec![0, 10, 20, 24, 7, 7, 7], 3, 14, nine(2)),
        (vec![0, 10, 20, 24], 2, 13, nine(2)),
        (vec![0, 10, 20, 24], 2, 15, nine(2)),
        (vec![0, 10, 20, 24, 30], 2, 0, nine(2)),
        (vec![0, 10, 20, 24], 1, 14, nine(1)),
        (vec![7, 7], 0, 1, nine(0)),
        (vec![0, u64::MAX], 1, 0, nine(1)),
    ]
}

#[test]
fn a_refused_stored_list_stays() {
    for (words, pairs, total, refused) in stored_wrongly() {
        let mut rows = 7;
        let returned = words::stored_total(&words, pairs, total, &mut rows);
        assert_eq!((returned, rows), (refused, 7));
        // also where the range would change nothing, or the new list would not fit
        for (start, end) in [(1, 2), (12, 13), (5, 5), (9, 3), (0, u64::MAX)] {
            for call in [words::cover, words::uncover] {
                let (mut lent, mut count, mut rows) = (words.clone(), 7, 7);
                let returned = call(&mut lent, pairs, total, start, end, &mut count, &mut rows);
                assert_eq!((returned, count, rows), (refused, 7, 7));
                assert_eq!(lent, words);
            }
        }
        let error = PositionIntervals::from_stored(words, pairs, total).unwrap_err();
        assert_eq!(Err(error), Refusal::from_number(refused));
    }
    let wrong = PositionIntervals::from_stored(vec![0, 10], 1, 9).unwrap_err();
    assert_eq!(
        wrong.to_string(),
        "our interval 1: intervals are not empty, ascend, and stand apart from each other; \
         where the index is their number, the stored total is not theirs (refusal 9)"
    );
}

#[test]
fn changes_in_lent_words() {
    let list = [0, 10, 20, 24];
    // what is lent behind the list, the call and its range, the refusal, and what is left: words, pairs and total
    for (spare, call, (start, end), refused, left, pairs, total) in [
        // one pair more than fits, of the words that are lent or of the whole pairs
        (
            &[][..],
            words::cover as Change,
            (12, 13),
            6,
            &list[..],
            7,
            7,
        ),
        (&[8], words::cover, (12, 13), 6, &[0, 10, 20, 24, 8], 7, 7),
        (&[], words::uncover, (4, 5), 6, &list, 7, 7),
        (&[8], words::uncover, (4, 5), 6, &[0, 10, 20, 24, 8], 7, 7),
        // in a full buffer what merges, widens, narrows or takes away is no matter of room
        (&[], words::cover, (10, 20), 0, &[0, 24, 0, 0], 1, 24),
        (&[], words::cover, (24, 30), 0, &[0, 10, 20, 30], 2, 20),
        (&[], words::cover, (5, 6), 0, &list, 2, 14),
        (&[], words::uncover, (9, 21), 0, &[0, 9, 21, 24], 2, 12),
        (&[], words::uncover, (0, 10), 0, &[20, 24, 0, 0], 1, 4),
        (&[], words::uncover, (12, 13), 0, &list, 2, 14),
        (&[], words::cover, (13, 12), 0, &list, 2, 14),
        // freed words become 0, later ones stay
        (
            &[8; 3],
            words::cover,
            (12, 13),
            0,
            &[0, 10, 12, 13, 20, 24, 8],
            3,
            15,
        ),
        (
            &[8; 3],
            words::uncover,
            (4, 5),
            0,
            &[0, 4, 5, 10, 20, 24, 8],
            3,
            13,
        ),
        (
            &[8; 3],
            words::cover,
            (0, 50),
            0,
            &[0, 50, 0, 0, 8, 8, 8],
            1,
            50,
        ),
        (
            &[8; 3],
            words::uncover,
            (0, 50),
            0,
            &[0, 0, 0, 0, 8, 8, 8],
            0,
            0,
        ),
        (
            &[8; 3],
            words::uncover,
            (4, 4),
            0,
            &[0, 10, 20, 24, 8, 8, 8],
            2,
            14,
        ),
    ] {
        let (mut lent, mut count, mut rows) = ([&list, spare].concat(), 7, 7);
        let returned = call(&mut lent, 2, 14, start, end, &mut count, &mut rows);
        assert_eq!((returned, count, rows), (refused, pairs, total));
        assert_eq!(lent, left);
    }
    let (mut count, mut rows) = (7, 7);
    let returned = words::cover(&mut [], 0, 0, 3, 4, &mut count, &mut rows);
    assert_eq!((returned, count, rows), (6, 7, 7));
    let returned = words::uncover(&mut [], 0, 0, 3, 4, &mut count, &mut rows);
    assert_eq!((returned, count, rows), (0, 0, 0));
}

/// A call that changes a stored list.
type Change = fn(&mut [u64], usize, u64, u64, u64, &mut u64, &mut u64) -> u64;

#[test]
fn building_tells_the_total() {
    let pool = [2u64, 5, 9].map(u64::to_be_bytes).concat();
    let (range, key) = ([1, 0, 0, 8, 8, 8], [0, 0, 16, 8, 0, 0]);
    let items = [range, key].concat();
    let (mut out, mut pairs, mut total) = ([7; 5], 7, 7);
    let returned = words::from_query_items(&pool, &items, 100, &mut out, &mut pairs, &mut total);
    assert_eq!((returned, pairs, total), (0, 2, 4));
    assert_eq!(out, [2, 5, 9, 10, 7]);
    let mut rows = 7;
    assert_eq!(words::stored_total(&out, 2, total, &mut rows), 0);
    assert_eq!(rows, 4);
    // and leaves its place where it refuses
    let wrapped = [[1, 1, 0, 8, 8, 8], key].concat();
    for (items, room, refused) in [(&items[..11], 4, 1), (&wrapped, 4, 5), (&items, 3, 6)] {
        let (mut out, mut pairs, mut total) = ([7; 4], 7, 7);
        let lent = &mut out[..room];
        let returned = words::from_query_items(&pool, items, 100, lent, &mut pairs, &mut total);
        assert_eq!((returned, out, pairs, total), (refused, [7; 4], 7, 7));
    }
}

/// The rows 0 to 9 and 20 to 23, of which 3, 4 and 21 are proved: in windows of 4 rows.
fn refetched() -> (PositionIntervals, [u64; 3], u64) {
    let covered = PositionIntervals::from_ranges(&[0..10, 20..24]).unwrap();
    (covered, [3, 4, 21], 4)
}

#[test]
fn a_plan_of_missing_rows() {
    let (covered, proved, most) = refetched();
    let plan = covered.plan_refetch(&proved, most, usize::MAX).unwrap();
    let windows = [0..3, 5..9, 9..10, 20..24];
    assert_eq!(plan.windows().collect::<Vec<_>>(), windows);
    assert_eq!((&plan).into_iter().collect::<Vec<_>>(), windows);
    assert_eq!((plan.len(), plan.is_empty()), (4, false));
    assert_eq!(plan, RefetchPlan::from_windows(&windows));
    assert_eq!(plan.check(&covered, &proved, most), Ok(true));
    assert_eq!(covered.plan_refetch(&proved, most, 4), Ok(plan));
    // nothing is missing: no window, and no room that it needs
    let all: Vec<u64> = covered.iter().flatten().collect();
    let none = covered.plan_refetch(&all, most, 0).unwrap();
    assert_eq!((none.len(), none.is_empty()), (0, true));
    assert_eq!(none.check(&covered, &all, most), Ok(true));
}

#[test]
fn plans_of_many_windows() {
    // one window for each interval, and no row more
    let rows = [0, 10, 20].map(|start| start..start + 1);
    let apart = PositionIntervals::from_ranges(&rows).unwrap();
    let plan = apart.plan_refetch(&[], 5, usize::MAX).unwrap();
    assert_eq!(plan.windows().collect::<Vec<_>>(), rows);
    // about as many as memory is taken for at first, and many more
    for count in [4_095, 4_096, 4_097, 100_000] {
        let covered = PositionIntervals::from_ranges(&[0..count]).unwrap();
        let each: Vec<_> = (0..count).map(|row| row..row + 1).collect();
        for room in [count as usize, usize::MAX] {
            let plan = covered.plan_refetch(&[], 1, room).unwrap();
            assert_eq!(plan, RefetchPlan::from_windows(&each));
        }
        let short = covered.plan_refetch(&[], 1, count as usize - 1);
        assert_eq!(short.unwrap_err().reason(), Reason::NoRoom);
    }
}

#[test]
fn plans_that_are_not_accepted() {
    let (covered, proved, most) = refetched();
    let accepted = |windows: &[_]| {
        let plan = RefetchPlan::from_windows(windows);
        plan.check(&covered, &proved, most).unwrap()
    };
    assert!(accepted(&[0..3, 5..9, 9..10, 20..24]));
    assert!(accepted(&[0..1, 1..3, 5..7, 7..10, 20..21, 22..24]));
    for (fault, windows) in [
        ("descending", vec![5..9, 0..3, 9..10, 20..24]),
        ("a row twice", vec![0..3, 5..9, 8..10, 20..24]),
        ("twice the same", vec![0..3, 0..3, 5..9, 9..10, 20..24]),
        ("empty", vec![0..3, 5..5, 5..9, 9..10, 20..24]),
        (
            "turned round",
            vec![0..3, Range { start: 9, end: 5 }, 9..10, 20..24],
        ),
        ("too wide", vec![0..3, 5..10, 20..24]),
        ("begins on a proved row", vec![0..3, 4..8, 8..10, 20..24]),
        ("ends on a proved row", vec![0..4, 5..9, 9..10, 20..24]),
        ("ends past what is covered", vec![0..3, 5..9, 9..11, 20..24]),
        ("lacks the first", vec![5..9, 9..10, 20..24]),
        ("lacks one between", vec![0..3, 5..9, 20..24]),
        ("lacks the last", vec![0..3, 5..9, 9..10, 20..23]),
        ("lacks all", vec![]),
    ] {
        assert!(!accepted(&windows), "{fault}");
    }
}

#[test]
fn plans_that_are_refused() {
    let (covered, proved, most) = refetched();
    let plan = RefetchPlan::default();
    let told = |refusal: Refusal| (refusal.reason(), refusal.side, refusal.index);
    let short = covered.plan_refetch(&proved, most, 3).unwrap_err();
    assert_eq!(told(short), (Reason::NoRoom, Side::Ours, 0));
    for (proved, most, refused) in [
        (&[3, 4, 4][..], 0, (Reason::NotAscending, Side::Theirs, 2)),
        (&[3, 4, 21], 0, (Reason::EmptyWindows, Side::Ours, 0)),
    ] {
        let planned = covered.plan_refetch(proved, most, 0).unwrap_err();
        assert_eq!(told(planned), refused);
        assert_eq!(planned, plan.check(&covered, proved, most).unwrap_err());
    }
    let no_rows = plan.check(&covered, &[], 0).unwrap_err();
    assert_eq!(
        no_rows.to_string(),
        "windows of at most 0 rows can fetch nothing (refusal 16)"
    );
}

#[test]
fn plans_of_more_windows_than_memory() {
    let all = PositionIntervals::from_ranges(&[0..u64::MAX]).unwrap();
    for room in [0, 1, 1_000, usize::MAX] {
        let refusal = all.plan_refetch(&[], 1, room).unwrap_err();
        assert_eq!(refusal.reason(), Reason::NoRoom);
        // what is refused before want of room still is
        let refusal = all.plan_refetch(&[7, 7], 1, room).unwrap_err();
        assert_eq!(refusal.reason(), Reason::NotAscending);
        let refusal = all.plan_refetch(&[], 0, room).unwrap_err();
        assert_eq!(refusal.reason(), Reason::EmptyWindows);
    }
    let plan = all.plan_refetch(&[5], u64::MAX - 1, usize::MAX).unwrap();
    assert_eq!(
        plan.windows().collect::<Vec<_>>(),
        [0..u64::MAX - 1, u64::MAX - 1..u64::MAX]
    );
    assert_eq!(plan.check(&all, &[5], u64::MAX - 1), Ok(true));
    let whole = all.plan_refetch(&[5], u64::MAX, 1).unwrap();
    assert_eq!(whole.windows().collect::<Vec<_>>(), [0..u64::MAX]);
}

#[test]
fn a_refused_plan_leaves_what_is_lent() {
    let (good, missing) = ([0, 10, 20, 24], [3, 4, 21]);
    let refusal = |number, side: u64, index: u64| number + 256 * side + 65_536 * index;
    for (intervals, proved, most, room, refused) in [
        (&good[..3], &[4, 4][..], 0, 0, refusal(1, 0, 0)),
        (&[0, 10, 10, 24], &[4, 4], 0, 0, refusal(9, 0, 1)),
        (&good, &[4, 4], 0, 0, refusal(8, 1, 1)),
        (&good, &missing, 0, 0, refusal(16, 0, 0)),
        (&good, &missing, 4, 7, refusal(6, 0, 0)),
    ] {
        let (mut out, mut windows) = ([7; 9], 7);
        let lent = &mut out[..room];
        let returned = words::plan_refetch(intervals, proved, most, lent, &mut windows);
        assert_eq!((returned, out, windows), (refused, [7; 9], 7));
    }
    // an odd last word of what is lent is no fault, and stays
    let (mut out, mut windows) = ([7; 9], 7);
    let returned = words::plan_refetch(&good, &missing, 4, &mut out, &mut windows);
    assert_eq!((returned, windows), (0, 4));
    assert_eq!(out, [0, 3, 5, 9, 9, 10, 20, 24, 7]);
    for (intervals, proved, most, plan, refused) in [
        (&good[..3], &[4, 4][..], 0, &[0, 3, 5][..], refusal(1, 0, 0)),
        (&[0, 10, 10, 24], &[4, 4], 0, &[0, 3, 5], refusal(9, 0, 1)),
        (&good, &[4, 4], 0, &[0, 3, 5], refusal(1, 1, 0)),
        (&good, &[4, 4], 0, &[0, 3], refusal(8, 1, 1)),
        (&good, &missing, 0, &[0, 3], refusal(16, 0, 0)),
    ] {
        let mut yes = 7;
        let returned = words::check_plan(intervals, proved, most, plan, &mut yes);
        assert_eq!((returned, yes), (refused, 7));
    }
    let odd = Refusal::from_number(refusal(1, 1, 0)).unwrap_err();
    assert!(odd.to_string().contains("an odd number of words"));
}

#[test]
fn nothing_is_off() {
    let report = PositionMismatch::empty();
    assert!(report.is_empty() && report.examples().is_empty());
    assert_eq!(report.to_string(), "0 positions: []");
}

#[test]
fn an_extreme_position() {
    let all =
        PositionIntervals::from_query_items(&[], &[QueryItem::RangeFull.into()], u64::MAX).unwrap();
    assert_eq!((all.len(), all.contains(u64::MAX)), (u64::MAX, false));
}
