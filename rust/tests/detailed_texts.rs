//! The detailed texts of refusals by the calls that `calls.rs` tries: lists, sheets, cards and stored lists.

use fernsponge::*;

/// A pool of the bytes 0 to 255, so that the key of one byte b stands at offset b.
fn pool() -> Vec<u8> {
    (0..=255).collect()
}

fn at(b: u8) -> KeyAt {
    KeyAt {
        offset: b.into(),
        length: 1,
    }
}

#[test]
fn room_for_three_lists() {
    let mark = Item::from_words([7; 6]);
    let refused = intersect_many_into(
        &pool(),
        &[Item::range(at(1), at(5))],
        &[Item::key(at(3))],
        [&mut [mark; 2], &mut [mark; 1], &mut [mark; 2]],
    );
    let refusal = refused.unwrap_err();
    assert_eq!(refusal.reason(), Reason::NoRoom);
    assert_eq!(
        format!("{refusal:#}"),
        "the three lists need more room than was lent: 2 items for shared, 1 for ours and 2 for theirs; 2 are always enough for each (refusal 6)"
    );
}

#[test]
fn lists_that_are_refused() {
    let said = |items: &[Item], side| {
        let refusal = check_list(&pool(), items, side).unwrap_err();
        format!("{refusal:#}")
    };
    assert_eq!(
        said(&[Item::key(at(5)), Item::key(at(5))], Side::Theirs),
        "their item 1: it does not start above the end of the item before it (refusal 4)"
    );
    let past = KeyAt {
        offset: 256,
        length: 1,
    };
    assert_eq!(
        said(&[Item::key(past)], Side::Ours),
        "our item 0: its key is 1 byte from offset 256 on, and the pool has 256 bytes (refusal 2)"
    );
    let unknown = Item::from_words([10, 0, 0, 0, 0, 0]);
    assert_eq!(
        said(&[unknown], Side::Ours),
        "our item 0: its code is 10, and codes are 0 to 9 (refusal 1)"
    );
}

#[test]
fn a_list_that_makes_no_sheet() {
    let counted = Item::new(Wrapper::Count, QueryItem::RangeFull);
    let refusal = Sheet::write(&[], &[counted]).unwrap_err();
    assert_eq!(
        format!("{refusal:#}"),
        "our item 0: its wrapper is count, and only plain items have a row in a sheet (refusal 5)"
    );
}

/// A row whose keys have so many bytes.
fn row_of(start: usize, end: usize) -> String {
    let key = |length| "Ab".repeat(length);
    format!("RangeAfterToInclusive,{},{}\r\n", key(start), key(end))
}

#[test]
fn sheets_without_room() {
    // 2,048 rows, and keys of 65,536 bytes: one row more, or one byte, have no room
    let full = row_of(16, 16).repeat(2_048);
    assert!(Sheet::read(full.as_bytes()).is_ok());
    let one_more = [&full[..], "RangeFull,,\r\n"].concat();
    let longer = [&full[row_of(16, 16).len()..], &row_of(17, 16)].concat();
    for (text, said) in [
        (one_more, "the sheet has 2,049 rows, and a list has at most 2,048 (refusal 6)"),
        (
            longer,
            "the pool has 0 bytes before the keys of the sheet, and would have more than 65,536 with them (refusal 6)",
        ),
    ] {
        let error = Sheet::read(text.as_bytes()).unwrap_err();
        let refusal = error.refusal;
        assert_eq!(
            (refusal.reason(), refusal.side, refusal.index),
            (Reason::NoRoom, Side::Ours, 0)
        );
        assert_eq!(error.fault, None);
        assert_eq!(format!("{error:#}"), said);
        // without the sign, the text is the general one of a sheet
        assert_eq!(
            error.to_string(),
            "no room: a sheet has at most 2,048 rows, and the pool that its keys go to at most 65,536 bytes (refusal 6)"
        );
    }
}

#[test]
fn bad_rows_have_one_text() {
    for (text, said) in [
        (
            "Key,03,\r\n\r\n",
            "row 1, column 0, counted from 0: the row is blank (refusal 12)".to_string(),
        ),
        (
            &format!("Key,{},", "05".repeat(256)),
            "row 0, column 1, counted from 0: the start key has more than 255 bytes (refusal 2)"
                .to_string(),
        ),
    ] {
        let error = Sheet::read(text.as_bytes()).unwrap_err();
        assert_eq!(
            [error.to_string(), format!("{error:#}")],
            [said.clone(), said]
        );
    }
}

#[test]
fn cards_and_invoices_at_the_limits() {
    let (pool, items) = (pool(), [1, 3, 5].map(|b| Item::key(at(b))));
    let amounts = [1, 2, 3].map(|number| Amount::from_ten_thousandths(number).unwrap());
    let card = RateCard::new(&pool, &items, &amounts);
    let refusal = card.invoice(&[at(1); 1_001]).unwrap_err();
    assert_eq!(
        (refusal.reason(), refusal.side, refusal.index),
        (Reason::TooManyKeys, Side::Theirs, 0)
    );
    assert_eq!(
        format!("{refusal:#}"),
        "the invoice has 1,001 keys, and an invoice has at most 1,000 (refusal 15)"
    );
    let long = KeyAt {
        offset: 0,
        length: 256,
    };
    let refusal = card.invoice(&[at(1), long]).unwrap_err();
    assert_eq!(
        format!("{refusal:#}"),
        "key 1 of the invoice: it has 256 bytes, and a key has at most 255 (refusal 2)"
    );
    let refusal = RateCard::new(&pool, &items, &amounts[..2])
        .rate(&[1])
        .unwrap_err();
    assert_eq!(
        (refusal.reason(), refusal.side, refusal.index),
        (Reason::Malformed, Side::Ours, 0)
    );
    assert_eq!(
        format!("{refusal:#}"),
        "the card has 3 items and 2 amounts, and has to have one for each item (refusal 1)"
    );
}

#[test]
fn a_wrong_stored_total() {
    let wrong = PositionIntervals::from_stored(vec![0, 10], 1, 9).unwrap_err();
    assert_eq!(
        format!("{wrong:#}"),
        "the stored total is 9, and the intervals cover 10 (refusal 9)"
    );
}
