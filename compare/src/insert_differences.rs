//! D11 to D14 in docs/DIFFERENCES.md: each input that stands there, on both sides, and what stands there of both.

use crate::{
    insertion::{rust, Left},
    items::{item_of, Words},
    many::items,
    query_item::QueryItem,
    table::{Against, Row},
};

/// The list after an insertion, or the returned refusal.
type Answer = Result<Vec<QueryItem>, u64>;

/// The keys of one byte, each at its own offset.
const POOL: [u8; 10] = [0, 1, 2, 3, 4, 5, 6, 7, 8, 9];

/// 4, side 0, index 1.
const OUT_OF_ORDER: u64 = 4 + 65_536;

/// 3, side 1, index 0.
const NOT_UPRIGHT: u64 = 3 + 256;

pub fn run() -> Vec<Row> {
    let mut rows = [
        Row::new("D11 place among equal ranges"),
        Row::new("D12 insertion into a list out of order"),
        Row::new("D13 inserting what is not upright"),
        Row::new("D14 a comment of the original"),
    ];
    let (plain, count, sum) = (from_to(2, 1, 3), wrapped(1), wrapped(2));
    hold(
        &mut rows[0],
        &[count, sum],
        plain,
        [list(&[plain, count, sum]), list(&[count, plain, sum])],
    );
    hold(
        &mut rows[1],
        &[key(9), key(1)],
        key(5),
        [Err(OUT_OF_ORDER), list(&[key(9), key(1), key(5)])],
    );
    hold(
        &mut rows[1],
        &[key(5), key(5)],
        key(5),
        [Err(OUT_OF_ORDER), list(&[key(5)])],
    );
    let upside_down = from_to(2, 5, 3);
    hold(
        &mut rows[2],
        &[],
        upside_down,
        [Err(NOT_UPRIGHT), list(&[upside_down])],
    );
    // that the two collide is the original's; what they merge to is the stand-in's
    hold(
        &mut rows[2],
        &[from_to(2, 1, 9)],
        from_to(1, 5, 5),
        [Err(NOT_UPRIGHT), list(&[from_to(2, 1, 9)])],
    );
    let both = list(&[from_to(1, 1, 5), key(5)]);
    hold(
        &mut rows[3],
        &[from_to(1, 1, 5)],
        key(5),
        [both.clone(), both],
    );
    rows.into()
}

fn key(byte: u32) -> Words {
    [0, 0, byte, 1, 0, 0]
}

fn from_to(code: u32, from: u32, to: u32) -> Words {
    [code, 0, from, 1, to, 1]
}

/// [01,03] in a wrapper.
fn wrapped(wrapper: u32) -> Words {
    [2, wrapper, 1, 1, 3, 1]
}

fn list(list: &[Words]) -> Answer {
    Ok(items(&list.concat(), &POOL))
}

fn hold(row: &mut Row, list: &[Words], item: Words, stated: [Answer; 2]) {
    let words = list.concat();
    let left = Left::new(&words, 6).call(&POOL, list.len(), item);
    let ours = match left.returned {
        0 => Ok(left.items(&POOL)),
        refused => Err(refused),
    };
    let new = item_of(item, &POOL).expect("the item is one of the table's");
    let rust = Ok(rust::insert(items(&words, &POOL), new));
    row.hold(
        || format!("{item:?} into {list:?}"),
        Against::differences(ours, rust, stated),
    );
}
