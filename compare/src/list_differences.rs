//! D1 to D3, D5 to D10 and D19 in docs/DIFFERENCES.md: each input that stands there, on both sides, and what stands there of both.

use crate::{
    algebra::rust,
    calls::place,
    fernsponge,
    items::{item_of, read, Words},
    many::{self, items},
    query_item::QueryItem,
    table::{Against, Row},
};

/// Shared, ours only and theirs only, or the returned refusal.
type Answer = Result<[Vec<QueryItem>; 3], u64>;

/// The keys of one byte, each at its own offset, then 05 00.
const POOL: [u8; 19] = [
    0, 1, 2, 3, 4, 5, 6, 7, 8, 9, 10, 11, 12, 13, 14, 15, 16, 5, 0,
];

pub fn run() -> Vec<Row> {
    vec![
        not_upright(),
        empty_range(),
        limits(),
        not_strict(),
        theirs_empty(),
        ours_used_up(),
        theirs_only(),
        drained(),
        empty_results(),
        keyless(),
    ]
}

fn not_upright() -> Row {
    let mut row = Row::new("D1 items not upright");
    let (ours, theirs) = (from_to(2, 5, 3), from_to(2, 1, 16));
    let mut parts = [place(); 5];
    let answer = match fernsponge::intersect_items(&POOL, &ours, &theirs, &mut parts) {
        0 => Ok(parts.map(|part| read(&part[1..], &POOL).filter(|_| part[0] == 1))),
        returned => Err(returned),
    };
    let rust = rust::pair(&item(ours), &item(theirs));
    let stated = [
        Some(item(ours)),
        None,
        None,
        Some(item(from_to(1, 1, 5))),
        Some(item(from_to(9, 3, 16))),
    ];
    row.hold(
        || format!("{ours:?} and {theirs:?}"),
        Against::differences(answer, Ok(rust), [Err(3), Ok(stated)]),
    );
    row
}

fn empty_range() -> Row {
    let mut row = Row::new("D2 an empty range");
    let empty = from_to(1, 5, 5);
    let apart = lists(&[], &[empty], &[empty]);
    hold(&mut row, &POOL, [&[empty], &[empty]], [Err(3), apart]);
    row
}

fn limits() -> Row {
    let mut row = Row::new("D3 limits");
    let alone = lists(&[], &[key(1)], &[]);
    let large = [&POOL[..], &vec![0; 65_537 - POOL.len()]].concat();
    hold(&mut row, &large, [&[key(1)], &[]], [Err(1), alone]);
    let long = [[0, 0, 0, 256, 0, 0]];
    let zeros = [0; 256];
    let alone = Ok([vec![], items(&long.concat(), &zeros), vec![]]);
    hold(&mut row, &zeros, [&long, &[]], [Err(2), alone]);
    // keys of two bytes that ascend
    let pool: Vec<u8> = (0..2_049).flat_map(u16::to_be_bytes).collect();
    let many: Vec<Words> = (0..2_049).map(|at| [0, 0, 2 * at, 2, 0, 0]).collect();
    let alone = Ok([vec![], items(&many.concat(), &pool), vec![]]);
    hold(&mut row, &pool, [&many, &[]], [Err(1), alone]);
    row
}

fn not_strict() -> Row {
    let mut row = Row::new("D5 lists not strict");
    let rust = lists(
        &[from_to(2, 2, 5), from_to(9, 5, 8)],
        &[from_to(1, 1, 2), from_to(9, 8, 9)],
        &[from_to(2, 4, 5)],
    );
    // 4, side 1, index 1
    let refused = Err(4 + 256 + 65_536);
    hold(
        &mut row,
        &POOL,
        [&[from_to(2, 1, 9)], &[from_to(2, 2, 5), from_to(2, 4, 8)]],
        [refused, rust],
    );
    row
}

fn theirs_empty() -> Row {
    let mut row = Row::new("D6 theirs empty");
    let single = from_to(2, 5, 5);
    let stated = [lists(&[], &[key(5)], &[]), lists(&[], &[single], &[])];
    hold(&mut row, &POOL, [&[single], &[]], stated);
    row
}

fn ours_used_up() -> Row {
    let mut row = Row::new("D7 ours used up");
    let (longer, single) = ([0, 0, 17, 2, 0, 0], [2, 0, 17, 2, 17, 2]);
    let stated = [
        lists(&[key(5)], &[], &[longer]),
        lists(&[key(5)], &[], &[single]),
    ];
    hold(&mut row, &POOL, [&[key(5)], &[key(5), single]], stated);
    row
}

fn theirs_only() -> Row {
    let mut row = Row::new("D8 theirs only");
    let shared = [from_to(2, 2, 3), from_to(2, 7, 8)];
    let ours = [from_to(1, 1, 2), from_to(9, 8, 9)];
    hold(
        &mut row,
        &POOL,
        [&[from_to(2, 1, 3), from_to(2, 7, 9)], &[from_to(2, 2, 8)]],
        [
            lists(&shared, &ours, &[from_to(8, 3, 7)]),
            lists(&shared, &ours, &[from_to(9, 3, 8), from_to(1, 2, 7)]),
        ],
    );
    hold(
        &mut row,
        &POOL,
        [&[], &[key(4)]],
        [lists(&[], &[], &[key(4)]), lists(&[], &[], &[])],
    );
    row
}

/// How many items the lent list has after the call.
fn drained() -> Row {
    let mut row = Row::new("D9 lists lent");
    let words = key(5);
    let left = many::call(&POOL, &words, &[], [6; 3]);
    let mut ours = vec![item(words)];
    QueryItem::intersect_many_ordered(&mut ours, vec![]);
    let stays = items(&words, &POOL).len();
    row.hold(
        || format!("{words:?} and none"),
        Against::differences((left.returned, stays), (0, ours.len()), [(0, 1), (0, 0)]),
    );
    row
}

/// The counts, or no lists at all.
fn empty_results() -> Row {
    let mut row = Row::new("D10 empty results");
    let ours = Some(many::call(&POOL, &[], &[], [0; 3]).counts);
    let lists = QueryItem::intersect_many_ordered(&mut vec![], vec![]);
    let rust = match (lists.in_both, lists.ours, lists.theirs) {
        (None, None, None) => None,
        (x, y, z) => Some([x, y, z].map(|list| list.map_or(0, |list| list.len() as u64))),
    };
    row.hold(
        || "none and none".to_string(),
        Against::differences(ours, rust, [Some([0; 3]), None]),
    );
    row
}

/// RangeTo - and (05,05 00) by themselves; RangeTo - of P6's two items; and that (05,05 00) cuts on both sides.
fn keyless() -> Row {
    let mut row = Row::new("D19 what holds no key");
    let (full, from_empty, below_empty) =
        ([3, 0, 0, 0, 0, 0], [4, 0, 0, 0, 0, 0], [5, 0, 0, 0, 0, 0]);
    let gap = [8, 0, 5, 1, 17, 2];
    for alone in [below_empty, gap] {
        let stated = [lists(&[], &[], &[]), lists(&[], &[alone], &[])];
        hold(&mut row, &POOL, [&[alone], &[]], stated);
    }
    let stated = [
        lists(&[from_empty], &[], &[]),
        lists(&[from_empty], &[below_empty], &[]),
    ];
    hold(&mut row, &POOL, [&[full], &[from_empty]], stated);
    let cut = [from_to(2, 1, 5), [2, 0, 17, 2, 9, 1]];
    let stated = [lists(&[], &cut, &[]), lists(&[gap], &cut, &[])];
    hold(&mut row, &POOL, [&[from_to(2, 1, 9)], &[gap]], stated);
    row
}

fn key(byte: u32) -> Words {
    [0, 0, byte, 1, 0, 0]
}

fn from_to(code: u32, from: u32, to: u32) -> Words {
    [code, 0, from, 1, to, 1]
}

fn item(words: Words) -> QueryItem {
    item_of(words, &POOL).expect("the words are an item's")
}

fn lists(shared: &[Words], ours: &[Words], theirs: &[Words]) -> Answer {
    Ok([shared, ours, theirs].map(|list| items(&list.concat(), &POOL)))
}

fn hold(row: &mut Row, pool: &[u8], [ours, theirs]: [&[Words]; 2], stated: [Answer; 2]) {
    let words = [ours, theirs].map(|list| list.concat());
    let left = many::call(pool, &words[0], &words[1], [6 * 2_049; 3]);
    let answer = match left.returned {
        0 => Ok([0, 1, 2].map(|at| items(left.list(at), pool))),
        returned => Err(returned),
    };
    let [x, y] = words.each_ref().map(|words| items(words, pool));
    let rust = Ok(rust::lists(&x, &y));
    row.hold(
        || {
            let length = pool.len();
            format!("{ours:?} and {theirs:?} in a pool of {length} bytes")
        },
        Against::differences(answer, rust, stated),
    );
}
