//! Demand 3, checked by hand: its laws on the lists that our call writes, of random lists A, B and C and of what it wrote of these.

use crate::{
    fernsponge, hexadecimal,
    inputs::Keys,
    items::{keys, list_holds, shown, six},
    many,
    random::Random,
    table::{Against, Row},
    Size,
};

pub fn run(random: &mut Random, size: &Size) -> Vec<Row> {
    let mut row = Row::new("laws of demand 3 on written lists");
    for _ in 0..size.lists {
        let keys = Keys::new(random, 24);
        let [a, b, c] = [(); 3].map(|()| keys.list(random, 24).concat());
        let asked = keys.some(random, 8);
        hold(&mut row, &keys.pool, [&a, &b, &c], &asked);
    }
    vec![row]
}

fn hold(row: &mut Row, pool: &[u8], [a, b, c]: [&[u32]; 3], asked: &[Vec<u8>]) {
    let input = |law| move || format!("{law} of {a:?}, {b:?} and {c:?} in {}", hexadecimal(pool));
    let shared = |x: &[u32], y: &[u32]| written(pool, x, y, 0);
    let without = |x: &[u32], y: &[u32]| written(pool, x, y, 1);
    let (a_b, b_c, only_b, only_c) = (shared(a, b), shared(b, c), without(a, b), without(a, c));
    let held = |list: &[u32]| -> Vec<bool> {
        let holds = |key: &Vec<u8>| list_holds(list, pool, key);
        asked.iter().map(holds).collect()
    };
    let one_of_two = held(a).into_iter().zip(held(b));
    row.hold(
        input("keys in one of two"),
        Against::paper(
            held(&a_b).into_iter().zip(held(&only_b)).collect(),
            Vec::from_iter(one_of_two.map(|(x, y)| (x && y, x && !y))),
        ),
    );
    let accepted = |list: &Vec<u32>| fernsponge::check_list(pool, list, false);
    row.hold(
        input("accepted"),
        Against::paper([&a_b, &b_c, &only_b, &only_c].map(accepted), [0; 4]),
    );
    let hold_keys = |list: &Vec<u32>| list.chunks(6).all(|item| holds_some(item, pool));
    row.hold(
        input("items that hold a key"),
        Against::paper(
            [&a_b, &only_b, &written(pool, a, b, 2)].map(hold_keys),
            [true; 3],
        ),
    );
    let mut same = |law, x: &[u32], y: &[u32]| {
        row.hold(input(law), Against::paper(shown(x, pool), shown(y, pool)));
    };
    same("order", &a_b, &shared(b, a));
    same("grouping", &shared(&a_b, c), &shared(a, &b_c));
    same("removals", &without(&only_b, c), &without(&only_c, b));
}

/// What our call writes: 0 what both share, 1 what the first keeps without the second, 2 what the second keeps without the first. Of a refused
/// call, a word that is no item.
fn written(pool: &[u8], x: &[u32], y: &[u32], which: usize) -> Vec<u32> {
    let left = many::call(pool, x, y, [x.len() + y.len(); 3]);
    match left.returned {
        0 => left.list(which).to_vec(),
        _ => vec![u32::MAX],
    }
}

/// Whether an item holds the empty key, its start, or the first key past that: it holds one of these if it holds any.
fn holds_some(item: &[u32], pool: &[u8]) -> bool {
    let Some(words) = six(item) else {
        return false;
    };
    let start = keys(words, pool).0;
    [&[], start, &[start, &[0]].concat()]
        .iter()
        .any(|key| list_holds(item, pool, key))
}
