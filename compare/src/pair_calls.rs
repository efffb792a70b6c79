//! Module 3: our call on two items, on all pairs of short ones, on words that are refused or nearly so, and on random ones.

use crate::{
    algebra::{paper, rust},
    calls::{place, Calls},
    fernsponge, hexadecimal,
    inputs::{bad_items, counting_pools, damage_word, even_pools, limit_items, Pool},
    items::{all_items, item_of, maybe_words, read, Words},
    keys_of,
    random::Random,
    refusals,
    table::{Held, Row},
    Size, BYTES,
};

pub fn run(random: &mut Random, size: &Size) -> Vec<Row> {
    let mut calls = Calls::new("intersect_items", "intersect_items, refused");
    all_pairs(&mut calls, &keys_of(&BYTES, 1));
    if size.more_pairs {
        all_pairs(&mut calls, &keys_of(&[0x00, 0xFF], 2));
    }
    edges(&mut calls);
    for _ in 0..size.random {
        let pool = Pool::new(random);
        let mut items = [pool.item(random), pool.item(random)];
        if random.below(4) == 0 {
            let side = random.below(2);
            damage_word(random, &mut items[side], &pool.bytes);
        }
        hold(&mut calls, &pool.bytes, items[0], items[1]);
    }
    calls.rows().into()
}

/// All pairs of items, upright or not, both in one pool.
fn all_pairs(calls: &mut Calls, keys: &[Vec<u8>]) {
    let items = all_items(keys);
    for (x, x_pool) in &items {
        for (y, y_pool) in &items {
            let pool = [&x_pool[..], y_pool].concat();
            let y = moved(*y, x_pool.len() as u32);
            hold(calls, &pool, *x, y);
        }
    }
}

/// Every fault of ours beside every fault of theirs, and all pairs of items with keys at the limits, in pools at the limits.
fn edges(calls: &mut Calls) {
    let pools = counting_pools().map(|pool| (pool, bad_items().collect()));
    let even = even_pools().map(|pool| {
        let items = limit_items(&pool);
        (pool, items)
    });
    let all: Vec<(Vec<u8>, Vec<Words>)> = pools.into_iter().chain(even).collect();
    for (pool, items) in &all {
        for &x in items {
            for &y in items {
                hold(calls, pool, x, y);
            }
        }
    }
}

fn hold(calls: &mut Calls, pool: &[u8], ours: Words, theirs: Words) {
    calls.hold(
        || format!("{ours:?} and {theirs:?} in {}", hexadecimal(pool)),
        [place(); 5],
        |parts| fernsponge::intersect_items(pool, &ours, &theirs, parts),
        refusals::pair(pool, ours, theirs)
            .map(|()| paper::items(ours, theirs, pool).map(maybe_words)),
        |parts| Held {
            ours: Some(parts.map(|part| match part[0] {
                0 => None,
                _ => read(&part[1..], pool),
            })),
            other: item_of(ours, pool)
                .zip(item_of(theirs, pool))
                .map(|(x, y)| rust::pair(&x, &y)),
        },
    );
}

/// The item of words that have been moved so far along in a pool.
fn moved(item: Words, by: u32) -> Words {
    let [code, wrapper, start, start_length, end, end_length] = item;
    let along = |offset, length| if length == 0 { offset } else { offset + by };
    [
        code,
        wrapper,
        along(start, start_length),
        start_length,
        along(end, end_length),
        end_length,
    ]
}
