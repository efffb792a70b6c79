//! Module 1: `compare` and `order_items`, on all pairs of short keys and on random pairs of long ones that begin alike.

use crate::{
    fernsponge, hexadecimal,
    inputs::{KEY_LENGTHS, POOL_LENGTHS},
    keys_of, order_number,
    query_item::{intersect::RangeSetItem, QueryItem},
    random::Random,
    table::{Against, Row},
    BYTES,
};
use std::ptr;

const LONGEST: usize = 300;

pub fn run(random: &mut Random, random_pairs: u64) -> Vec<Row> {
    let mut rows = [Row::new("compare"), Row::new("order_items")];
    let keys = keys_of(&BYTES, 3);
    for a in &keys {
        for b in &keys {
            hold(&mut rows, a, b);
        }
    }
    limits(&mut rows);
    for _ in 0..random_pairs {
        let (a, b) = alike(random);
        hold(&mut rows, &a, &b);
    }
    rows.into()
}

/// Keys as long as a key of an item or as a pool may be, and near that: alike, or with a greater byte in one of them, at the front, in the
/// middle and at the end.
fn limits(rows: &mut [Row; 2]) {
    let lengths = || KEY_LENGTHS.into_iter().chain(POOL_LENGTHS);
    for a_length in lengths() {
        for b_length in lengths() {
            let (a, b) = (vec![0x7F; a_length], vec![0x7F; b_length]);
            hold(rows, &a, &b);
            let least = a_length.min(b_length);
            for at in [0, least / 2, least.saturating_sub(1)] {
                if at < least {
                    let mut greater = a.clone();
                    greater[at] = 0x80;
                    hold(rows, &greater, &b);
                    hold(rows, &b, &greater);
                }
            }
        }
    }
}

fn hold([compare, order_items]: &mut [Row; 2], a: &[u8], b: &[u8]) {
    let input = || format!("{} {}", hexadecimal(a), hexadecimal(b));
    let (a_pool, b_pool) = (pool(a, b), pool(b, a));
    let (a_part, b_part) = (&a_pool[1..=a.len()], &b_pool[1..=b.len()]);
    compare.hold(
        input,
        Against::both(
            fernsponge::compare(a_part, b_part),
            order_number(QueryItem::compare(a, b)),
            order_number(a.cmp(b)),
        ),
    );
    order_items.hold(
        input,
        Against::both(
            which(fernsponge::order_items(a_part, b_part), a_part, b_part),
            rust_order_items(a, b),
            if a < b { 0 } else { 1 },
        ),
    );
}

/// 0 where a part is `a` itself, 1 where it is `b`, 2 where it is neither. The two stand at different addresses.
fn which(part: &[u8], a: &[u8], b: &[u8]) -> u64 {
    let at = |key: &[u8]| (key.as_ptr(), key.len());
    let place = [a, b].iter().position(|key| at(key) == at(part));
    place.map_or(2, |place| place as u64)
}

/// A pool that holds the key between other bytes: after it comes what follows in the other key, so that a read past the end
/// would find both to go on alike.
fn pool(key: &[u8], other: &[u8]) -> Vec<u8> {
    let next = other.get(key.len()).copied().unwrap_or(0);
    [&[0], key, &[next]].concat()
}

/// The original orders boundaries: here two inclusive ones, which stand as their keys do.
pub fn rust_order_items(a: &[u8], b: &[u8]) -> u64 {
    let one = RangeSetItem::Inclusive(a.to_vec());
    let two = RangeSetItem::Inclusive(b.to_vec());
    let (smaller, _) = RangeSetItem::order_items(&one, &two, one.cmp(&two));
    if ptr::eq(smaller, &one) {
        0
    } else {
        1
    }
}

/// Two keys that begin alike: equal, or one a prefix of the other, or going on by themselves.
pub fn alike(random: &mut Random) -> (Vec<u8>, Vec<u8>) {
    let few = random.below(2) == 0;
    let same = random.below(LONGEST + 1);
    let start = bytes(random, same, few);
    let mut longer = || {
        let more = match random.below(4) {
            0 => 0,
            _ => random.below(LONGEST - same + 1),
        };
        [&start[..], &bytes(random, more, few)].concat()
    };
    (longer(), longer())
}

fn bytes(random: &mut Random, length: usize, few: bool) -> Vec<u8> {
    let mut byte = || match few {
        true => random.one_of(&BYTES),
        false => random.next() as u8,
    };
    (0..length).map(|_| byte()).collect()
}
