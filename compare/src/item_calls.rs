//! Module 2: our calls on boundaries, items and keys, on all short ones and on random ones, accepted and refused.

use crate::{
    boundaries::{all_boundaries, bare, boundaries_of, paper, rust, Boundary},
    calls::{place, Calls, MARK},
    fernsponge, hexadecimal,
    inputs::{damage_word, even_pools, limit_keys, plain_items, Pool, KEY_LENGTHS},
    items::{all_items, item_of, keys, maybe_words, read, Words},
    keys_of, order_number,
    query_item::QueryItem,
    random::Random,
    refusals,
    table::{Against, Held, Row},
    Size, BYTES,
};

/// Each function's calls.
struct All {
    compare: Calls,
    invert: Calls,
    range_set: Calls,
    query_item: Calls,
    contain: Calls,
    direction: Calls,
    order: Row,
    collision: Row,
}

pub fn run(random: &mut Random, size: &Size) -> Vec<Row> {
    let mut all = All {
        compare: Calls::new("compare_boundaries", "compare_boundaries, refused"),
        invert: Calls::new("invert", "invert, refused"),
        range_set: Calls::new("to_range_set", "to_range_set, refused"),
        query_item: Calls::new("to_query_item", "to_query_item, refused"),
        contain: Calls::new("could_contain_key", "could_contain_key, refused"),
        direction: Calls::new(
            "could_have_items_in_direction",
            "could_have_items_in_direction, refused",
        ),
        order: Row::new("item order"),
        collision: Row::new("collision"),
    };
    all.short_boundaries();
    all.short_items(size);
    all.short_pairs(&keys_of(&BYTES, 1));
    if size.more_pairs {
        all.short_pairs(&keys_of(&[0x00, 0xFF], 2));
    }
    all.edges();
    all.limits(size);
    for _ in 0..size.random {
        all.random(random);
    }
    let calls = [
        all.compare,
        all.invert,
        all.range_set,
        all.query_item,
        all.contain,
        all.direction,
    ];
    let mut rows: Vec<Row> = calls.into_iter().flat_map(Calls::rows).collect();
    rows.extend([all.order, all.collision]);
    rows
}

impl All {
    fn short_boundaries(&mut self) {
        let keys = keys_of(&BYTES, 2);
        let boundaries = all_boundaries(&keys);
        for &x in &boundaries {
            for &y in &boundaries {
                self.compare(x, y);
                // in a pool that holds the two keys, and in one where both are the first
                let pool = [&[0x7F], x.1, y.1].concat();
                let (a, b) = (x.1.len() as u32, y.1.len() as u32);
                for set in [[x.0, y.0, 1, a, 1 + a, b], [x.0, y.0, 1, a, 1, a]] {
                    self.query_item(&pool, bare(set));
                }
            }
        }
        for kind in [0, 1, 2, 3, 4, 5, u32::MAX] {
            for is_start in [false, true] {
                self.invert(kind, is_start);
            }
            for other in [0, 4, 5, u32::MAX] {
                self.compare((kind, &[5]), (other, &[5, 0]));
            }
        }
    }

    fn short_items(&mut self, size: &Size) {
        let asked = keys_of(&BYTES, size.asked);
        for (words, pool) in all_items(&keys_of(&BYTES, 2)) {
            self.range_set(&pool, words);
            for key in &asked {
                self.contain(&pool, words, key);
                self.direction(&pool, words, key, true);
                self.direction(&pool, words, key, false);
            }
        }
    }

    fn short_pairs(&mut self, keys: &[Vec<u8>]) {
        let read = |(words, pool): (Words, Vec<u8>)| {
            let item = item_of(words, &pool)?;
            Some((words, pool, item))
        };
        let items: Vec<_> = all_items(keys).into_iter().filter_map(read).collect();
        for x in &items {
            for y in &items {
                self.pair((x.0, &x.1, &x.2), (y.0, &y.1, &y.2));
            }
        }
    }

    /// Words that are refused, or nearly so: codes, wrappers, kinds, keys and pools at the limits.
    fn edges(&mut self) {
        let pools = [0, 2, 256, 65_536, 65_537].map(|length| vec![0x7F; length]);
        let keys = [
            [0, 0],
            [1, 0],
            [0, 1],
            [1, 1],
            [2, 0],
            [2, 1],
            [3, 0],
            [0, 255],
            [0, 256],
            [1, 255],
            [65_536, 0],
            [u32::MAX, u32::MAX],
        ];
        for pool in &pools {
            for code in (0..=10).chain([u32::MAX]) {
                for wrapper in (0..=5).chain([u32::MAX]) {
                    for start in keys {
                        for end in keys {
                            let words = [code, wrapper, start[0], start[1], end[0], end[1]];
                            self.range_set(pool, words);
                            self.query_item(pool, words);
                            for key in [&[0x7F, 0x7F][..], &[]] {
                                self.contain(pool, words, key);
                                self.direction(pool, words, key, wrapper == 0);
                            }
                        }
                    }
                }
            }
        }
    }

    /// Keys at the limits of length, at the front and at the end of pools at the limit and past it, asked for such keys too.
    fn limits(&mut self, size: &Size) {
        let past = usize::from(size.more_pairs);
        for pool in &even_pools() {
            let keys = limit_keys(pool, past);
            for item in plain_items(&keys) {
                self.range_set(pool, item);
                for length in KEY_LENGTHS {
                    for asked in [&pool[..length], &pool[pool.len() - length..]] {
                        self.contain(pool, item, asked);
                        self.direction(pool, item, asked, true);
                        self.direction(pool, item, asked, false);
                    }
                }
            }
            for a in &keys {
                for b in &keys {
                    for kind in 0..25 {
                        let (x, y) = (kind / 5, kind % 5);
                        let set = [x, y, a[0], a[1], b[0], b[1]];
                        self.query_item(pool, bare(set));
                        if let Some([x, y]) = boundaries_of(set, pool) {
                            self.compare(x, y);
                        }
                    }
                }
            }
        }
    }

    fn random(&mut self, random: &mut Random) {
        let pool = Pool::new(random);
        let bytes = &pool.bytes;
        let (x, y) = (pool.item(random), pool.item(random));
        if let (Some(one), Some(two)) = (item_of(x, bytes), item_of(y, bytes)) {
            self.pair((x, bytes, &one), (y, bytes, &two));
        }
        let mut words = x;
        let [a, b] = [pool.key(random), pool.key(random)];
        let [left, right] = [random.below(5) as u32, random.below(5) as u32];
        let mut set = bare([left, right, a[0], a[1], b[0], b[1]]);
        if let Some([x, y]) = boundaries_of(set, bytes) {
            self.compare(x, y);
        }
        self.invert(left, random.below(2) == 0);
        if random.below(4) == 0 {
            for _ in 0..=random.below(2) {
                damage_word(random, &mut words, bytes);
                damage_word(random, &mut set, bytes);
            }
        }
        let key = pool.asked(random, x);
        self.range_set(bytes, words);
        self.query_item(bytes, set);
        self.contain(bytes, words, &key);
        self.direction(bytes, words, &key, random.below(2) == 0);
    }

    fn compare(&mut self, x: Boundary, y: Boundary) {
        self.compare.hold(
            || {
                let (a, b) = (hexadecimal(x.1), hexadecimal(y.1));
                format!("{} {a} and {} {b}", x.0, y.0)
            },
            MARK,
            |order| fernsponge::compare_boundaries(x.0, x.1, y.0, y.1, order),
            refusals::kinds(&[x.0, y.0]).map(|()| order_number(paper::order(x, y)) as u32),
            |order| Held {
                ours: u64::from(*order),
                other: rust::compare_boundaries(x, y),
            },
        );
    }

    fn invert(&mut self, kind: u32, is_start: bool) {
        self.invert.hold(
            || format!("{kind}, a start: {is_start}"),
            MARK,
            |inverted| fernsponge::invert(kind, is_start, inverted),
            refusals::kinds(&[kind]).map(|()| paper::invert(kind, is_start)),
            |inverted| Held {
                ours: *inverted,
                other: rust::invert(kind, is_start),
            },
        );
    }

    fn range_set(&mut self, pool: &[u8], item: Words) {
        self.range_set.hold(
            || format!("{item:?} in {}", hexadecimal(pool)),
            place(),
            |range| fernsponge::to_range_set(pool, &item, range),
            refusals::item(pool, item).map(|()| paper::to_range_set(item)),
            |range| Held {
                ours: boundaries_of(*range, pool).map(owned),
                other: item_of(item, pool).map(|item| rust::to_range_set(&item, owned)),
            },
        );
    }

    fn query_item(&mut self, pool: &[u8], set: Words) {
        self.query_item.hold(
            || format!("{set:?} in {}", hexadecimal(pool)),
            place(),
            |item| fernsponge::to_query_item(pool, &set, item),
            refusals::set(pool, set).map(|()| maybe_words(paper::to_query_item(set, pool))),
            |item| Held {
                ours: (item[0], read(&item[1..], pool).filter(|_| item[0] == 1)),
                other: {
                    let item = boundaries_of(set, pool).and_then(rust::to_query_item);
                    (u32::from(item.is_some()), item)
                },
            },
        );
    }

    fn contain(&mut self, pool: &[u8], item: Words, key: &[u8]) {
        let held = |()| {
            let (a, b) = keys(item, pool);
            paper::could_contain_key(item[0], a, b, key).map(u32::from)
        };
        self.contain.hold(
            || {
                let (pool, key) = (hexadecimal(pool), hexadecimal(key));
                format!("{item:?} in {pool}, asked for {key}")
            },
            place(),
            |held| fernsponge::could_contain_key(pool, &item, key, held),
            refusals::item(pool, item).map(held),
            |held| Held {
                ours: Some([held[0], held[1], held[0]]),
                other: item_of(item, pool)
                    .and_then(|item| rust::could_contain_key(&item, key))
                    .map(|answer| answer.map(u32::from)),
            },
        );
    }

    fn direction(&mut self, pool: &[u8], item: Words, key: &[u8], left: bool) {
        let yes = |()| {
            let (a, b) = keys(item, pool);
            u32::from(paper::could_have_items(item[0], a, b, key, left))
        };
        self.direction.hold(
            || {
                let (pool, key) = (hexadecimal(pool), hexadecimal(key));
                format!("{item:?} in {pool}, asked for {key}, left: {left}")
            },
            MARK,
            |yes| fernsponge::could_have_items(pool, &item, key, left, yes),
            refusals::item(pool, item).map(yes),
            |yes| Held {
                ours: Some(*yes),
                other: item_of(item, pool)
                    .and_then(|item| rust::could_have_items(&item, key, left))
                    .map(u32::from),
            },
        );
    }

    /// Item order and collision: of our boundaries, by our order of boundaries.
    fn pair(&mut self, x: (Words, &[u8], &QueryItem), y: (Words, &[u8], &QueryItem)) {
        let input = || {
            let (x_pool, y_pool) = (hexadecimal(x.1), hexadecimal(y.1));
            format!("{:?} in {x_pool} and {:?} in {y_pool}", x.0, y.0)
        };
        let (Some(one), Some(two)) = (our_boundaries(x.0, x.1), our_boundaries(y.0, y.1)) else {
            // refused by us, though both are items
            self.order
                .hold(input, Against::paper("refused", "an order"));
            return;
        };
        let start = our_order(one[0], two[0]);
        let end = our_order(one[1], two[1]);
        let (x_range, y_range) = (paper::range(x.0, x.1), paper::range(y.0, y.1));
        self.order.hold(
            input,
            Against::both(
                if start == 1 { end } else { start },
                rust::compare_items(x.2, y.2),
                order_number(paper::compare_items(x_range, y_range)),
            ),
        );
        self.collision.hold(
            input,
            Against::both(
                our_order(one[1], two[0]) != 0 && our_order(two[1], one[0]) != 0,
                rust::collides(x.2, y.2),
                paper::collides(x_range, y_range),
            ),
        );
    }
}

fn our_boundaries(words: Words, pool: &[u8]) -> Option<[Boundary<'_>; 2]> {
    let mut set = place();
    let returned = fernsponge::to_range_set(pool, &words, &mut set);
    boundaries_of(set, pool).filter(|_| returned == 0)
}

/// 0 less, 1 equal, 2 greater.
fn our_order(x: Boundary, y: Boundary) -> u64 {
    let mut order = MARK;
    let returned = fernsponge::compare_boundaries(x.0, x.1, y.0, y.1, &mut order);
    returned << 32 | u64::from(order)
}

fn owned(boundaries: [Boundary; 2]) -> [(u32, Vec<u8>); 2] {
    boundaries.map(|(kind, key)| (kind, key.to_vec()))
}
