//! Insertions in either order (02 §10.1): every two plain items into all lists over few keys, and several into longer lists by chance, in two
//! orders each. The two lists are held against each other, item by item, by kind, wrapper and key bytes; with less room than for both items,
//! an order is refused exactly where the list would pass it on the way. The order matters where one of two items of one range is wrapped: the
//! later stands first (02 §10.2).

use crate::{
    boundaries::paper::range,
    hexadecimal,
    inputs::{few_keys, lists_of, Keys},
    insert_calls::wrapped_items,
    insertion::Left,
    items::{same, shown, Shown, Words},
    random::Random,
    refusals,
    table::{Against, Row},
    Size, SEED,
};

pub fn run(size: &Size) -> Vec<Row> {
    let random = &mut Random::new(SEED);
    let mut rows = Rows {
        either: Row::new("insert_item, two plain items in either order"),
        scarce: Row::new("insert_item, two plain items where room is scarce"),
        one_only: Row::again("insert_item, room in one of two orders only"),
        several: Row::new("insert_item, several plain items in another order"),
        arrival: Row::new("insert_item, two items of one range, not both plain"),
    };
    let (pool, keys) = few_keys(4);
    for (chosen, wrappers) in size.either {
        let keys: Vec<[u32; 2]> = chosen.iter().map(|at| keys[*at]).collect();
        rows.all_lists(&pool, &keys, *wrappers);
        rows.all_arrivals(&pool, &keys);
    }
    for _ in 0..size.random / 8 {
        rows.random(random);
    }
    vec![
        rows.either,
        rows.scarce,
        rows.one_only,
        rows.several,
        rows.arrival,
    ]
}

struct Rows {
    either: Row,
    scarce: Row,
    /// of these, the cases in which the order decides; there are some, or one order was held against itself
    one_only: Row,
    several: Row,
    arrival: Row,
}

/// The items that some calls leave, one after the other, or what the first that refuses returns.
type Inserted = Result<Vec<Option<Shown>>, u64>;

/// The same, and the most items that there were on the way.
fn insert_counting(pool: &[u8], list: &[u32], room: usize, items: &[Words]) -> (Inserted, usize) {
    let mut left = Left::new(list, 6 * room - list.len());
    let mut count = list.len() / 6;
    let mut most = count;
    for item in items {
        left = left.call(pool, count, *item);
        if left.returned != 0 {
            return (Err(left.returned), most);
        }
        count = left.after as usize;
        most = most.max(count);
    }
    (Ok(shown(&left.words[..6 * count], pool)), most)
}

fn insert_all(pool: &[u8], list: &[u32], room: usize, items: &[Words]) -> Inserted {
    insert_counting(pool, list, room, items).0
}

impl Rows {
    /// Every two plain items into all lists of at most three items in insertion order, over the keys and so many wrappers.
    fn all_lists(&mut self, pool: &[u8], keys: &[[u32; 2]], wrappers: u32) {
        let items = upright_items(pool, keys, wrappers);
        let plain: Vec<Words> = items.iter().copied().filter(|item| item[1] == 0).collect();
        let full = [3, 0, 0, 0, 0, 0];
        for list in lists_of(&items, 3, |list| accepted(pool, list, full)) {
            let words = list.concat();
            for (at, &x) in plain.iter().enumerate() {
                for &y in &plain[at + 1..] {
                    self.hold_two(pool, &words, x, y);
                }
            }
        }
    }

    /// With room for both the two orders answer, and give the same items; with less, each gives these, or refuses if there were more of them on
    /// the way.
    fn hold_two(&mut self, pool: &[u8], list: &[u32], x: Words, y: Words) {
        let input = |room: usize| move || told(pool, list, room, &[x, y]);
        let both = |room: usize| {
            [[x, y], [y, x]].map(|items: [Words; 2]| insert_counting(pool, list, room, &items))
        };
        let count = list.len() / 6;
        let [(one, one_most), (other, other_most)] = both(count + 2);
        for room in [count, count + 1] {
            let expected = [one_most, other_most].map(|most| match most > room {
                true => Err(6),
                false => one.clone(),
            });
            let left = both(room).map(|left| left.0);
            if expected[0].is_ok() != expected[1].is_ok() {
                self.one_only
                    .hold(input(room), Against::paper(left.clone(), expected.clone()));
            }
            self.scarce
                .hold(input(room), Against::paper(left, expected));
        }
        let answers = one.is_ok();
        self.either.hold(
            input(count + 2),
            Against::paper((answers, one), (true, other)),
        );
    }

    /// Every two items of one range that are not both plain, and not equal, into no list: in order of arrival, the later first.
    fn all_arrivals(&mut self, pool: &[u8], keys: &[[u32; 2]]) {
        let items = upright_items(pool, keys, 4);
        for &x in &items {
            for &y in &items {
                let plain = x[1] == 0 && y[1] == 0;
                if range(x, pool) != range(y, pool) || plain || same(x, y, pool) {
                    continue;
                }
                self.arrival.hold(
                    || told(pool, &[], 2, &[x, y]),
                    Against::paper(
                        insert_all(pool, &[], 2, &[x, y]),
                        Ok(shown(&[y, x].concat(), pool)),
                    ),
                );
            }
        }
    }

    /// Up to eight plain items, the first at times of a range that the list has, in one order and in another.
    fn random(&mut self, random: &mut Random) {
        let keys = Keys::new(random, 24);
        let list = keys.insertion_list(random, 24);
        let several = 2 + random.below(7);
        let mut items: Vec<Words> = (0..several).map(|_| keys.item(random, 0)).collect();
        if !list.is_empty() && random.below(2) == 0 {
            let [code, _, a, b, c, d] = random.one_of(&list);
            items[0] = [code, 0, a, b, c, d];
        }
        let mut others = items.clone();
        for at in 1..others.len() {
            others.swap(at, random.below(at + 1));
        }
        if others == items {
            return;
        }
        let (pool, list) = (&keys.pool, list.concat());
        let room = list.len() / 6 + items.len();
        let insert = |items: &[Words]| insert_all(pool, &list, room, items);
        let one = insert(&items);
        let answers = one.is_ok();
        self.several.hold(
            || format!("{} and {others:?}", told(pool, &list, room, &items)),
            Against::paper((answers, one), (true, insert(&others))),
        );
    }
}

/// Whether a list and a new item pass the checks before the room.
fn accepted(pool: &[u8], list: &[Words], item: Words) -> bool {
    refusals::insertion(pool, &list.concat(), list.len(), item).is_ok()
}

/// Every upright item over the keys with each of so many wrappers.
fn upright_items(pool: &[u8], keys: &[[u32; 2]], wrappers: u32) -> Vec<Words> {
    let mut items = wrapped_items(keys, wrappers);
    items.retain(|item| accepted(pool, &[], *item));
    items
}

fn told(pool: &[u8], list: &[u32], room: usize, items: &[Words]) -> String {
    let pool = hexadecimal(pool);
    format!("{items:?} into {list:?} with room for {room} in {pool}")
}
