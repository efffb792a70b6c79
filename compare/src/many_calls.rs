//! Module 4: our call on all pairs of accepted lists over few keys, and on random ones, short and long. The original's ours-only is converted,
//! its theirs-only is its ours-only with sides exchanged, and what holds no key is taken out of its lists.

use crate::{
    algebra::{paper, rust},
    departures::Departures,
    fernsponge, hexadecimal,
    inputs::{
        alike_keys, all_lists, counting_pools, counts, even_pools, few_keys, half_meeting,
        limit_items, Keys,
    },
    items::{list_holds, Words},
    keys_of,
    many::{self, items, In, Left, List},
    query_item::QueryItem,
    random::Random,
    refusals::{self, MOST_ITEMS},
    table::{Against, Held, Row},
    Size,
};

/// The original's three lists as they are; and what it shares and its ours-only, this converted, without what holds no key.
struct Answer {
    lists: [Vec<QueryItem>; 3],
    shared: Vec<QueryItem>,
    ours: Vec<QueryItem>,
}

struct Rows {
    /// shared, ours only, theirs only
    lists: [Row; 3],
    no_room: Row,
    keys: Row,
    departures: Departures,
    calls: usize,
}

pub fn run(random: &mut Random, size: &Size) -> Vec<Row> {
    let mut rows = Rows {
        lists: [
            Row::new("intersect_many: shared"),
            Row::again("intersect_many: ours only"),
            Row::again("intersect_many: theirs only"),
        ],
        no_room: Row::new("intersect_many, no room"),
        keys: Row::again("intersect_many: keys held, by the table"),
        departures: Departures::new(),
        calls: 0,
    };
    rows.all_pairs(size.crossed);
    for at in 0..size.lists {
        let most = if at < size.long_lists {
            size.longest
        } else {
            40
        };
        let keys = Keys::new(random, most);
        let asked = keys.some(random, 4);
        let here = In {
            pool: &keys.pool,
            asked: &asked,
        };
        let [x, y] = [(); 2].map(|()| List::new(keys.list(random, most), &here));
        rows.both_ways(&x, &y, &here);
    }
    rows.extremes(size.longest as u32);
    rows.limits(size);
    rows.long_keys(size);
    let mut all: Vec<Row> = rows.lists.into();
    all.extend([rows.no_room, rows.keys]);
    all.extend(rows.departures.rows());
    all
}

impl Rows {
    /// All pairs of accepted lists of at most three items over so many keys.
    fn all_pairs(&mut self, keys: usize) {
        let (pool, keys) = few_keys(keys);
        let here = In {
            pool: &pool,
            asked: &keys_of(&[0x00, 0x05], 2),
        };
        let mut lists = all_lists(&keys);
        lists.retain(|list| refusals::list(&pool, &list.concat(), 0).is_ok());
        let lists: Vec<List> = lists.into_iter().map(|it| List::new(it, &here)).collect();
        for (at, x) in lists.iter().enumerate() {
            for y in &lists[..at] {
                self.both_ways(x, y, &here);
            }
            let answer = Answer::new(x, x);
            self.hold(x, x, &answer, &answer, &here);
        }
    }

    /// So many items a list, n: as many shared as there can be, 2n - 1, and one of ours cut into n + 1.
    fn extremes(&mut self, count: u32) {
        let pool: Vec<u8> = (0..4_098).flat_map(u16::to_be_bytes).collect();
        let range = |from: u32| [1, 0, 2 * from, 2, 2 * from + 4, 2];
        let ranges = |from: u32| (0..count).map(|at| range(from + 2 * at)).collect();
        let keys = (0..count).map(|at| [0, 0, 4 * at, 2, 0, 0]).collect();
        let here = In {
            pool: &pool,
            asked: &[vec![], vec![0x00, 0x01], vec![0x10]],
        };
        for [x, y] in [[ranges(0), ranges(1)], [vec![[3, 0, 0, 0, 0, 0]], keys]] {
            self.both_ways(&List::new(x, &here), &List::new(y, &here), &here);
        }
    }

    /// None, one, and as many items as a list may have, and one fewer, against each of these.
    fn limits(&mut self, size: &Size) {
        let [_, pool, _] = counting_pools();
        let here = In {
            pool: &pool,
            asked: &[vec![], vec![0x00, 0x01], vec![0x10]],
        };
        let counts: Vec<usize> = counts(size).filter(|count| *count <= MOST_ITEMS).collect();
        for (at, &more) in counts.iter().enumerate() {
            for &fewer in &counts[..=at] {
                let [x, y] = half_meeting(more, fewer).map(|list| List::new(list, &here));
                self.both_ways(&x, &y, &here);
            }
        }
    }

    /// All pairs of accepted items with keys at the limits of length, each a list, and lists whose keys are as long as a key may be, or one
    /// byte shorter, and begin alike.
    fn long_keys(&mut self, size: &Size) {
        let [_, pool, _] = even_pools();
        let here = In {
            pool: &pool,
            asked: &[vec![], vec![0x7F], vec![0x7F; 254], vec![0x7F; 255]],
        };
        let accepted = |item: &Words| refusals::list(&pool, item, 0).is_ok();
        let single = |item| List::new(vec![item], &here);
        let items = limit_items(&pool).into_iter().filter(accepted);
        let lists: Vec<List> = items.map(single).collect();
        for (at, x) in lists.iter().enumerate() {
            for y in &lists[..at] {
                self.both_ways(x, y, &here);
            }
        }
        let count = size.longest / 16;
        for length in [254, 255] {
            let (pool, keys) = alike_keys(length, 4 * count);
            let asked: Vec<Vec<u8>> = (keys.iter().step_by(count))
                .map(|[at, length]| pool[*at as usize..][..*length as usize].to_vec())
                .collect();
            let here = In {
                pool: &pool,
                asked: &asked,
            };
            let half_meeting = |from: usize| {
                let range = |at: usize| {
                    let [[a, b], [c, d]] = [keys[4 * at + from], keys[4 * at + from + 2]];
                    [1 + at as u32 % 2, 0, a, b, c, d]
                };
                List::new((0..count).map(range).collect(), &here)
            };
            self.both_ways(&half_meeting(0), &half_meeting(1), &here);
        }
    }

    fn both_ways(&mut self, x: &List, y: &List, here: &In) {
        let (one, other) = (Answer::new(x, y), Answer::new(y, x));
        self.hold(x, y, &one, &other, here);
        self.hold(y, x, &other, &one, here);
    }

    /// `exchanged` is what the original answers with sides exchanged.
    fn hold(&mut self, ours: &List, theirs: &List, rust: &Answer, exchanged: &Answer, here: &In) {
        let pool = here.pool;
        let input = || {
            let (ours, theirs) = (&ours.items, &theirs.items);
            format!("{ours:?} and {theirs:?} in {}", hexadecimal(pool))
        };
        let lists = paper::lists(&ours.items, &theirs.items, pool);
        let counts = lists.each_ref().map(Vec::len);
        let call = |room| many::call(pool, &ours.words, &theirs.words, room);
        self.calls += 1;
        let room = self.enough(counts);
        let (left, paper) = (call(room), many::paper(Ok(&lists), room));
        let written = [0, 1, 2].map(|at| items(left.list(at), pool));
        let rust_lists = [&rust.shared, &rust.ours, &exchanged.ours];
        for at in 0..3 {
            let part = |left: &Left| (left.returned, left.words[at].clone(), left.counts[at]);
            let against = Against {
                rust: Some(Held {
                    ours: &written[at],
                    other: rust_lists[at],
                }),
                paper: Some(Held {
                    ours: part(&left),
                    other: part(&paper),
                }),
                listed: false,
            };
            self.lists[at].hold(|| format!("{}, {room:?} words lent", input()), against);
        }
        if let Some(room) = self.too_little(counts) {
            let against = Against::paper(call(room), many::paper(Ok(&lists), room));
            self.no_room
                .hold(|| format!("{}, {room:?} words lent", input()), against);
        }
        self.keys(input, ours, theirs, &left, here);
        self.departures
            .hold(input, [ours, theirs], &rust.lists, &written, pool);
    }

    /// What each list holds, by document 01's table; and each is accepted in turn, where it has no more items than a list may have.
    fn keys(
        &mut self,
        input: impl Fn() -> String,
        ours: &List,
        theirs: &List,
        left: &Left,
        here: &In,
    ) {
        let pool = here.pool;
        let checked = [0, 1, 2].map(|at| match left.list(at) {
            long if long.len() > 6 * 2_048 => 0,
            words => fernsponge::check_list(pool, words, false),
        });
        let holds = |key: &Vec<u8>| [0, 1, 2].map(|at| list_holds(left.list(at), pool, key));
        let held: Vec<_> = here.asked.iter().map(holds).collect();
        let table = |(&x, &y): (&bool, &bool)| [x && y, x && !y, y && !x];
        let by_table: Vec<_> = ours.held.iter().zip(&theirs.held).map(table).collect();
        self.keys
            .hold(input, Against::paper((held, checked), (by_table, [0; 3])));
    }

    /// Words that suffice: just so many for every second call, else some to spare, whole items and less.
    fn enough(&self, counts: [usize; 3]) -> [usize; 3] {
        let spare = |at| match self.calls % 2 {
            0 => 0,
            _ => (self.calls / 2 + 5 * at) % 14,
        };
        [0, 1, 2].map(|at| 6 * counts[at] + spare(at))
    }

    /// Words that are too few for one list, or for all three: its last item has none, or not all that it needs.
    fn too_little(&self, counts: [usize; 3]) -> Option<[usize; 3]> {
        let lacking = 1 + self.calls % 6;
        let full = [0, 1, 2].map(|at| (self.calls + at) % 3);
        let short = full.into_iter().find(|at| counts[*at] > 0)?;
        let mut room = self.enough(counts);
        for at in 0..3 {
            if at == short || self.calls % 16 == 0 {
                room[at] = (6 * counts[at]).saturating_sub(lacking);
            }
        }
        Some(room)
    }
}

impl Answer {
    fn new(ours: &List, theirs: &List) -> Self {
        let lists = rust::lists(&ours.rust, &theirs.rust);
        Self {
            shared: rust::keyed(&lists[0]),
            ours: rust::keyed(&rust::converted(&lists[1])),
            lists,
        }
    }
}
