//! `compare record FOLDER`: writes a sample of the original's answers for each of the programs `vectors_..`, as FOLDER/NAME/stdin, and what the
//! program is to write of it, as FOLDER/NAME/stdout. The form of a sample stands in crates/vectors/src/lib.rt. An answer begins with 0, a
//! refusal with 1. Ours are recorded besides the original's only where docs/DIFFERENCES.md lists the two: they are written here by hand.

use crate::{
    algebra::rust as algebra,
    boundaries::{all_boundaries, boundaries_of, rust as boundary},
    fernsponge::{Report, Span},
    inputs::{all_lists, few_keys, lists_of, plain_items, Keys, Pool},
    insert_calls::wrapped_items,
    insertion::{paper as inserting, rust as insertion, Left},
    items::{all_items, item_of, words_of, Words},
    key_order, keys_of,
    many::items,
    order_number,
    position_intervals::PositionIntervals,
    positions::{paper as covering, position_keys, position_pool, report, rust as position},
    query_item::QueryItem,
    random::Random,
    refusals, BYTES, SEED,
};
use std::{fs, io, path::Path};

/// 05 and what begins so, and the empty key.
const NEAR: [&[u8]; 4] = [&[], &[0x05], &[0x05, 0x00], &[0x07]];

pub fn run(folder: &Path) -> io::Result<()> {
    for sample in [keys(), lists(), insertions(), positions()] {
        sample.write(folder)?;
    }
    Ok(())
}

// ---- samples

struct Sample {
    name: &'static str,
    cases: Bytes,
    count: u32,
    listed: u32,
}

impl Sample {
    fn new(name: &'static str) -> Self {
        Self {
            name,
            cases: Bytes::new(),
            count: 0,
            listed: 0,
        }
    }

    /// A call that answers as the original does.
    fn case(&mut self, code: u8, inputs: Bytes, answer: Bytes) {
        self.count += 1;
        let cases = self.cases.take().byte(code).block(&inputs).block(&answer);
        self.cases = cases.byte(0).block(&Bytes::new());
    }

    /// A call that answers otherwise, as docs/DIFFERENCES.md lists it.
    fn listed(&mut self, code: u8, inputs: Bytes, ours: Bytes, rust: Bytes) {
        assert_ne!(ours.0, rust.0, "{}: a listed difference", self.name);
        self.count += 1;
        self.listed += 1;
        let cases = self.cases.take().byte(code).block(&inputs).block(&ours);
        self.cases = cases.byte(1).block(&rust);
    }

    fn write(&self, folder: &Path) -> io::Result<()> {
        let length = 12 + self.cases.0.len() + 1;
        let mut sample = Bytes::new().raw(b"FSV1").word(length as u32);
        sample = sample.word(self.count).raw(&self.cases.0).byte(0xEE);
        let folder = folder.join(self.name);
        fs::create_dir_all(&folder)?;
        fs::write(folder.join("stdin"), &sample.0)?;
        let same = self.count - self.listed;
        let lines = format!(
            "{same} calls as recorded, 0 not\n{} listed differences, each answered as listed\n",
            self.listed
        );
        println!("{}: {length} bytes\n{lines}", self.name);
        fs::write(folder.join("stdout"), lines)
    }
}

/// Bytes as they are written one after the other, numbers big-endian.
#[derive(Clone)]
struct Bytes(Vec<u8>);

impl Bytes {
    fn new() -> Self {
        Self(vec![])
    }

    /// What there is; nothing stays.
    fn take(&mut self) -> Self {
        Self(std::mem::take(&mut self.0))
    }

    fn raw(mut self, bytes: &[u8]) -> Self {
        self.0.extend(bytes);
        self
    }

    fn byte(self, byte: u8) -> Self {
        self.raw(&[byte])
    }

    fn short(self, number: usize) -> Self {
        let number = u16::try_from(number).expect("the number has two bytes");
        self.raw(&number.to_be_bytes())
    }

    fn word(self, number: u32) -> Self {
        self.raw(&number.to_be_bytes())
    }

    fn long(self, number: u64) -> Self {
        self.raw(&number.to_be_bytes())
    }

    fn longs(self, numbers: &[u64]) -> Self {
        numbers.iter().fold(self, |bytes, n| bytes.long(*n))
    }

    /// Numbers after their number.
    fn numbers(self, numbers: &[u64]) -> Self {
        self.short(numbers.len()).longs(numbers)
    }

    fn report(self, report: &Report) -> Self {
        let counted = self.long(report.total).short(report.count as usize);
        counted.longs(&report.examples)
    }

    fn block(self, bytes: &Bytes) -> Self {
        self.word(bytes.0.len() as u32).raw(&bytes.0)
    }

    fn pool(self, pool: &[u8]) -> Self {
        self.word(pool.len() as u32).raw(pool)
    }

    fn key(self, key: &[u8]) -> Self {
        self.short(key.len()).raw(key)
    }

    /// An item that is given, or two boundaries.
    fn words(self, words: Words) -> Self {
        let given = self.byte(words[0] as u8).byte(words[1] as u8);
        let number = |bytes: Self, word: &u32| bytes.short(*word as usize);
        words[2..].iter().fold(given, number)
    }

    /// An item that is answered: code, wrapper, and both keys, an absent one as an empty one.
    fn item(self, item: &QueryItem) -> Self {
        let mut pool = vec![];
        let words = words_of(item, &mut pool).expect("the item has one wrapper at most");
        let (start, end) = pool.split_at(words[3] as usize);
        let told = self.byte(words[0] as u8).byte(words[1] as u8);
        told.key(start).key(end)
    }

    /// A list that is given.
    fn list(self, list: &[Words]) -> Self {
        let counted = self.short(list.len());
        list.iter().fold(counted, |bytes, item| bytes.words(*item))
    }

    /// A list that is answered.
    fn items(self, items: &[QueryItem]) -> Self {
        let counted = self.short(items.len());
        items.iter().fold(counted, Self::item)
    }

    fn maybe(self, item: Option<&QueryItem>) -> Self {
        match item {
            None => self.byte(0),
            Some(item) => self.byte(1).item(item),
        }
    }
}

/// What an answer begins with.
fn answer() -> Bytes {
    Bytes::new().byte(0)
}

fn refusal(number: u8, side: u8, index: u32) -> Bytes {
    Bytes::new().byte(1).byte(number).byte(side).word(index)
}

fn rust_item(words: Words, pool: &[u8]) -> QueryItem {
    item_of(words, pool).expect("the words are an item's")
}

// ---- modules 1 and 2

const COMPARE: u8 = 1;
const ORDER_ITEMS: u8 = 2;
const COMPARE_BOUNDARIES: u8 = 3;
const INVERT: u8 = 4;
const TO_RANGE_SET: u8 = 5;
const TO_QUERY_ITEM: u8 = 6;
const COULD_CONTAIN_KEY: u8 = 7;
const COULD_HAVE_ITEMS: u8 = 8;

fn keys() -> Sample {
    let mut sample = Sample::new("vectors_keys");
    let random = &mut Random::new(SEED);
    let near = NEAR.map(<[u8]>::to_vec);
    let long = [vec![0x05; 254], vec![0x05; 255], vec![0xFF; 255]];
    let mut pairs = vec![];
    for keys in [&keys_of(&BYTES, 2)[..], &near, &long] {
        pairs.extend(
            keys.iter()
                .flat_map(|a| keys.iter().map(|b| (a.clone(), b.clone()))),
        );
    }
    pairs.extend((0..20).map(|_| key_order::alike(random)));
    for (a, b) in &pairs {
        let inputs = Bytes::new().key(a).key(b);
        let order = order_number(QueryItem::compare(a, b));
        sample.case(COMPARE, inputs.clone(), answer().byte(order as u8));
        let smaller = [a, b][key_order::rust_order_items(a, b) as usize];
        sample.case(ORDER_ITEMS, inputs, answer().key(smaller));
    }
    sample.boundaries(&all_boundaries(&near));
    for kind in 0..5 {
        for is_start in [false, true] {
            let inputs = Bytes::new().byte(kind).byte(is_start.into());
            let inverted = boundary::invert(kind.into(), is_start);
            sample.case(INVERT, inputs, answer().byte(inverted as u8));
        }
    }
    for (at, (words, pool)) in all_items(&near).into_iter().enumerate() {
        sample.to_range_set(words, &pool);
        // each item in one of its four wrappers
        if at % 4 == at / 4 % 4 {
            for key in &near {
                sample.asked(words, &pool, key);
            }
        }
    }
    for (words, pool) in all_items(&long[..2]).into_iter().step_by(11) {
        sample.to_range_set(words, &pool);
        sample.asked(words, &pool, &long[0]);
    }
    // 05 at two offsets, a key that begins so, and the empty one
    let places = [[0, 1], [1, 1], [1, 2], [3, 0]];
    for kinds in (0..25).map(|at| [at / 5, at % 5]) {
        for [start, start_length] in places {
            for [end, end_length] in places {
                let set = [kinds[0], kinds[1], start, start_length, end, end_length];
                sample.to_query_item(set, &[0x05, 0x05, 0x00]);
            }
        }
    }
    for _ in 0..20 {
        let pool = Pool::new(random);
        let item = pool.item(random);
        let key = pool.asked(random, item);
        sample.to_range_set(item, &pool.bytes);
        sample.asked(item, &pool.bytes, &key);
    }
    sample.limits();
    sample
}

// the functions have the names of the calls whose answers they record
#[allow(clippy::wrong_self_convention)]
impl Sample {
    fn boundaries(&mut self, all: &[(u32, &[u8])]) {
        for x in all {
            for y in all {
                let inputs = Bytes::new()
                    .byte(x.0 as u8)
                    .key(x.1)
                    .byte(y.0 as u8)
                    .key(y.1);
                let order = boundary::compare_boundaries(*x, *y);
                self.case(COMPARE_BOUNDARIES, inputs, answer().byte(order as u8));
            }
        }
    }

    fn to_range_set(&mut self, words: Words, pool: &[u8]) {
        let told = boundary::to_range_set(&rust_item(words, pool), |[start, end]| {
            let kinds = answer().byte(start.0 as u8).byte(end.0 as u8);
            kinds.key(start.1).key(end.1)
        });
        self.case(TO_RANGE_SET, Bytes::new().pool(pool).words(words), told);
    }

    fn to_query_item(&mut self, set: Words, pool: &[u8]) {
        let set_of = boundaries_of(set, pool).expect("the keys are parts of the pool");
        let item = boundary::to_query_item(set_of);
        let inputs = Bytes::new().pool(pool).words(set);
        self.case(TO_QUERY_ITEM, inputs, answer().maybe(item.as_ref()));
    }

    /// Both questions of an item, in both directions.
    fn asked(&mut self, words: Words, pool: &[u8], key: &[u8]) {
        let item = rust_item(words, pool);
        let inputs = Bytes::new().pool(pool).words(words).key(key);
        let [included, on_bounds, _] =
            boundary::could_contain_key(&item, key).expect("the item has a range");
        let told = answer().byte(included.into()).byte(on_bounds.into());
        self.case(COULD_CONTAIN_KEY, inputs.clone(), told);
        for left in [false, true] {
            let yes = boundary::could_have_items(&item, key, left).expect("the item has a range");
            let inputs = inputs.clone().byte(left.into());
            self.case(COULD_HAVE_ITEMS, inputs, answer().byte(yes.into()));
        }
    }

    /// D3: a key of 256 bytes, and a pool of 65,537.
    fn limits(&mut self) {
        for (pool, length, refused) in [
            (vec![0x05; 256], 256, refusal(2, 0, 0)),
            (vec![0x05; 65_537], 1, refusal(1, 0, 0)),
        ] {
            let words = [0, 0, 0, length, 0, 0];
            let item = rust_item(words, &pool);
            let [included, on_bounds, _] =
                boundary::could_contain_key(&item, &[0x05]).expect("the item has a range");
            let inputs = Bytes::new().pool(&pool).words(words).key(&[0x05]);
            let rust = answer().byte(included.into()).byte(on_bounds.into());
            self.listed(COULD_CONTAIN_KEY, inputs, refused, rust);
        }
    }
}

// ---- modules 3 and 4

const INTERSECT_ITEMS: u8 = 1;
const INTERSECT_MANY: u8 = 2;
const OURS_AFTER: u8 = 3;

/// The keys of one byte, each at its own offset.
const COUNTING: [u8; 17] = [0, 1, 2, 3, 4, 5, 6, 7, 8, 9, 10, 11, 12, 13, 14, 15, 16];

const FULL: Words = [3, 0, 0, 0, 0, 0];

fn key(byte: u32) -> Words {
    [0, 0, byte, 1, 0, 0]
}

fn range(code: u32, from: u32, to: u32) -> Words {
    [code, 0, from, 1, to, 1]
}

fn lists() -> Sample {
    let mut sample = Sample::new("vectors_lists");
    let random = &mut Random::new(SEED);
    // P2 to P6; RangeFrom has the empty key
    let pairs = [
        [range(1, 1, 5), key(3)],
        [range(1, 1, 5), range(2, 5, 9)],
        [range(9, 5, 9), range(2, 1, 5)],
        [range(2, 5, 5), FULL],
        [FULL, [4, 0, 0, 0, 0, 0]],
    ];
    for [ours, theirs] in pairs {
        sample.pair(ours, theirs, &COUNTING);
        sample.many(&[ours], &[theirs], &COUNTING);
    }
    // 05 at two offsets, and a key that begins so; every second pair, in wrappers by turns
    let (pool, places) = few_keys(3);
    let mut upright = plain_items(&places);
    upright.retain(|item| refusals::list(&pool, item, 0).is_ok());
    for (at, ours) in upright.iter().enumerate() {
        for (other, theirs) in upright.iter().enumerate().skip(at % 2).step_by(2) {
            let (mut ours, mut theirs) = (*ours, *theirs);
            ours[1] = (at + other) as u32 / 4 % 4;
            theirs[1] = other as u32 / 2 % 4;
            sample.pair(ours, theirs, &pool);
        }
    }
    // keys of 254 and 255 bytes
    let long = [0x05; 509];
    let places = [[0, 254], [254, 254], [254, 255]];
    for [ours, theirs] in [[0, 1], [1, 2], [2, 0], [2, 2]] {
        let [[a, a_length], [b, b_length]] = [places[ours], places[theirs]];
        let theirs = [2, 0, a, a_length, 254, 255];
        sample.pair([4, 0, b, b_length, 0, 0], theirs, &long);
        sample.many(&[[6, 0, 0, 0, b, b_length]], &[theirs], &long);
    }
    // pairs of lists of at most three items, by chance
    let (pool, places) = few_keys(4);
    let mut few = all_lists(&places);
    few.retain(|list| refusals::list(&pool, &list.concat(), 0).is_ok());
    for _ in 0..400 {
        let [ours, theirs] = [(); 2].map(|()| &few[random.below(few.len())]);
        sample.many(ours, theirs, &pool);
    }
    for most in (0..150).map(|at| 1 + at % 24) {
        let keys = Keys::new(random, most);
        let [ours, theirs] = [(); 2].map(|()| keys.list(random, most));
        sample.many(&ours, &theirs, &keys.pool);
    }
    sample.longest();
    sample.departures();
    sample
}

/// The original's three lists, as they come.
fn rust_lists(ours: &[Words], theirs: &[Words], pool: &[u8]) -> [Vec<QueryItem>; 3] {
    let [ours, theirs] = [ours, theirs].map(|list| items(&list.concat(), pool));
    algebra::lists(&ours, &theirs)
}

fn told(lists: &[Vec<QueryItem>; 3]) -> Bytes {
    lists.iter().fold(answer(), |bytes, list| bytes.items(list))
}

/// The inputs, with so many words lent for each list.
fn many_inputs(ours: &[Words], theirs: &[Words], pool: &[u8], room: [usize; 3]) -> Bytes {
    let lent = Bytes::new().pool(pool);
    let lent = room.iter().fold(lent, |bytes, words| bytes.short(*words));
    lent.list(ours).list(theirs)
}

impl Sample {
    fn pair(&mut self, ours: Words, theirs: Words, pool: &[u8]) {
        let inputs = Bytes::new().pool(pool).words(ours).words(theirs);
        let parts = algebra::pair(&rust_item(ours, pool), &rust_item(theirs, pool));
        let told = |bytes: Bytes, part: &Option<QueryItem>| bytes.maybe(part.as_ref());
        self.case(INTERSECT_ITEMS, inputs, parts.iter().fold(answer(), told));
    }

    /// The original's ours-only is converted (D6), theirs-only is ours-only with sides exchanged (D8), and what holds no key is taken out (D19).
    /// The room is just enough, or some words more.
    fn many(&mut self, ours: &[Words], theirs: &[Words], pool: &[u8]) {
        let [shared_out, ours_out, _] = rust_lists(ours, theirs, pool);
        let [_, theirs_out, _] = rust_lists(theirs, ours, pool);
        let lists = [
            shared_out,
            algebra::converted(&ours_out),
            algebra::converted(&theirs_out),
        ]
        .map(|list| algebra::keyed(&list));
        let more = [0, 1, 6, 13][self.count as usize % 4];
        let room = lists.each_ref().map(|list| 6 * list.len() + more);
        let inputs = many_inputs(ours, theirs, pool, room);
        self.case(INTERSECT_MANY, inputs, told(&lists));
    }

    /// Lists of 2,048 items that share as many as there can be, 4,095; and one of ours cut into 513.
    fn longest(&mut self) {
        let pool: Vec<u8> = (0..4_098).flat_map(u16::to_be_bytes).collect();
        let range = |from: u32| [1, 0, 2 * from, 2, 2 * from + 4, 2];
        let ranges =
            |from: u32| -> Vec<Words> { (0..2_048).map(|at| range(from + 2 * at)).collect() };
        self.many(&ranges(0), &ranges(1), &pool);
        let keys: Vec<Words> = (0..512).map(|at| [0, 0, 4 * at, 2, 0, 0]).collect();
        self.many(&[FULL], &keys, &pool[..2_048]);
    }

    /// D1, D2, D3, D5 to D10 and D19.
    fn departures(&mut self) {
        let pool = &COUNTING;
        let room = [24; 3];
        let [upside_down, around] = [range(2, 5, 3), range(2, 1, 16)];
        let rust = algebra::pair(&rust_item(upside_down, pool), &rust_item(around, pool));
        let parts = |bytes: Bytes, part: &Option<QueryItem>| bytes.maybe(part.as_ref());
        self.listed(
            INTERSECT_ITEMS,
            Bytes::new().pool(pool).words(upside_down).words(around),
            refusal(3, 0, 0),
            rust.iter().fold(answer(), parts),
        );
        let many: Vec<Words> = (0..2_049).map(|at| [0, 0, 2 * at, 2, 0, 0]).collect();
        let many_pool: Vec<u8> = (0..2_049).flat_map(u16::to_be_bytes).collect();
        let empty = range(1, 5, 5);
        let overlapping = [range(2, 2, 5), range(2, 4, 8)];
        for (ours, theirs, refused, pool) in [
            (
                &[upside_down][..],
                &[around][..],
                refusal(3, 0, 0),
                &pool[..],
            ),
            (&[around], &[upside_down], refusal(3, 1, 0), pool),
            (&[empty], &[empty], refusal(3, 0, 0), pool),
            (&[range(2, 1, 9)], &overlapping, refusal(4, 1, 1), pool),
            (&many, &[], refusal(1, 0, 0), &many_pool),
        ] {
            let rust = told(&rust_lists(ours, theirs, pool));
            let inputs = many_inputs(ours, theirs, pool, room);
            self.listed(INTERSECT_MANY, inputs, refused, rust);
        }
        // D6 converted, D7 converted, D8 P7 and P8, D19 each kind by itself, below the empty key, and between two pieces
        let other_pool = [0x05, 0x00];
        let gap = [8, 0, 0, 1, 0, 2];
        let from_empty = [4, 0, 0, 0, 0, 0];
        let again = [2, 0, 0, 2, 0, 2];
        for (ours, theirs, lists, pool) in [
            (
                &[range(2, 5, 5)][..],
                &[][..],
                [&[][..], &[key(5)], &[]],
                &pool[..],
            ),
            (
                &[key(0)],
                &[key(0), again],
                [&[key(0)], &[], &[[0, 0, 0, 2, 0, 0]]],
                &other_pool,
            ),
            (
                &[range(2, 1, 3), range(2, 7, 9)],
                &[range(2, 2, 8)],
                [
                    &[range(2, 2, 3), range(2, 7, 8)],
                    &[range(1, 1, 2), range(9, 8, 9)],
                    &[range(8, 3, 7)],
                ],
                pool,
            ),
            (&[], &[key(4)], [&[], &[], &[key(4)]], pool),
            (&[[5, 0, 0, 0, 0, 0]], &[], [&[], &[], &[]], pool),
            (&[gap], &[], [&[], &[], &[]], &other_pool),
            (&[FULL], &[from_empty], [&[from_empty], &[], &[]], pool),
            (
                &[from_empty],
                &[gap],
                [&[], &[[2, 0, 0, 0, 0, 1], [4, 0, 0, 2, 0, 0]], &[]],
                &other_pool,
            ),
        ] {
            let ours_told = told(&lists.map(|list| items(&list.concat(), pool)));
            let rust = told(&rust_lists(ours, theirs, pool));
            let inputs = many_inputs(ours, theirs, pool, room);
            self.listed(INTERSECT_MANY, inputs, ours_told, rust);
        }
        // D9: the original takes ours away
        let ours = [range(2, 1, 3), range(2, 7, 9)];
        let lent = items(&ours.concat(), pool);
        let mut drained = lent.clone();
        QueryItem::intersect_many_ordered(&mut drained, vec![]);
        self.listed(
            OURS_AFTER,
            many_inputs(&ours, &[], pool, room),
            answer().items(&lent),
            answer().items(&drained),
        );
        // D10: no list is told as FFFF items
        let none = QueryItem::intersect_many_ordered(&mut vec![], vec![]);
        let lists = [none.in_both, none.ours, none.theirs];
        let told_or_none = |bytes: Bytes, list: &Option<Vec<QueryItem>>| match list {
            None => bytes.short(0xFFFF),
            Some(list) => bytes.items(list),
        };
        self.listed(
            INTERSECT_MANY,
            many_inputs(&[], &[], pool, room),
            told(&[vec![], vec![], vec![]]),
            lists.iter().fold(answer(), told_or_none),
        );
    }
}

// ---- module 5

/// The original's own answer.
const INSERT_ITEM: u8 = 1;
/// Items merge as document 01 has it: merge.rs is not at hand.
const INSERT_MERGING: u8 = 2;

fn insertions() -> Sample {
    let mut sample = Sample::new("vectors_insert");
    let random = &mut Random::new(SEED);
    // P12, P13 and D14
    sample.insert(&[range(2, 1, 3), key(5), key(9)], range(1, 2, 6), &COUNTING);
    sample.insert(&[range(1, 1, 5)], range(2, 5, 9), &COUNTING);
    sample.insert(&[range(1, 1, 5)], key(5), &COUNTING);
    // every item into no list, and into lists of at most two items by turns; 05 is at two offsets
    for (keys, wrappers, step) in [(4, 4, 1), (2, 2, 13), (1, 4, 11)] {
        let (pool, places) = few_keys(keys);
        let all = wrapped_items(&places, wrappers);
        let upright =
            |list: &[Words]| refusals::insertion(&pool, &list.concat(), list.len(), FULL).is_ok();
        let most = if step == 1 { 0 } else { 2 };
        let mut turn = 0;
        for list in lists_of(&all, most, upright) {
            for &item in all.iter().filter(|item| upright(&[**item])) {
                turn += 1;
                if turn % step == 0 {
                    sample.insert(&list, item, &pool);
                }
            }
        }
    }
    // keys of 254 and 255 bytes
    let long = [0x05; 509];
    for item in [
        [0, 0, 254, 254, 0, 0],
        [0, 0, 254, 255, 0, 0],
        [4, 0, 0, 255, 0, 0],
    ] {
        sample.insert(&[[0, 0, 0, 254, 0, 0], [7, 1, 0, 254, 0, 0]], item, &long);
    }
    for most in (0..250).map(|at| 1 + at % 16) {
        let keys = Keys::new(random, most);
        let list = keys.insertion_list(random, most);
        let wrapper = random.one_of(&[0, 0, 1, 2, 3]);
        sample.insert(&list, keys.item(random, wrapper), &keys.pool);
    }
    // a list that becomes as long as a list may be
    let pool: Vec<u8> = (0..2_048).flat_map(u16::to_be_bytes).collect();
    let many: Vec<Words> = (0..2_048).map(|at| [0, 0, 2 * at, 2, 0, 0]).collect();
    sample.insert(&[&many[..9], &many[10..]].concat(), many[9], &pool);
    sample.insert_departures();
    sample
}

fn insert_inputs(list: &[Words], item: Words, pool: &[u8], besides: usize) -> Bytes {
    Bytes::new()
        .pool(pool)
        .short(besides)
        .words(item)
        .list(list)
}

fn rust_insert(list: &[Words], item: Words, pool: &[u8]) -> Vec<QueryItem> {
    insertion::insert(items(&list.concat(), pool), rust_item(item, pool))
}

impl Sample {
    /// What the original places elsewhere among equal ranges (D11) is left out.
    fn insert(&mut self, list: &[Words], item: Words, pool: &[u8]) {
        let besides = 6 + [0, 1, 6, 13][self.count as usize % 4];
        let lent = Left::new(&list.concat(), besides);
        let (_, inserted) = inserting::left(pool, &lent, list.len(), item);
        let inserted = inserted.expect("the insertion is accepted");
        let rust = rust_insert(list, item, pool);
        if insertion::differ_in_place(&items(&inserted.list.concat(), pool), &rust)
            && items(&inserted.list.concat(), pool) != rust
        {
            return;
        }
        let code = match inserted.merged {
            true => INSERT_MERGING,
            false => INSERT_ITEM,
        };
        let inputs = insert_inputs(list, item, pool, besides);
        self.case(code, inputs, answer().items(&rust));
    }

    /// D11 to D13.
    fn insert_departures(&mut self) {
        let pool = &COUNTING;
        let [plain, count, sum] = [0, 1, 2].map(|wrapper| [2, wrapper, 1, 1, 3, 1]);
        let placed = items(&[plain, count, sum].concat(), pool);
        for (list, item, ours) in [
            (&[count, sum][..], plain, answer().items(&placed)),
            (&[key(9), key(1)], key(5), refusal(4, 0, 1)),
            (&[key(5), key(5)], key(5), refusal(4, 0, 1)),
            (&[], range(2, 5, 3), refusal(3, 1, 0)),
            (&[range(2, 1, 9)], range(1, 5, 5), refusal(3, 1, 0)),
        ] {
            let inputs = insert_inputs(list, item, pool, 6);
            let rust = answer().items(&rust_insert(list, item, pool));
            self.listed(INSERT_ITEM, inputs, ours, rust);
        }
    }
}

// ---- module 6

const BE_U64: u8 = 1;
const FROM_QUERY_ITEMS: u8 = 2;
const CONTAINS: u8 = 3;
const LEN: u8 = 4;
const IS_EMPTY: u8 = 5;
const MISSING_FROM: u8 = 6;
const EXTRA_IN: u8 = 7;
const MISSING_FROM_SPANS: u8 = 8;
const DESCRIBE: u8 = 9;

const LAST: u64 = u64::MAX;

fn positions() -> Sample {
    let mut sample = Sample::new("vectors_positions");
    let random = &mut Random::new(SEED);
    for length in (0..20).chain([254, 255, 256]) {
        sample.be_u64(&vec![0x05; length]);
    }
    let near = [0, 1, 5, 6, LAST - 1, LAST];
    for position in near.into_iter().chain((0..64).map(|bit| 1 << bit)) {
        sample.be_u64(&position.to_be_bytes());
    }
    // P9 and P10
    let pool = position_pool(&[2, 5, 7]);
    let nine = [[1, 0, 0, 8, 8, 8], [0, 0, 8, 8, 0, 0], [2, 0, 8, 8, 16, 8]];
    sample.query(&nine, 100, &pool);
    sample.query(&nine, 6, &pool);
    sample.query(&[FULL], LAST, &[]);
    sample.intervals(&[0, LAST], &near, &[]);
    // every item at three of the counts, and some items together
    let pool = position_pool(&near);
    let all = plain_items(&position_keys(&near));
    let counts = [0, 1, 6, 7, LAST - 1, LAST];
    for (at, item) in all.iter().enumerate() {
        for count in counts.into_iter().skip(at % 2).step_by(2) {
            sample.query(&[*item], count, &pool);
        }
    }
    for at in 0..300 {
        let list: Vec<Words> = (0..2 + at % 5).map(|_| random.one_of(&all)).collect();
        sample.query(&list, counts[at % 6], &pool);
    }
    // a key of 7 bytes, and items after it
    sample.query(&[all[0], [0, 0, 0, 7, 0, 0], [0, 0, 0, 9, 0, 0]], 6, &pool);
    // many short ranges
    let places: Vec<u64> = (0..600).map(|at| 3 * at + at % 2).collect();
    let keys = position_keys(&places);
    let short: Vec<Words> = keys
        .chunks(2)
        .map(|k| [1, 0, k[0][0], 8, k[1][0], 8])
        .collect();
    sample.query(&short, LAST, &position_pool(&places));
    // P11, and 15, 16 and 17 that are missing
    sample.compared(&[0, 20], &[3]);
    for end in [15, 16, 17] {
        sample.compared(&[0, end], &[]);
        sample.compared(&[100, 101], &(0..end).collect::<Vec<u64>>());
    }
    sample.compared(&[0, LAST], &[0, 5, LAST - 1, LAST]);
    sample.compared(&[], &[]);
    for _ in 0..100 {
        let mut points = vec![];
        let mut at = 0;
        for _ in 0..2 * random.below(6) {
            at += 1 + random.below(12) as u64;
            points.push(at);
        }
        let below = at + 4;
        let proved: Vec<u64> = (0..below).filter(|_| random.below(3) == 0).collect();
        let asked = [random.below(below as usize) as u64, at];
        sample.intervals(&points, &asked, &proved);
        let mut spans: Vec<Span> = vec![];
        let mut from = 0;
        for _ in 0..random.below(5) {
            from += random.below(8) as u64;
            let to = from + random.below(8) as u64;
            spans.push([from, to]);
            from = to;
        }
        sample.spanned(&points, &spans);
    }
    for (total, shown) in [
        (0, 0),
        (1, 1),
        (2, 2),
        (16, 16),
        (17, 16),
        (LAST, 16),
        (LAST, 1),
    ] {
        for last in [9, LAST] {
            let examples: Vec<u64> = (0..shown).map(|at| last - at).rev().collect();
            sample.describe(&report(total, &examples));
        }
    }
    sample.position_departures();
    sample
}

impl Sample {
    fn be_u64(&mut self, key: &[u8]) {
        let told = match position::be_u64(key) {
            Ok(position) => answer().long(position),
            Err(number) => refusal(number as u8, 0, 0),
        };
        self.case(BE_U64, Bytes::new().key(key), told);
    }

    /// The lent numbers are just enough, or some more. The index of a refusal is document 01's.
    fn query(&mut self, list: &[Words], count: u64, pool: &[u8]) {
        let words = list.concat();
        let told = match position::from_query_items(&items(&words, pool), count) {
            Ok((pairs, _)) => pairs
                .chunks(2)
                .fold(answer().short(pairs.len() / 2), Bytes::longs),
            Err(number) => {
                let refused = refusals::position_items(pool, &words).expect_err("ours refuses too");
                let returned = refused.returned();
                assert_eq!(returned % 65_536, number, "the original refuses so");
                refusal(number as u8, 0, (returned / 65_536) as u32)
            }
        };
        let inputs = query_inputs(list, count, pool, [0, 1, 2, 5][self.count as usize % 4]);
        self.case(FROM_QUERY_ITEMS, inputs, told);
    }

    /// All questions of intervals.
    fn intervals(&mut self, words: &[u64], asked: &[u64], proved: &[u64]) {
        let intervals = position::intervals(words);
        let inputs = Bytes::new().numbers(words);
        for position in asked {
            let yes = intervals.contains(*position);
            let inputs = inputs.clone().long(*position);
            self.case(CONTAINS, inputs, answer().byte(yes.into()));
        }
        self.case(LEN, inputs.clone(), answer().long(intervals.len()));
        let none = intervals.ranges().is_empty();
        self.case(IS_EMPTY, inputs, answer().byte(none.into()));
        self.compared(words, proved);
    }

    /// Both reports on proved positions, what spans of one position each give, and the text.
    fn compared(&mut self, words: &[u64], proved: &[u64]) {
        let intervals = position::intervals(words);
        let inputs = Bytes::new().numbers(words).numbers(proved);
        let missing = position::missing_from(&intervals, proved);
        self.case(MISSING_FROM, inputs.clone(), answer().report(&missing));
        let extra = position::extra_in(&intervals, proved);
        self.case(EXTRA_IN, inputs, answer().report(&extra));
        self.describe(&missing);
        let below_last = proved.iter().filter(|at| **at < LAST);
        let spans: Vec<Span> = below_last.map(|at| [*at, at + 1]).collect();
        self.spanned(words, &spans);
    }

    fn spanned(&mut self, words: &[u64], spans: &[Span]) {
        let inputs = Bytes::new().numbers(words).numbers(&spans.concat());
        let report = position::missing_from_spans(&position::intervals(words), spans);
        self.case(MISSING_FROM_SPANS, inputs, answer().report(&report));
    }

    fn describe(&mut self, report: &Report) {
        let text = position::describe(report);
        let lent = text.len() + [0, 1, 9][self.count as usize % 3];
        let inputs = Bytes::new().report(report).short(lent);
        self.case(DESCRIBE, inputs, answer().key(text.as_bytes()));
    }

    /// D15 to D18.
    fn position_departures(&mut self) {
        let unsorted: Vec<u64> = (1..=16).chain([0]).collect();
        for (words, proved, index) in [(&[100, 101][..], &[7, 7, 7][..], 1), (&[], &unsorted, 16)] {
            let rust = position::extra_in(&position::intervals(words), proved);
            let inputs = Bytes::new().numbers(words).numbers(proved);
            self.listed(
                EXTRA_IN,
                inputs,
                refusal(8, 1, index),
                answer().report(&rust),
            );
        }
        for (words, spans, index) in [
            ([0, 3], &[[2, 1]][..], 0),
            ([2, 3], &[[0, 3], [1, 2]], 1),
            ([0, 2], &[[5, 9], [0, 2]], 1),
        ] {
            let inputs = Bytes::new().numbers(&words).numbers(&spans.concat());
            let rust = position::missing_from_spans(&position::intervals(&words), spans);
            let rust = answer().report(&rust);
            self.listed(MISSING_FROM_SPANS, inputs, refusal(8, 1, index), rust);
        }
        // the original's is a text
        for wrapper in 1..4 {
            let (pool, words) = ([0; 8], [0, wrapper, 0, 8, 0, 0]);
            let error = PositionIntervals::from_query_items(&[rust_item(words, &pool)], 1)
                .expect_err("the original refuses a wrapper");
            let text = Bytes::new().byte(2).key(position::text(&error).as_bytes());
            let inputs = query_inputs(&[words], 1, &pool, 2);
            self.listed(FROM_QUERY_ITEMS, inputs, refusal(5, 0, 0), text);
        }
    }
}

fn query_inputs(list: &[Words], count: u64, pool: &[u8], more: usize) -> Bytes {
    let plain = list.iter().all(|item| item[1] == 0);
    let ranges = match plain && refusals::position_items(pool, &list.concat()).is_ok() {
        true => covering::ranges(pool, &list.concat(), count).len(),
        false => 0,
    };
    let lent = Bytes::new().pool(pool).long(count).short(2 * ranges + more);
    lent.short(ranges).list(list)
}
