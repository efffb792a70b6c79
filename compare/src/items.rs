//! Items as six words and a pool, and as the original's `QueryItem`; both ways, with a check of this translation itself.

use crate::{
    fernsponge::MaybeWords,
    hexadecimal, keys_of,
    query_item::QueryItem,
    table::{Against, Row},
    BYTES,
};

pub use crate::fernsponge::Words;

/// The item that the words name in the pool, if document 01 has one for them.
pub fn item_of(words: Words, pool: &[u8]) -> Option<QueryItem> {
    let [code, wrapper, ..] = words;
    let start = || Some(start_of(words, pool)?.to_vec());
    let end = || Some(end_of(words, pool)?.to_vec());
    let plain = match code {
        0 => QueryItem::Key(start()?),
        1 => QueryItem::Range(start()?..end()?),
        2 => QueryItem::RangeInclusive(start()?..=end()?),
        3 => QueryItem::RangeFull(..),
        4 => QueryItem::RangeFrom(start()?..),
        5 => QueryItem::RangeTo(..end()?),
        6 => QueryItem::RangeToInclusive(..=end()?),
        7 => QueryItem::RangeAfter(start()?..),
        8 => QueryItem::RangeAfterTo(start()?..end()?),
        9 => QueryItem::RangeAfterToInclusive(start()?..=end()?),
        _ => return None,
    };
    match wrapper {
        0 => Some(plain),
        1 => Some(QueryItem::AggregateCountOnRange(Box::new(plain))),
        2 => Some(QueryItem::AggregateSumOnRange(Box::new(plain))),
        3 => Some(QueryItem::AggregateCountAndSumOnRange(Box::new(plain))),
        _ => None,
    }
}

/// The item of the first six words, if there are so many.
pub fn read(words: &[u32], pool: &[u8]) -> Option<QueryItem> {
    item_of(six(words)?, pool)
}

pub fn six(words: &[u32]) -> Option<Words> {
    words.get(..6)?.try_into().ok()
}

/// An item or none, as our calls write it: 1 and its words, or seven times 0.
pub fn maybe_words(item: Option<Words>) -> MaybeWords {
    match item {
        None => [0; 7],
        Some([code, wrapper, a, b, c, d]) => [1, code, wrapper, a, b, c, d],
    }
}

/// The words of an item, its keys added to the pool, if it has one wrapper at most.
pub fn words_of(item: &QueryItem, pool: &mut Vec<u8>) -> Option<Words> {
    let (wrapper, plain) = match item {
        QueryItem::AggregateCountOnRange(inner) => (1, &**inner),
        QueryItem::AggregateSumOnRange(inner) => (2, &**inner),
        QueryItem::AggregateCountAndSumOnRange(inner) => (3, &**inner),
        _ => (0, item),
    };
    let start = plain.lower_bound().0;
    let end = plain.upper_bound().0.filter(|_| !plain.is_key());
    let words = pack(plain.enum_value(), wrapper, start, end, pool);
    Some(words).filter(|_| !plain.is_aggregate())
}

/// Every item over the keys, with every wrapper, upright or not: its words, and a pool of its own.
pub fn all_items(keys: &[Vec<u8>]) -> Vec<(Words, Vec<u8>)> {
    let present = |yes: bool| match yes {
        true => keys.iter().map(|key| Some(&key[..])).collect(),
        false => vec![None],
    };
    let mut items = vec![];
    for code in 0..10 {
        for start in present(has_start(code)) {
            for end in present(has_end(code)) {
                for wrapper in 0..4 {
                    let mut pool = vec![];
                    let words = pack(code, wrapper, start, end, &mut pool);
                    items.push((words, pool));
                }
            }
        }
    }
    items
}

/// Whether the item of this code uses the start words.
pub fn has_start(code: u32) -> bool {
    matches!(code, 0 | 1 | 2 | 4 | 7 | 8 | 9)
}

/// Whether it uses the end words.
pub fn has_end(code: u32) -> bool {
    matches!(code, 1 | 2 | 5 | 6 | 8 | 9)
}

/// The words of an item, its keys added to the pool; those of an absent key are 0.
pub fn pack(
    code: u32,
    wrapper: u32,
    start: Option<&[u8]>,
    end: Option<&[u8]>,
    pool: &mut Vec<u8>,
) -> Words {
    let mut add = |key: Option<&[u8]>| {
        let Some(key) = key else { return [0, 0] };
        let offset = pool.len();
        pool.extend(key);
        [offset as u32, key.len() as u32]
    };
    let ([start, start_length], [end, end_length]) = (add(start), add(end));
    [code, wrapper, start, start_length, end, end_length]
}

pub fn start_of(words: Words, pool: &[u8]) -> Option<&[u8]> {
    part(pool, words[2], words[3])
}

pub fn end_of(words: Words, pool: &[u8]) -> Option<&[u8]> {
    part(pool, words[4], words[5])
}

/// The keys of an accepted item, the absent ones empty.
pub fn keys(item: Words, pool: &[u8]) -> (&[u8], &[u8]) {
    let (start, end) = (start_of(item, pool), end_of(item, pool));
    (start.unwrap_or(&[]), end.unwrap_or(&[]))
}

/// Whether two accepted items are equal in code, wrapper and key bytes.
pub fn same(x: Words, y: Words, pool: &[u8]) -> bool {
    x[..2] == y[..2] && keys(x, pool) == keys(y, pool)
}

/// Kind, wrapper and key bytes of an item.
pub type Shown = (u32, u32, Vec<u8>, Vec<u8>);

/// What the items of a list show, none for words that are no item.
pub fn shown(list: &[u32], pool: &[u8]) -> Vec<Option<Shown>> {
    let show = |words: &[u32]| {
        let item = six(words)?;
        let (a, b) = keys(item, pool);
        Some((item[0], item[1], a.to_vec(), b.to_vec()))
    };
    list.chunks(6).map(show).collect()
}

pub fn part(pool: &[u8], offset: u32, length: u32) -> Option<&[u8]> {
    pool.get(offset as usize..)?.get(..length as usize)
}

/// Document 01's table: whether the item of this code, from a, to b, holds k.
pub fn holds(code: u32, a: &[u8], b: &[u8], k: &[u8]) -> bool {
    match code {
        0 => k == a,
        1 => a <= k && k < b,
        2 => a <= k && k <= b,
        3 => true,
        4 => a <= k,
        5 => k < b,
        6 => k <= b,
        7 => a < k,
        8 => a < k && k < b,
        9 => a < k && k <= b,
        _ => false,
    }
}

/// Whether one of a list's items, as words, holds k.
pub fn list_holds(list: &[u32], pool: &[u8], k: &[u8]) -> bool {
    holding(list, pool, k).is_some()
}

/// The first of a list's items, as words, that holds k.
pub fn holding(list: &[u32], pool: &[u8], k: &[u8]) -> Option<usize> {
    let mut items = list.chunks(6).filter_map(six);
    items.position(|item| {
        let (a, b) = keys(item, pool);
        holds(item[0], a, b, k)
    })
}

/// Checks the translation: there and back the words are the same, and the original finds the keys in the item that document 01's
/// table finds.
pub fn run() -> Vec<Row> {
    let mut row = Row::again("items as words");
    let keys = keys_of(&BYTES, 2);
    for (words, pool) in all_items(&keys) {
        let table = || {
            let (a, b) = (start_of(words, &pool)?, end_of(words, &pool)?);
            Some(keys.iter().map(|k| holds(words[0], a, b, k)).collect())
        };
        let there_and_back = || {
            let item = item_of(words, &pool)?;
            let held: Vec<bool> = keys.iter().map(|k| item.contains(k)).collect();
            let mut pool = vec![];
            Some((words_of(&item, &mut pool)?, pool, held))
        };
        row.hold(
            || format!("{words:?} in {}", hexadecimal(&pool)),
            Against::rust(
                table().map(|held| (words, pool.clone(), held)),
                there_and_back(),
                false,
            ),
        );
    }
    vec![row]
}
