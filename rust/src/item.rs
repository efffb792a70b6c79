//! Keys, items, and the pool that they stand in.

use crate::{
    detail::{Detail, Fault, Name, Part},
    limits::{MOST_KEY_BYTES, MOST_POOL_BYTES},
    lists::collect_into,
    memory::zeros,
    refusal::{Refusal, Side},
    words::Words,
};
use std::{collections::HashMap, fmt, hash::BuildHasher, ops::Deref};

/// A key as a part of the pool.
#[derive(Clone, Copy, Debug, Default, PartialEq, Eq, Hash)]
#[repr(C)]
pub struct KeyAt {
    /// Where it begins.
    pub offset: u32,
    /// How many bytes it has.
    pub length: u32,
}

impl KeyAt {
    /// Its bytes; what reaches past the pool is not there.
    #[must_use]
    pub fn bytes(self, pool: &[u8]) -> &[u8] {
        let rest = pool.get(self.offset as usize..).unwrap_or_default();
        rest.get(..self.length as usize).unwrap_or(rest)
    }
}

/// A pool that grows a key at a time. It is its bytes: `&pool` serves wherever a call takes a pool.
///
/// ```
/// let mut pool = fernsponge::Pool::new();
/// let key = pool.add(b"DE-FR/05")?;
/// assert_eq!(key.bytes(pool.bytes()), b"DE-FR/05");
/// # Ok::<(), fernsponge::Refusal>(())
/// ```
#[derive(Clone, Default)]
pub struct Pool {
    bytes: Vec<u8>,
    /// Where a key stands that [`add_once`](Self::add_once) finds again, by its hash: the first one that has the hash. Bytes are only ever added behind
    /// those that there are, so that a place stays right until the pool is collected. A key of a hash that is another's already is not found again, and
    /// takes room each time.
    places: HashMap<u64, KeyAt>,
}

impl Pool {
    /// A pool without a key.
    #[must_use]
    pub fn new() -> Self {
        Self::default()
    }

    /// Adds a key behind those that the pool has, an equal one each time. O(bytes of the key).
    ///
    /// # Errors
    ///
    /// Refused, as the library would refuse it, with 2 where the key is longer than 255 bytes, and with 1 where the pool would pass 65,536.
    pub fn add(&mut self, key: &[u8]) -> Result<KeyAt, Refusal> {
        let refused = |number, detail| Err(Refusal::new(number, Side::Ours, 0).with(Some(detail)));
        if key.len() > MOST_KEY_BYTES {
            let fault = Fault::TooLong(Part::Itself, key.len());
            return refused(2, Detail::Thing(Name::NewKey, fault));
        }
        if self.bytes.len() + key.len() > MOST_POOL_BYTES {
            return refused(1, Detail::PoolFull(self.bytes.len(), key.len()));
        }
        let at = KeyAt {
            offset: self.bytes.len() as u32,
            length: key.len() as u32,
        };
        self.bytes.extend_from_slice(key);
        Ok(at)
    }

    /// The place of a key, which is added where it is not found: two lists of the same 2,000 keys then take the room of one. Found is what this call
    /// has added before, and what a call of [`collect`](Self::collect) has kept; what [`add`](Self::add) or
    /// [`Sheet::read_into`](crate::Sheet::read_into) has put there is not looked for.
    ///
    /// It costs O(bytes of the key): a hash, and a comparison with the one key that may be the same. Beside its bytes, the pool keeps some 20 bytes
    /// for each key that can be found.
    ///
    /// # Errors
    ///
    /// As [`add`](Self::add) is refused, where the key is not found.
    ///
    /// ```
    /// let mut pool = fernsponge::Pool::new();
    /// let key = pool.add_once(b"DE-FR/05")?;
    /// assert_eq!(key.bytes(&pool), b"DE-FR/05");
    /// assert_eq!(pool.add_once(b"DE-FR/05")?, key);
    /// assert_eq!(pool.len(), 8);
    /// # Ok::<(), fernsponge::Refusal>(())
    /// ```
    pub fn add_once(&mut self, key: &[u8]) -> Result<KeyAt, Refusal> {
        let hash = self.places.hasher().hash_one(key);
        self.add_by(hash, key)
    }

    /// The same by the key's hash.
    fn add_by(&mut self, hash: u64, key: &[u8]) -> Result<KeyAt, Refusal> {
        match self.places.get(&hash) {
            Some(at) if at.bytes(&self.bytes) == key => return Ok(*at),
            _ => {}
        }
        let at = self.add(key)?;
        self.note(hash, at);
        Ok(at)
    }

    /// Keeps the place of a key of a hash, if none is kept for it and there is memory.
    fn note(&mut self, hash: u64, at: KeyAt) {
        if self.places.try_reserve(1).is_ok() {
            self.places.entry(hash).or_insert(at);
        }
    }

    /// Keeps the places of the keys that items name.
    fn note_items(&mut self, items: &[Item]) {
        let named = items.iter().filter_map(|item| item.named());
        for at in named.flat_map(|(_, keys)| keys).flatten() {
            let hash = self.places.hasher().hash_one(at.bytes(&self.bytes));
            self.note(hash, at);
        }
    }

    /// Collects the pool: it then has only the keys that the items of two lists name, equal ones once, in order of first use, ours before
    /// theirs and start before end. The items' offsets are rewritten, so that every item shows the same; nothing else of them changes. Whoever
    /// has one list lends `&mut []` as the other.
    ///
    /// Items that stand in neither list, and keys that [`add`](Self::add) or [`add_once`](Self::add_once) told before, no longer name what they named.
    /// Items may be in any order, and their starts may stand above their ends.
    ///
    /// After a call that answers, the pool keeps room for 65,536 bytes, so that keys added later need no more memory. Of n keys it makes O(n log n)
    /// comparisons, and at worst n² / 2 moves of two bytes. It takes some 112 KB of stack.
    ///
    /// # Errors
    ///
    /// Refused with 1 where an item is malformed or a list has more than 2,048, with 2 where a key is longer than 255 bytes or reaches past the pool,
    /// and with 6 where the distinct keys have more than 65,536 bytes, which keys that overlap can have, or the system has no memory for so many,
    /// which are asked for first. The pool and the lists are then as they were.
    ///
    /// ```
    /// use fernsponge::{insert, Item, Pool};
    ///
    /// let (mut pool, mut list) = (Pool::new(), vec![]);
    /// for lane in 0..100 {
    ///     let (low, high) = (pool.add(&[lane / 50, lane])?, pool.add(&[lane / 50, lane + 1])?);
    ///     insert(pool.bytes(), &mut list, Item::range_inclusive(low, high))?;
    /// }
    /// let shown = |pool: &Pool, list: &[Item]| list.iter().map(|item| item.shown(pool.bytes())).collect::<Vec<_>>();
    /// let before = shown(&pool, &list);
    /// assert_eq!(before, ["RangeInclusive 0000 0032", "RangeInclusive 0132 0164"]);
    /// assert_eq!(pool.bytes().len(), 400);
    ///
    /// pool.collect(&mut list, &mut [])?;
    /// assert_eq!(pool.bytes(), [0x00, 0x00, 0x00, 0x32, 0x01, 0x32, 0x01, 0x64]);
    /// assert_eq!(shown(&pool, &list), before);
    /// # Ok::<(), fernsponge::Refusal>(())
    /// ```
    pub fn collect(&mut self, ours: &mut [Item], theirs: &mut [Item]) -> Result<(), Refusal> {
        let mut fresh = zeros(MOST_POOL_BYTES);
        let used = collect_into(&self.bytes, &mut fresh, ours, theirs).map_err(|refusal| {
            match fresh.len() {
                0 if refusal.number == 6 => {
                    refusal.with(Some(Detail::Memory("a fresh pool of 65,536 bytes")))
                }
                _ => refusal,
            }
        })?;
        fresh.truncate(used);
        self.bytes = fresh;
        self.places.clear();
        self.note_items(ours);
        self.note_items(theirs);
        Ok(())
    }

    /// Lends a call up to so many of the bytes that are free behind the keys, or none where the system has no memory for them. The call tells how
    /// many of them it has written, which are the pool's from then on; where it refuses, the pool is as it was.
    pub(crate) fn lend(
        &mut self,
        most: usize,
        call: impl FnOnce(&mut [u8]) -> Result<usize, Refusal>,
    ) -> Result<(), Refusal> {
        let used = self.bytes.len();
        let free = most.min(MOST_POOL_BYTES - used);
        if self.bytes.try_reserve_exact(free).is_ok() {
            self.bytes.resize(used + free, 0);
        }
        let written = call(&mut self.bytes[used..]);
        self.bytes.truncate(used + written.unwrap_or(0));
        written.map(|_| ())
    }

    /// The bytes, as every call takes them.
    #[must_use]
    pub fn bytes(&self) -> &[u8] {
        &self.bytes
    }
}

impl Deref for Pool {
    type Target = [u8];

    fn deref(&self) -> &[u8] {
        &self.bytes
    }
}

// the places say nothing that the bytes do not

impl fmt::Debug for Pool {
    fn fmt(&self, f: &mut fmt::Formatter<'_>) -> fmt::Result {
        f.debug_tuple("Pool").field(&self.bytes).finish()
    }
}

/// The name of each kind, by its code, and whether it has a start key and an end key.
pub(crate) const KINDS: [(&str, [bool; 2]); 10] = [
    ("Key", [true, false]),
    ("Range", [true, true]),
    ("RangeInclusive", [true, true]),
    ("RangeFull", [false, false]),
    ("RangeFrom", [true, false]),
    ("RangeTo", [false, true]),
    ("RangeToInclusive", [false, true]),
    ("RangeAfter", [true, false]),
    ("RangeAfterTo", [true, true]),
    ("RangeAfterToInclusive", [true, true]),
];

/// The ten kinds of ranges.
#[derive(Clone, Copy, Debug, PartialEq, Eq, Hash)]
pub enum QueryItem {
    /// The key itself.
    Key(KeyAt),
    /// From the first, below the second.
    Range(KeyAt, KeyAt),
    /// From the first to the second, both held.
    RangeInclusive(KeyAt, KeyAt),
    /// Every key.
    RangeFull,
    /// The key and all above it.
    RangeFrom(KeyAt),
    /// All below the key.
    RangeTo(KeyAt),
    /// The key and all below it.
    RangeToInclusive(KeyAt),
    /// All above the key.
    RangeAfter(KeyAt),
    /// Above the first, below the second.
    RangeAfterTo(KeyAt, KeyAt),
    /// Above the first, up to the second, which is held.
    RangeAfterToInclusive(KeyAt, KeyAt),
}

/// What an item asks for besides its range. The algebra reads through it; insertion keeps wrapped items apart.
#[derive(Clone, Copy, Debug, Default, PartialEq, Eq, Hash)]
pub enum Wrapper {
    /// Nothing.
    #[default]
    Plain,
    /// A count.
    Count,
    /// A sum.
    Sum,
    /// Both.
    CountSum,
}

/// An item: its six words as they stand in a list. Lists are slices of items. Each of the ten kinds has a function that makes a plain one;
/// [`Item::new`] makes a wrapped one. All that an item is asked without its keys' bytes costs O(1).
///
/// ```
/// use fernsponge::{Item, KeyAt, QueryItem, Wrapper};
///
/// let item = Item::new(Wrapper::Count, QueryItem::RangeFrom(KeyAt { offset: 2, length: 1 }));
/// assert_eq!(item.words(), [4, 1, 2, 1, 0, 0]);
/// assert_eq!(Item::from_words([4, 1, 2, 1, 0, 0]), item);
/// ```
#[derive(Clone, Copy, Debug, Default, PartialEq, Eq, Hash)]
#[repr(transparent)]
pub struct Item([u32; 6]);

impl Item {
    /// The item of a range and a wrapper.
    #[must_use]
    pub fn new(wrapper: Wrapper, range: QueryItem) -> Self {
        let none = KeyAt::default();
        let (code, a, b) = match range {
            QueryItem::Key(a) => (0, a, none),
            QueryItem::Range(a, b) => (1, a, b),
            QueryItem::RangeInclusive(a, b) => (2, a, b),
            QueryItem::RangeFull => (3, none, none),
            QueryItem::RangeFrom(a) => (4, a, none),
            QueryItem::RangeTo(b) => (5, none, b),
            QueryItem::RangeToInclusive(b) => (6, none, b),
            QueryItem::RangeAfter(a) => (7, a, none),
            QueryItem::RangeAfterTo(a, b) => (8, a, b),
            QueryItem::RangeAfterToInclusive(a, b) => (9, a, b),
        };
        Self([code, wrapper as u32, a.offset, a.length, b.offset, b.length])
    }

    /// A plain key.
    #[must_use]
    pub fn key(key: KeyAt) -> Self {
        QueryItem::Key(key).into()
    }

    /// From a key on, below another.
    #[must_use]
    pub fn range(from: KeyAt, below: KeyAt) -> Self {
        QueryItem::Range(from, below).into()
    }

    /// From a key to another, both held.
    #[must_use]
    pub fn range_inclusive(from: KeyAt, to: KeyAt) -> Self {
        QueryItem::RangeInclusive(from, to).into()
    }

    /// Every key.
    #[must_use]
    pub fn range_full() -> Self {
        QueryItem::RangeFull.into()
    }

    /// A key and all above it.
    #[must_use]
    pub fn range_from(from: KeyAt) -> Self {
        QueryItem::RangeFrom(from).into()
    }

    /// All below a key.
    #[must_use]
    pub fn range_to(below: KeyAt) -> Self {
        QueryItem::RangeTo(below).into()
    }

    /// A key and all below it.
    #[must_use]
    pub fn range_to_inclusive(to: KeyAt) -> Self {
        QueryItem::RangeToInclusive(to).into()
    }

    /// All above a key.
    #[must_use]
    pub fn range_after(after: KeyAt) -> Self {
        QueryItem::RangeAfter(after).into()
    }

    /// Above a key, below another.
    #[must_use]
    pub fn range_after_to(after: KeyAt, below: KeyAt) -> Self {
        QueryItem::RangeAfterTo(after, below).into()
    }

    /// Above a key, up to another, which is held.
    #[must_use]
    pub fn range_after_to_inclusive(after: KeyAt, to: KeyAt) -> Self {
        QueryItem::RangeAfterToInclusive(after, to).into()
    }

    /// The item of six words, whatever they are: a call that is given words that make no item refuses them.
    #[must_use]
    pub fn from_words(words: Words) -> Self {
        Self(words)
    }

    /// Its six words: code, wrapper, start offset, start length, end offset, end length.
    #[must_use]
    pub fn words(self) -> Words {
        self.0
    }

    /// Its range, if its code is one of the ten.
    #[must_use]
    pub fn range_of(self) -> Option<QueryItem> {
        let [code, _, offset, length, end_offset, end_length] = self.0;
        let a = KeyAt { offset, length };
        let b = KeyAt {
            offset: end_offset,
            length: end_length,
        };
        Some(match code {
            0 => QueryItem::Key(a),
            1 => QueryItem::Range(a, b),
            2 => QueryItem::RangeInclusive(a, b),
            3 => QueryItem::RangeFull,
            4 => QueryItem::RangeFrom(a),
            5 => QueryItem::RangeTo(b),
            6 => QueryItem::RangeToInclusive(b),
            7 => QueryItem::RangeAfter(a),
            8 => QueryItem::RangeAfterTo(a, b),
            9 => QueryItem::RangeAfterToInclusive(a, b),
            _ => return None,
        })
    }

    /// Its wrapper, if it is one of the four.
    #[must_use]
    pub fn wrapper(self) -> Option<Wrapper> {
        Some(match self.0[1] {
            0 => Wrapper::Plain,
            1 => Wrapper::Count,
            2 => Wrapper::Sum,
            3 => Wrapper::CountSum,
            _ => return None,
        })
    }

    /// The item as a listing has it: its kind and its keys, in hexadecimal.
    #[must_use]
    pub fn shown(self, pool: &[u8]) -> String {
        Shown { item: self, pool }.to_string()
    }

    /// Its name and the keys that it has, start and end, if its code is one of the ten.
    pub(crate) fn named(self) -> Option<(&'static str, [Option<KeyAt>; 2])> {
        let [code, _, offset, length, end_offset, end_length] = self.0;
        let &(name, [has_start, has_end]) = KINDS.get(code as usize)?;
        let start = KeyAt { offset, length };
        let end = KeyAt {
            offset: end_offset,
            length: end_length,
        };
        Some((name, [has_start.then_some(start), has_end.then_some(end)]))
    }

    /// The item whose keys stand so many bytes further on; the words of a key that it does not have stay 0.
    pub(crate) fn moved(mut self, by: u32) -> Self {
        let (_, keys) = self.named().unwrap_or_default();
        for (word, key) in [2, 4].into_iter().zip(keys) {
            self.0[word] += key.map_or(0, |_| by);
        }
        self
    }
}

impl From<QueryItem> for Item {
    fn from(range: QueryItem) -> Self {
        Self::new(Wrapper::Plain, range)
    }
}

/// An item beside its pool, to be written as a listing has it.
#[derive(Clone, Copy, Debug)]
pub struct Shown<'a> {
    /// The item.
    pub item: Item,
    /// The pool that has its keys.
    pub pool: &'a [u8],
}

impl fmt::Display for Shown<'_> {
    fn fmt(&self, f: &mut fmt::Formatter<'_>) -> fmt::Result {
        let Some((name, keys)) = self.item.named() else {
            return write!(f, "no item: {:?}", self.item.words());
        };
        f.write_str(name)?;
        for key in keys.into_iter().flatten() {
            f.write_str(" ")?;
            match key.bytes(self.pool) {
                [] => f.write_str("-")?,
                bytes => bytes.iter().try_for_each(|byte| write!(f, "{byte:02X}"))?,
            }
        }
        Ok(())
    }
}

#[cfg(test)]
mod tests {
    use super::Pool;

    /// Two keys of one hash stay apart. The second of them is not found again.
    #[test]
    fn keys_of_one_hash() {
        let mut pool = Pool::new();
        let places = [b"a", b"b", b"a", b"b"].map(|key| pool.add_by(7, key).unwrap());
        assert_eq!(places.map(|at| at.offset), [0, 1, 0, 2]);
        assert_eq!(places.map(|at| at.bytes(&pool)[0]), *b"abab");
        assert_eq!(pool.bytes(), b"abb");
    }
}
