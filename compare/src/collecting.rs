//! Document 02 §6, collecting the pool: our call with all that it is lent for writing, and what it is to leave of it, read as plainly as can be.

use crate::{
    fernsponge,
    items::{end_of, has_end, has_start, six, start_of, Words},
    refusals::{self, refuse, Checked},
};

/// What is lent for writing: the fresh pool, ours, theirs, and the place of the number of bytes that are used.
#[derive(Clone, Debug, PartialEq)]
pub struct Lent {
    pub fresh: Vec<u8>,
    pub ours: Vec<u32>,
    pub theirs: Vec<u32>,
    pub used: u64,
}

impl Lent {
    pub fn call(&mut self, pool: &[u8]) -> u64 {
        let Self {
            fresh,
            ours,
            theirs,
            used,
        } = self;
        fernsponge::collect(pool, fresh, ours, theirs, used)
    }

    /// The bytes that are used, of what an accepted call leaves.
    pub fn packed(&self) -> &[u8] {
        self.fresh.get(..self.used as usize).unwrap_or(&[])
    }
}

/// The keys that two lists name, packed, and the lists over them.
pub struct Collected {
    pub packed: Vec<u8>,
    ours: Vec<u32>,
    theirs: Vec<u32>,
}

impl Collected {
    /// Of lists that are accepted: ours before theirs.
    pub fn new(pool: &[u8], ours: &[u32], theirs: &[u32]) -> Checked<Self> {
        refusals::named_lists(pool, ours, theirs)?;
        let mut keys = Keys { found: vec![] };
        let [ours, theirs] = [ours, theirs].map(|list| keys.renamed(list, pool));
        Ok(Self {
            packed: keys.found.concat(),
            ours,
            theirs,
        })
    }

    /// What a call is to leave. 6 where the keys exceed the fresh pool; bytes behind the last of them stay.
    pub fn left(&self, lent: &Lent) -> Checked<Lent> {
        let used = self.packed.len();
        if used > lent.fresh.len() {
            return refuse(6, 0, 0);
        }
        let mut left = Lent {
            fresh: lent.fresh.clone(),
            ours: self.ours.clone(),
            theirs: self.theirs.clone(),
            used: used as u64,
        };
        left.fresh[..used].copy_from_slice(&self.packed);
        Ok(left)
    }
}

/// What a call is to leave, or what it refuses: the sizes of both pools, then what is wrong with the lists, then want of room.
pub fn paper(pool: &[u8], lent: &Lent, collected: Checked<&Collected>) -> Checked<Lent> {
    refusals::pool(pool)?;
    refusals::pool(&lent.fresh)?;
    collected?.left(lent)
}

/// The keys found so far, each once, in order of first use.
struct Keys<'a> {
    found: Vec<&'a [u8]>,
}

impl<'a> Keys<'a> {
    /// A list over the packed keys.
    fn renamed(&mut self, list: &[u32], pool: &'a [u8]) -> Vec<u32> {
        let items = list.chunks(6).filter_map(six);
        items.flat_map(|item| self.item(item, pool)).collect()
    }

    /// An item over the packed keys, start before end; the words of an absent key are 0.
    fn item(&mut self, item: Words, pool: &'a [u8]) -> Words {
        let [code, wrapper, ..] = item;
        let start = start_of(item, pool).filter(|_| has_start(code));
        let end = end_of(item, pool).filter(|_| has_end(code));
        let [start, end] = [start, end].map(|key| key.map_or([0, 0], |key| self.place(key)));
        [code, wrapper, start[0], start[1], end[0], end[1]]
    }

    /// Where a key stands, behind those found before it, and its length; the empty one stands at 0.
    fn place(&mut self, key: &'a [u8]) -> [u32; 2] {
        if key.is_empty() {
            return [0, 0];
        }
        let at = self.found.iter().position(|found| *found == key);
        let at = at.unwrap_or_else(|| {
            self.found.push(key);
            self.found.len() - 1
        });
        let before: usize = self.found[..at].iter().map(|found| found.len()).sum();
        [before as u32, key.len() as u32]
    }
}
