//! The reference for collecting: a `HashMap` from each key to its offset in the fresh pool, as one writes it in Rust, unproved. It takes for
//! granted that the items are accepted. One pass looks keys up, appends the new ones to a `Vec` and notes the offset of each key; if all fit, the
//! bytes are copied to the fresh pool and the offsets to the lists, so that nothing has changed where they do not.

use std::collections::HashMap;

/// How many bytes are used; none where the keys exceed the fresh pool.
pub fn collect(
    pool: &[u8],
    fresh: &mut [u8],
    ours: &mut [u32],
    theirs: &mut [u32],
) -> Option<usize> {
    let most = (ours.len() + theirs.len()) / 3;
    let mut known: HashMap<&[u8], u32> = HashMap::with_capacity(most);
    let mut packed: Vec<u8> = Vec::with_capacity(fresh.len());
    let mut offsets: Vec<u32> = Vec::with_capacity(most);
    for item in ours.chunks_exact(6).chain(theirs.chunks_exact(6)) {
        for at in [2, 4] {
            let key = &pool[item[at] as usize..][..item[at + 1] as usize];
            offsets.push(match key {
                [] => 0,
                _ => *known.entry(key).or_insert_with(|| {
                    packed.extend_from_slice(key);
                    (packed.len() - key.len()) as u32
                }),
            });
        }
    }
    fresh.get_mut(..packed.len())?.copy_from_slice(&packed);
    let items = ours.chunks_exact_mut(6).chain(theirs.chunks_exact_mut(6));
    for (item, offsets) in items.zip(offsets.chunks_exact(2)) {
        (item[2], item[4]) = (offsets[0], offsets[1]);
    }
    Some(packed.len())
}
