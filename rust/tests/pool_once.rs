//! A pool to which keys are added once, as far as it finds them: what it has before and after it is collected.

use fernsponge::*;

#[test]
fn equal_keys_take_the_room_of_one() {
    let (mut pool, mut ours, mut theirs) = (Pool::new(), vec![], vec![]);
    let add = |pool: &mut Pool, list: &mut Vec<Item>, low: u8, high: u8| {
        let low = pool.add_once(&[0, low]).unwrap();
        let high = pool.add_once(&[high]).unwrap();
        insert(pool.bytes(), list, Item::range_inclusive(low, high)).unwrap();
    };
    for byte in 1..100 {
        add(&mut pool, &mut ours, byte, byte + 1);
    }
    add(&mut pool, &mut theirs, 50, 60);
    // of the last keys, 00 32 and 3C, both were there
    assert_eq!((pool.len(), ours.len()), (297, 1));

    // what a collection keeps is found where it stands then, and what it drops is added behind
    pool.collect(&mut ours, &mut theirs).unwrap();
    assert_eq!(pool.bytes(), [0, 1, 100, 0, 50, 60]);
    let places =
        [&[0, 50][..], &[60], &[0, 51], &[0, 51]].map(|key| pool.add_once(key).unwrap().offset);
    assert_eq!((places, pool.len()), ([3, 5, 6, 6], 8));
}

#[test]
fn what_is_added_each_time_is_not_found() {
    let mut pool = Pool::new();
    let places = [pool.add(b"aa"), pool.add(b"aa"), pool.add_once(b"aa")];
    assert_eq!(places.map(|at| at.unwrap().offset), [0, 2, 4]);
    assert_eq!(pool.add_once(b"aa").unwrap().offset, 4);
    // nor does a key that can be found keep an equal one from being added
    assert_eq!(pool.add(b"aa").unwrap().offset, 6);
    // one that a collection keeps is found, however it was added
    let mut list = [Item::key(pool.add(b"bb").unwrap())];
    pool.collect(&mut list, &mut []).unwrap();
    assert_eq!((pool.add_once(b"bb").unwrap().offset, pool.len()), (0, 2));
}
