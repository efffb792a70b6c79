//! Module 4: our call on lists that are refused or nearly so, every fault of ours beside every fault of theirs, and random lists, many of
//! them damaged. Held against document 01 alone: the original refuses none of this.

use crate::{
    algebra::paper,
    hexadecimal,
    inputs::{bad_lists, counting_pools, counts, damage, disorder, half_meeting, Keys},
    items::six,
    many,
    random::Random,
    refusals,
    table::{Against, Row},
    Size,
};

pub fn run(random: &mut Random, size: &Size) -> Vec<Row> {
    let mut rows = [
        Row::new("intersect_many, all that it leaves"),
        Row::new("intersect_many, refused"),
    ];
    edges(&mut rows);
    limits(&mut rows, size);
    for at in 0..size.random / 4 {
        // few lists are long, and those are at the limit
        let most = match at < size.long_lists {
            true => 2_046 + random.below(4),
            false => 8,
        };
        let keys = Keys::new(random, most);
        let [ours, theirs] = [(); 2].map(|()| damaged(random, &keys, most));
        let room = [(); 3].map(|()| random.below(12 * most + 7));
        hold(&mut rows, &keys.pool, &ours, &theirs, &[room]);
    }
    rows.into()
}

/// A list that is accepted in every second case or so.
fn damaged(random: &mut Random, keys: &Keys, most: usize) -> Vec<u32> {
    let mut list = keys.list(random, most);
    let often = random.below(2) == 0;
    if often && random.below(2) == 0 {
        disorder(random, &mut list);
    }
    let mut words = list.concat();
    if often && random.below(2) == 0 {
        damage(random, &mut words, &keys.pool);
    }
    words
}

/// Every fault of ours beside every fault of theirs, in pools and rooms at the limits.
fn edges(rows: &mut [Row; 2]) {
    let lists = bad_lists();
    for pool in &counting_pools() {
        for ours in &lists {
            for theirs in &lists {
                let rooms = [[0; 3], [5, 11, 12], [12, 5, 24], [24, 12, 5], [40; 3]];
                hold(rows, pool, ours, theirs, &rooms);
            }
        }
    }
}

/// None, one, and items at the limit, against each of these, in pools at the limit: with room that is just enough, or is one word short in one
/// list or in all, or a whole item.
fn limits(rows: &mut [Row; 2], size: &Size) {
    for pool in &counting_pools() {
        for x in counts(size) {
            for y in counts(size) {
                let [ours, theirs] = half_meeting(x, y).map(|list| list.concat());
                // each shared part is one of ours and one of theirs, and takes a half of both
                let exact = [x.min(y), x, y].map(|count| 6 * count);
                let short = |at: usize, by: usize| {
                    let mut room = exact;
                    room[at] = room[at].saturating_sub(by);
                    room
                };
                let all_short = exact.map(|room| room.saturating_sub(1));
                let rooms = [
                    exact,
                    short(0, 1),
                    short(1, 1),
                    short(2, 1),
                    short(0, 6),
                    short(1, 6),
                    short(2, 6),
                    all_short,
                    exact.map(|room| room + 1),
                ];
                hold(rows, pool, &ours, &theirs, &rooms);
            }
        }
    }
}

/// A call with each of the rooms.
fn hold(rows: &mut [Row; 2], pool: &[u8], ours: &[u32], theirs: &[u32], rooms: &[[usize; 3]]) {
    let lists = refusals::lists(pool, ours, theirs).map(|()| {
        let [x, y] = [ours, theirs].map(|words| Vec::from_iter(words.chunks(6).filter_map(six)));
        paper::lists(&x, &y, pool)
    });
    for &room in rooms {
        let paper = many::paper(lists.as_ref().map_err(|refusal| *refusal), room);
        let row = &mut rows[usize::from(paper.returned != 0)];
        row.hold(
            || {
                let pool = hexadecimal(pool);
                format!("{ours:?} and {theirs:?} in {pool}, {room:?} words lent")
            },
            Against::paper(many::call(pool, ours, theirs, room), paper),
        );
    }
}
