//! The reference: a plain sweep over two lists with two indexes, as one writes it in Rust, unproved. It takes and gives what our call does.
//! `trusting` reads lists that are accepted into buffers that suffice; `checking` refuses besides what document 01 refuses.

use std::cmp::Ordering;

/// One item in words.
pub const SIZE: usize = 6;

/// Kinds of boundaries at a key, in their order; the unbounded ones stand below and above all keys.
const BEFORE: u8 = 0;
const AT: u8 = 1;
const AFTER: u8 = 2;

#[derive(Clone, Copy)]
enum Boundary<'a> {
    Lowest,
    Key(Place<'a>),
    Highest,
}

#[derive(Clone, Copy)]
struct Place<'a> {
    key: &'a [u8],
    kind: u8,
    offset: u32,
}

#[derive(Clone, Copy)]
struct Range<'a> {
    start: Boundary<'a>,
    end: Boundary<'a>,
}

impl<'a> Boundary<'a> {
    fn cmp(&self, other: &Self) -> Ordering {
        match (self, other) {
            (Self::Key(x), Self::Key(y)) => x.key.cmp(y.key).then(x.kind.cmp(&y.kind)),
            (Self::Lowest, Self::Lowest) | (Self::Highest, Self::Highest) => Ordering::Equal,
            (Self::Lowest, _) | (_, Self::Highest) => Ordering::Less,
            _ => Ordering::Greater,
        }
    }

    /// The end just before this start.
    fn just_before(self) -> Self {
        match self {
            Self::Key(place) => Self::Key(Place {
                kind: place.kind - 1,
                ..place
            }),
            unbounded => unbounded,
        }
    }

    /// The start just after this end.
    fn just_after(self) -> Self {
        match self {
            Self::Key(place) => Self::Key(Place {
                kind: place.kind + 1,
                ..place
            }),
            unbounded => unbounded,
        }
    }
}

fn range<'a>(pool: &'a [u8], item: &[u32]) -> Range<'a> {
    let place = |kind, offset: u32, length: u32| {
        let key = &pool[offset as usize..][..length as usize];
        Boundary::Key(Place { key, kind, offset })
    };
    let start = |kind| place(kind, item[2], item[3]);
    let end = |kind| place(kind, item[4], item[5]);
    let (start, end) = match item[0] {
        0 => (start(AT), start(AT)),
        1 => (start(AT), end(BEFORE)),
        2 => (start(AT), end(AT)),
        3 => (Boundary::Lowest, Boundary::Highest),
        4 => (start(AT), Boundary::Highest),
        5 => (Boundary::Lowest, end(BEFORE)),
        6 => (Boundary::Lowest, end(AT)),
        7 => (start(AFTER), Boundary::Highest),
        8 => (start(AFTER), end(BEFORE)),
        _ => (start(AFTER), end(AT)),
    };
    Range { start, end }
}

fn item(range: Range) -> [u32; SIZE] {
    let (code, start, end) = match (range.start, range.end) {
        (Boundary::Key(a), Boundary::Key(b)) => match (a.kind, b.kind) {
            (AT, AT) if a.key == b.key => (0, Some(a), None),
            (AT, BEFORE) => (1, Some(a), Some(b)),
            (AT, _) => (2, Some(a), Some(b)),
            (_, BEFORE) => (8, Some(a), Some(b)),
            _ => (9, Some(a), Some(b)),
        },
        (Boundary::Key(a), _) => (if a.kind == AT { 4 } else { 7 }, Some(a), None),
        (_, Boundary::Key(b)) => (if b.kind == AT { 6 } else { 5 }, None, Some(b)),
        _ => (3, None, None),
    };
    let words = |place: Option<Place>| match place {
        Some(place) => [place.offset, place.key.len() as u32],
        None => [0, 0],
    };
    let ([a, b], [c, d]) = (words(start), words(end));
    [code, 0, a, b, c, d]
}

/// Below the empty key, or past a key and below the same one with a zero byte behind it (02 §2.2).
fn holds_no_key(range: &Range) -> bool {
    match (range.start, range.end) {
        (Boundary::Lowest, Boundary::Key(b)) => b.kind == BEFORE && b.key.is_empty(),
        (Boundary::Key(a), Boundary::Key(b)) if a.kind == AFTER && b.kind == BEFORE => {
            b.key.split_last() == Some((&0, a.key))
        }
        _ => false,
    }
}

/// Hands on the items of the three lists: 0 shared, 1 ours only, 2 theirs only.
fn sweep<'a>(pool: &'a [u8], ours: &[u32], theirs: &[u32], mut put: impl FnMut(usize, Range<'a>)) {
    let mut put = |list, range| {
        if !holds_no_key(&range) {
            put(list, range);
        }
    };
    let mut ours = ours.chunks_exact(SIZE).map(|item| range(pool, item));
    let mut theirs = theirs.chunks_exact(SIZE).map(|item| range(pool, item));
    let (mut next_x, mut next_y) = (ours.next(), theirs.next());
    // whether x begins where one of theirs has ended: at a tie their own start stands for the shared one
    let mut x_is_cut = false;
    while let (Some(mut x), Some(mut y)) = (next_x, next_y) {
        if x.end.cmp(&y.start).is_lt() {
            put(1, x);
            (next_x, x_is_cut) = (ours.next(), false);
            continue;
        }
        if y.end.cmp(&x.start).is_lt() {
            put(2, y);
            next_y = theirs.next();
            continue;
        }
        let start = match x.start.cmp(&y.start) {
            Ordering::Less => {
                let end = y.start.just_before();
                put(1, Range { end, ..x });
                y.start
            }
            Ordering::Greater => {
                let end = x.start.just_before();
                put(2, Range { end, ..y });
                x.start
            }
            Ordering::Equal if x_is_cut => y.start,
            Ordering::Equal => x.start,
        };
        match x.end.cmp(&y.end) {
            Ordering::Less => {
                put(0, Range { start, end: x.end });
                y.start = x.end.just_after();
                (next_x, x_is_cut) = (ours.next(), false);
                next_y = Some(y);
            }
            Ordering::Greater => {
                put(0, Range { start, end: y.end });
                x.start = y.end.just_after();
                (next_x, x_is_cut) = (Some(x), true);
                next_y = theirs.next();
            }
            Ordering::Equal => {
                put(0, Range { start, end: y.end });
                (next_x, x_is_cut) = (ours.next(), false);
                next_y = theirs.next();
            }
        }
    }
    for x in next_x.into_iter().chain(ours) {
        put(1, x);
    }
    for y in next_y.into_iter().chain(theirs) {
        put(2, y);
    }
}

/// Writes the three lists of accepted lists to buffers that suffice, and their counts.
pub fn trusting(
    pool: &[u8],
    ours: &[u32],
    theirs: &[u32],
    mut out: [&mut [u32]; 3],
    counts: &mut [u64; 3],
) {
    let mut ends = [0; 3];
    sweep(pool, ours, theirs, |list, range| {
        let from = ends[list];
        out[list][from..from + SIZE].copy_from_slice(&item(range));
        ends[list] = from + SIZE;
    });
    *counts = ends.map(|end| (end / SIZE) as u64);
}

/// The same, with all that document 01 refuses; returns as our call does.
pub fn checking(
    pool: &[u8],
    ours: &[u32],
    theirs: &[u32],
    out: [&mut [u32]; 3],
    counts: &mut [u64; 3],
) -> u64 {
    if pool.len() > 65_536 {
        return 1;
    }
    for (side, list) in [ours, theirs].into_iter().enumerate() {
        let refused = check(pool, list, side as u64);
        if refused != 0 {
            return refused;
        }
    }
    // no list has more items than both together: with so much room there is nothing to count
    let most = ours.len() + theirs.len();
    if out.iter().any(|out| out.len() < most) {
        let mut words = [0; 3];
        sweep(pool, ours, theirs, |list, _| words[list] += SIZE);
        if (0..3).any(|list| words[list] > out[list].len()) {
            return 6;
        }
    }
    trusting(pool, ours, theirs, out, counts);
    0
}

pub fn check(pool: &[u8], list: &[u32], side: u64) -> u64 {
    let refusal = |number: u64, index: usize| number + 256 * side + 65_536 * index as u64;
    if list.len() % SIZE != 0 || list.len() / SIZE > 2_048 {
        return refusal(1, 0);
    }
    let mut not_strict = None;
    let mut last: Option<Range> = None;
    for (index, item) in list.chunks_exact(SIZE).enumerate() {
        let number = fault(pool, item);
        if number != 0 {
            return refusal(number, index);
        }
        let range = range(pool, item);
        if range.start.cmp(&range.end).is_gt() {
            return refusal(3, index);
        }
        if last.is_some_and(|last| last.end.cmp(&range.start).is_ge()) {
            not_strict = not_strict.or(Some(index));
        }
        last = Some(range);
    }
    not_strict.map_or(0, |index| refusal(4, index))
}

fn fault(pool: &[u8], item: &[u32]) -> u64 {
    let has_start = matches!(item[0], 0 | 1 | 2 | 4 | 7 | 8 | 9);
    let has_end = matches!(item[0], 1 | 2 | 5 | 6 | 8 | 9);
    let absent = |words: &[u32]| words == [0, 0];
    let out = |words: &[u32]| words[1] > 255 || words[0] as usize + words[1] as usize > pool.len();
    let (start, end) = (&item[2..4], &item[4..6]);
    if item[0] > 9 || item[1] > 3 || !has_start && !absent(start) || !has_end && !absent(end) {
        return 1;
    }
    if has_start && out(start) || has_end && out(end) {
        return 2;
    }
    0
}
