//! Module 2: our check of a list for the algebra, on all lists of three items over few keys, and on random ones, many of them damaged.

use crate::{
    fernsponge, hexadecimal,
    inputs::{
        all_lists, bad_items, counted_key, counting_pools, damage, disorder, even_pools, few_keys,
        limit_items, limit_keys, plain_items, Keys, POOL_LENGTHS,
    },
    items::Words,
    random::Random,
    refusals,
    table::{Against, Row},
    Size,
};

pub fn run(random: &mut Random, size: &Size) -> Vec<Row> {
    let mut rows = [Row::new("check_list"), Row::new("check_list, refused")];
    let (pool, keys) = few_keys(size.listed);
    let lists = all_lists(&keys);
    for list in &lists {
        hold(&mut rows, &pool, &list.concat());
    }
    for at in 0..size.random {
        // few lists are long, and those are at the limit
        let most = match at % 200 {
            0 => 2_046 + random.below(4),
            _ => 12,
        };
        let keys = Keys::new(random, most);
        let mut list = keys.list(random, most);
        for _ in 0..random.below(3) {
            disorder(random, &mut list);
        }
        let mut words = list.concat();
        for _ in 0..random.below(3) {
            damage(random, &mut words, &keys.pool);
        }
        hold(&mut rows, &keys.pool, &words);
    }
    for length in POOL_LENGTHS {
        let pool = vec![0; length];
        for list in lists.iter().take(1_000) {
            hold(&mut rows, &pool, &list.concat());
        }
    }
    limits(&mut rows);
    rows.into()
}

/// None, one, and items at the limit, in pools at the limit: accepted, or with a fault in the last item or in the shape. And single items with
/// keys at the limits.
fn limits(rows: &mut [Row; 2]) {
    for pool in &counting_pools() {
        for count in [0, 1, 2_047, 2_048, 2_049] {
            let list: Vec<Words> = (0..count).map(counted_key).collect();
            let words = list.concat();
            hold(rows, pool, &words);
            hold(rows, pool, &[&words[..], &[0]].concat());
            hold(rows, pool, &words[..words.len().saturating_sub(1)]);
            for last in bad_items().chain([counted_key(count.saturating_sub(2))]) {
                let mut list = list.clone();
                list.pop();
                list.push(last);
                hold(rows, pool, &list.concat());
            }
        }
    }
    for pool in &even_pools() {
        for item in limit_items(pool) {
            hold(rows, pool, &item);
        }
        for item in plain_items(&limit_keys(pool, 1)) {
            hold(rows, pool, &item);
        }
    }
}

fn hold(rows: &mut [Row; 2], pool: &[u8], words: &[u32]) {
    for theirs in [false, true] {
        let paper = refusals::list(pool, words, u64::from(theirs));
        let returned = paper.map_or_else(refusals::Refusal::returned, |()| 0);
        rows[usize::from(paper.is_err())].hold(
            || format!("{words:?} in {}, theirs: {theirs}", hexadecimal(pool)),
            Against::paper(fernsponge::check_list(pool, words, theirs), returned),
        );
    }
}
