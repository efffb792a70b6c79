//! Invoices made by chance with our totals, for another program to hold. A line has the rates of the keys, how many keys have none, and our
//! sum, how many have none, and our cents; between these three a semicolon.

use crate::{
    fernsponge::{self, Invoice},
    inputs::{some_amount, Keys},
    items::{holding, part},
    random::Random,
    refusals::{MOST_AMOUNT, MOST_ASKED},
    SEED,
};
use std::io::{self, BufWriter, Write};

/// So many invoices are asked of one list.
const OF_A_LIST: u64 = 50;

pub fn write(count: u64, out: &mut impl Write) -> io::Result<()> {
    let random = &mut Random::new(SEED);
    let mut out = BufWriter::new(out);
    let mut keys = Keys::new(random, 40);
    let mut words = vec![];
    for at in 0..count {
        if at % OF_A_LIST == 0 {
            keys = Keys::new(random, 40);
            words = keys.list(random, 20).concat();
        }
        writeln!(out, "{}", line(random, &keys, &words)?)?;
    }
    out.flush()
}

/// One invoice, of keys by chance and an accepted list. Most sums end in half a cent.
fn line(random: &mut Random, keys: &Keys, words: &[u32]) -> io::Result<String> {
    let pool = &keys.pool;
    let most = match random.below(500) {
        0 => MOST_ASKED,
        _ => 12,
    };
    let count = random.below(most + 1);
    let asked: Vec<[u32; 2]> = (0..count).map(|_| keys.place(random)).collect();
    let found = |[offset, length]: &[u32; 2]| holding(words, pool, part(pool, *offset, *length)?);
    let found: Vec<Option<usize>> = asked.iter().map(found).collect();
    let mut amounts: Vec<i64> = (0..words.len() / 6).map(|_| some_amount(random)).collect();
    let once = |index: &usize| found.iter().flatten().filter(|it| *it == index).count() == 1;
    if let Some(last) = found.iter().flatten().copied().rfind(once) {
        if random.below(4) > 0 {
            let sum: i64 = found.iter().flatten().map(|index| amounts[*index]).sum();
            amounts[last] = with_half(amounts[last], sum);
        }
    }
    let mut totals = Invoice::default();
    let keys = asked.as_flattened();
    let returned = fernsponge::invoice(pool, words, &amounts, keys, &mut totals);
    if returned != 0 {
        return Err(io::Error::other(format!("refused: {returned}")));
    }
    let rates = found.iter().flatten();
    let rates: Vec<String> = rates.map(|index| amounts[*index].to_string()).collect();
    let without = found.iter().filter(|index| index.is_none()).count();
    let Invoice {
        sum,
        without: our_without,
        cents,
    } = totals;
    Ok(format!(
        "{};{without};{sum} {our_without} {cents}",
        rates.join(" ")
    ))
}

/// The amount changed by less than a cent, so that the sum that it is part of ends in half a cent.
fn with_half(amount: i64, sum: i64) -> i64 {
    let changed = amount + 50 - sum.rem_euclid(100);
    match changed.abs() > MOST_AMOUNT {
        true => changed - 100 * changed.signum(),
        false => changed,
    }
}
