//! Our search in lists, rate cards, invoices and cents: on all small lists with all short keys, on random ones, accepted and refused, and at
//! the limits. The original has no cards: of its answers only which item holds a key can be held; the rest is held against document 02.

use crate::{
    calls::{Calls, MARK, WIDE_MARK},
    cards::{cents, Card},
    fernsponge::{self, Invoice},
    hexadecimal,
    inputs::{
        bad_lists, counted_key, counting_pools, counts, even_pools, limit_items, limit_keys,
        lists_of, plain_items, SomeCard, KEY_LENGTHS, OUTSIDE,
    },
    items::{part, Words},
    keys_of,
    random::Random,
    refusals::{self, MOST_AMOUNT, MOST_ASKED},
    table::{Against, Held, Row},
    Size,
};

/// What is lent for an invoice's totals.
const LENT: Invoice = Invoice {
    sum: WIDE_MARK as i64,
    without: WIDE_MARK + 1,
    cents: WIDE_MARK as i64 + 2,
};

struct All {
    find: Calls,
    rate: Calls,
    invoice: Calls,
    cents: Row,
    one_by_one: Row,
    parts: Row,
    order: Row,
}

pub fn run(random: &mut Random, size: &Size) -> Vec<Row> {
    let mut all = All {
        find: Calls::new("find_item", "find_item, refused"),
        rate: Calls::new("rate", "rate, refused"),
        invoice: Calls::new("invoice", "invoice, refused"),
        cents: Row::new("to_cents"),
        one_by_one: Row::new("invoice: key by key as rate and to_cents"),
        parts: Row::new("invoice: the sums of two parts add up"),
        order: Row::new("invoice: in another order the same"),
    };
    all.small(size.carded);
    all.refused();
    all.limits(size);
    all.cents(random, size.random);
    for at in 0..size.random / 16 {
        // few lists are long, and those are at the limit
        let most = match at % 200 {
            0 => 2_046 + random.below(4),
            _ => random.one_of(&[1, 3, 12, 60]),
        };
        all.random(random, most);
    }
    let calls = [all.find, all.rate, all.invoice];
    let mut rows: Vec<Row> = calls.into_iter().flat_map(Calls::rows).collect();
    rows.extend([all.cents, all.one_by_one, all.parts, all.order]);
    rows
}

impl All {
    /// All accepted lists of at most so many items over all keys of two bytes, asked for all keys of three. What holds no key is among the
    /// items, and so are items that share a bound.
    fn small(&mut self, most: usize) {
        // 00 00, 00 05, 05 05 and 05 00 one after the other
        let pool = [0x00, 0x00, 0x05, 0x05, 0x00];
        let keys = [[0, 0], [0, 1], [2, 1], [0, 2], [1, 2], [2, 2], [3, 2]];
        let accepted = |list: &[Words]| refusals::list(&pool, &list.concat(), 0).is_ok();
        let mut asked = keys_of(&[0x00, 0x05], 3);
        asked.extend([0x04, 0x06, 0xFF].map(|byte| vec![byte]));
        for (at, mut list) in (0..).zip(lists_of(&plain_items(&keys), most, accepted)) {
            for (wrapper, item) in (at..).zip(&mut list) {
                item[1] = wrapper % 4;
            }
            let amounts = [-150, MOST_AMOUNT, 50][..list.len()].to_vec();
            let card = Card::new(pool.to_vec(), list.concat(), amounts);
            for key in &asked {
                self.key(&card, key);
            }
            self.invoiced(&card, keys.as_flattened());
            let others = [keys, keys].concat();
            self.invoiced(&card, others[at as usize % 7..][..5].as_flattened());
        }
    }

    /// Lists with every fault, beside amounts and keys with every fault, and with none: which of them decides.
    fn refused(&mut self) {
        for pool in &counting_pools() {
            for words in bad_lists() {
                let items = words.len() / 6;
                for count in [items, items.saturating_sub(1), items + 1] {
                    for outside in [None, Some(0), Some(count.saturating_sub(1))] {
                        let mut amounts = vec![MOST_AMOUNT; count];
                        if let Some(amount) = outside.and_then(|at| amounts.get_mut(at)) {
                            *amount += 1;
                        }
                        let card = Card::new(pool.clone(), words.clone(), amounts);
                        self.key(&card, &[5]);
                        for keys in bad_keys(pool) {
                            self.invoice(&card, &keys);
                        }
                    }
                }
            }
        }
        // every amount that is out of range, alone and before another
        for outside in OUTSIDE {
            for place in 0..6 {
                for also in 0..6 {
                    let list: Vec<Words> = (0..6).map(counted_key).collect();
                    let mut amounts = vec![-MOST_AMOUNT, MOST_AMOUNT, 0, 1, -1, 50];
                    amounts[also] = MOST_AMOUNT + 1;
                    amounts[place] = outside;
                    let [pool, ..] = counting_pools();
                    let card = Card::new(pool, list.concat(), amounts);
                    self.key(&card, &[0, 3]);
                    self.invoice(&card, &[0; 3]);
                }
            }
        }
    }

    /// Cards and invoices at the limits of length, in pools at the limit; keys at the limits of length, as items and asked for.
    fn limits(&mut self, size: &Size) {
        for pool in &counting_pools() {
            for count in counts(size) {
                let list: Vec<Words> = (0..count).map(counted_key).collect();
                let amounts = (0..count as i64).map(|at| MOST_AMOUNT - at).collect();
                let card = Card::new(pool.clone(), list.concat(), amounts);
                for number in [0, 1, count / 2, count.saturating_sub(1), count, count + 1] {
                    self.key(&card, &(number as u16).to_be_bytes());
                }
                for asked in [0, 1, MOST_ASKED - 1, MOST_ASKED, MOST_ASKED + 1, 2_048] {
                    // from the first item on, and over the last one
                    for from in [0, count.saturating_sub(asked / 2)] {
                        let keys = (from..from + asked).map(|at| counted_key(at)[2..4].to_vec());
                        self.invoiced(&card, &keys.collect::<Vec<_>>().concat());
                    }
                }
                // the greatest sum that there is
                self.invoiced(&card, &counted_key(0)[2..4].repeat(MOST_ASKED));
            }
        }
        for pool in &even_pools() {
            let keys = limit_keys(pool, 1);
            for item in limit_items(pool) {
                let card = Card::new(pool.clone(), item.to_vec(), vec![-50]);
                for length in KEY_LENGTHS {
                    for asked in [&pool[..length], &pool[pool.len() - length..]] {
                        self.key(&card, asked);
                    }
                }
                for key in &keys {
                    self.invoice(&card, &[[0, 1], *key].concat());
                }
            }
        }
    }

    /// All amounts about 0, those near the limits of amounts, of sums and of 64 bits, and by chance, halves foremost.
    fn cents(&mut self, random: &mut Random, count: u64) {
        for amount in -100_000..=100_000 {
            self.one_cents(amount);
        }
        let most_sum = MOST_ASKED as i64 * MOST_AMOUNT;
        for near in [MOST_AMOUNT, most_sum, i64::MAX / 2, i64::MAX, i64::MIN] {
            for far in -1_000..=1_000 {
                self.one_cents(near.saturating_add(far));
                self.one_cents(near.saturating_add(far).saturating_neg());
            }
        }
        for _ in 0..count {
            let amount = random.next() as i64 >> random.below(64);
            self.one_cents(amount);
            let half = amount / 100 * 100;
            self.one_cents(half.saturating_add(50));
            self.one_cents(half.saturating_sub(50));
        }
    }

    fn one_cents(&mut self, amount: i64) {
        let paper = cents(i128::from(amount));
        let ours = i128::from(fernsponge::to_cents(amount));
        self.cents
            .hold(|| amount.to_string(), Against::paper(ours, paper));
    }

    /// A card of so many items at most and keys that are asked of it, some of it damaged.
    fn random(&mut self, random: &mut Random, most: usize) {
        let SomeCard {
            keys,
            words,
            amounts,
            mut asked,
        } = SomeCard::new(random, most);
        let card = Card::new(keys.pool.clone(), words, amounts);
        for _ in 0..4 {
            let key = keys.near(random);
            self.key(&card, &key);
        }
        self.invoiced(&card, &asked);
        if let Some(key) = asked.chunks_exact(2).next() {
            // a key that is asked twice, or more often
            let again = 1 + random.below(5);
            let more = [&asked[..], &key.repeat(again)].concat();
            self.invoice(&card, &more);
        }
        shuffle(random, &mut asked);
        self.in_order(&card, &asked);
    }

    /// A key, looked for in the list and on the card.
    fn key(&mut self, card: &Card, key: &[u8]) {
        let input = || format!("{} of {card:?}", hexadecimal(key));
        let found = |found: Option<usize>| found.map_or([0, 0], |index| [1, index as u64]);
        self.find.hold(
            input,
            [WIDE_MARK, WIDE_MARK + 1],
            |found| fernsponge::find_item(&card.pool, &card.words, key, found),
            card.find_item(key).map(found),
            |[some, index]| Held {
                ours: match some {
                    0 => vec![],
                    _ => vec![*index as usize],
                },
                other: card.found_by_rust(key),
            },
        );
        let rated = |rate: Option<i64>| rate.map_or((0, 0), |amount| (1, amount));
        self.rate.hold_paper(
            input,
            (MARK, WIDE_MARK as i64),
            |(has, amount)| {
                fernsponge::rate(&card.pool, &card.words, &card.amounts, key, has, amount)
            },
            card.rate(key).map(rated),
        );
    }

    fn invoice(&mut self, card: &Card, keys: &[u32]) {
        self.invoice.hold_paper(
            || format!("{keys:?} of {card:?}"),
            LENT,
            |totals| fernsponge::invoice(&card.pool, &card.words, &card.amounts, keys, totals),
            card.invoice(keys),
        );
    }

    /// An invoice; where it is accepted, its totals beside those of its keys, of two parts, and from its last key to its first.
    fn invoiced(&mut self, card: &Card, keys: &[u32]) {
        self.invoice(card, keys);
        let Some(whole) = ours(card, keys) else {
            return;
        };
        let input = || format!("{keys:?} of {card:?}");
        self.one_by_one
            .hold(input, Against::paper(Some(whole), key_by_key(card, keys)));
        let cut = keys.len() / 4 * 2;
        let parts = [&keys[..cut], &keys[cut..]].map(|part| ours(card, part).unwrap_or(LENT));
        self.parts.hold(
            input,
            Against::paper(
                (whole.sum, whole.without),
                (
                    parts[0].sum.wrapping_add(parts[1].sum),
                    parts[0].without.wrapping_add(parts[1].without),
                ),
            ),
        );
        let turned: Vec<&[u32]> = keys.chunks(2).rev().collect();
        let turned = ours(card, &turned.concat());
        self.order.hold(input, Against::paper(Some(whole), turned));
    }

    /// The same totals as from the keys in rising order of their words.
    fn in_order(&mut self, card: &Card, keys: &[u32]) {
        let mut sorted: Vec<&[u32]> = keys.chunks(2).collect();
        sorted.sort();
        if let Some(whole) = ours(card, keys) {
            let other = ours(card, &sorted.concat());
            self.order.hold(
                || format!("{keys:?} of {card:?}"),
                Against::paper(Some(whole), other),
            );
        }
    }
}

/// Our totals, where they are not refused.
fn ours(card: &Card, keys: &[u32]) -> Option<Invoice> {
    let mut totals = LENT;
    let returned = fernsponge::invoice(&card.pool, &card.words, &card.amounts, keys, &mut totals);
    (returned == 0).then_some(totals)
}

/// The same from our rate of each key, and our cents of their sum.
fn key_by_key(card: &Card, keys: &[u32]) -> Option<Invoice> {
    let mut totals = Invoice::default();
    for key in keys.chunks(2) {
        let (mut has, mut amount) = (MARK, WIDE_MARK as i64);
        let key = part(&card.pool, key[0], key[1])?;
        let (words, amounts) = (&card.words, &card.amounts);
        let returned = fernsponge::rate(&card.pool, words, amounts, key, &mut has, &mut amount);
        if returned != 0 {
            return None;
        }
        totals.sum += amount;
        totals.without += u64::from(has == 0);
    }
    totals.cents = fernsponge::to_cents(totals.sum);
    Some(totals)
}

/// Keys in any order; a word that is left over stays the last.
fn shuffle(random: &mut Random, keys: &mut [u32]) {
    for at in 1..keys.len() / 2 {
        let other = random.below(at + 1);
        keys.swap(2 * at, 2 * other);
        keys.swap(2 * at + 1, 2 * other + 1);
    }
}

/// Keys of an invoice with every fault, alone, before and after others, and some with none.
fn bad_keys(pool: &[u8]) -> Vec<Vec<u32>> {
    let end = pool.len() as u32;
    let (good, long) = ([5, 1], [0, 256]);
    let faults = [
        long,
        [end, 1],
        [end + 1, 0],
        [end - 254, 255],
        [u32::MAX, u32::MAX],
        [1, u32::MAX],
    ];
    let mut lists = vec![vec![], good.to_vec(), vec![end, 0], vec![end - 255, 255]];
    for fault in faults {
        lists.push(fault.to_vec());
        lists.push([good, fault, long].concat());
        // which of two decides
        lists.push([&[good, fault].concat()[..], &[7]].concat());
    }
    for count in [MOST_ASKED, MOST_ASKED + 1] {
        lists.push(good.repeat(count));
        lists.push([&long.repeat(count)[..], &[7]].concat());
        lists.push([&good.repeat(count - 1)[..], &long].concat());
    }
    lists
}
