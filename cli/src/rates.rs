//! `rates`: what keys cost by a rate card.

use crate::{
    args::{Command, Given},
    input::{self, Input},
    lines,
    message::{self, Failure},
    reasons,
    rows::{self, Row},
};
use fernsponge::{
    Amount, AmountError, Item, KeyAt, Pool, RateCard, Reason, Refusal, Sheet, MOST_INVOICE_KEYS,
};

pub const COMMAND: Command = Command {
    name: "rates",
    about: "the rates of keys by a rate card, their sum, and the sum in cents",
    forms: &["CARD KEYS"],
    help: "\
CARD is a lane sheet with a fourth field in every row, the amount of its item: a decimal number of at most four places
behind a point, as in Range,01,05,12.345; it may have a sign, + or -. Fields may be quoted, and CR LF ends a row. An item
starts above the end of the one before it. KEYS has one key a line, hexadecimal as in sheets, - for the empty key; LF or
CR LF ends a line. There are at most 1,000 keys; more are refused with 15, and can be asked in parts, whose sums add up.

The keys of the card have at most 65,536 bytes while it is read, equal keys counted each time. Those of the card and
of KEYS have at most 65,536 bytes together, equal keys counted once.

A line for each key has the key and its rate, or none; then follow the exact sum, the number of keys without a rate, and
the sum to the nearest cent, halves to the even one, as in

  03 12.345
  09 none
  sum 12.345
  without a rate 1
  to pay 12.34

The last word of each line is the number, or none.
",
    operands: (2, 2),
    options: &[],
    run,
};

/// The fields of a row, and the number that refuses a row which says no item.
const FIELDS: usize = 4;
const BAD_ROW: u8 = 12;

/// The number that refuses an invoice of too many keys.
const TOO_MANY: u8 = 15;

fn run(given: &Given) -> Result<Vec<u8>, Failure> {
    let inputs = input::read(given)?;
    let [card, keys] = &inputs[..] else {
        return Err(given.usage("a card and keys are needed"));
    };
    let mut pool = Pool::new();
    let (mut items, amounts) = read_card(card, &mut pool)?;
    RateCard::new(pool.bytes(), &items, &amounts)
        .check()
        .map_err(|refusal| of_row(card, &refusal))?;
    // equal keys of the card are joined, and those that are asked for are found among them
    pool.collect(&mut items, &mut [])
        .map_err(|refusal| Failure::of_call(&card.name, reasons::why(refusal.number), &refusal))?;
    let asked = read_keys(keys, &mut pool)?;
    let text = priced(
        RateCard::new(pool.bytes(), &items, &amounts),
        pool.bytes(),
        &asked,
    );
    text.map_err(|refusal| of_row(card, &refusal))
        .map(String::into_bytes)
}

/// The failure of a row of the card.
fn of_row(card: &Input, refusal: &Refusal) -> Failure {
    let place = format!("{}: row {}", card.name, refusal.index + 1);
    Failure::numbered(place, reasons::why(refusal.number), refusal.number)
}

// ---- the card

/// The items of a card, whose keys go to the pool, and their amounts. The first row that is wrong is told: the first three fields, which are the
/// library's to read, before the amount.
fn read_card(card: &Input, pool: &mut Pool) -> Result<(Vec<Item>, Vec<Amount>), Failure> {
    let (rows, fault) = rows::split(&card.bytes);
    let (amounts, wrong) = read_amounts(card, &rows);
    // a row whose amount is wrong may be wrong before it, unless it has not four fields
    let front = rows.iter().take(amounts.len() + 1);
    let whole = front.take_while(|row| row.len() == FIELDS);
    let sheet: Vec<u8> = whole
        .flat_map(|row| three_fields(&card.bytes, row))
        .collect();
    let items = Sheet::read_into(&sheet, pool).map_err(|error| message::of_sheet(card, &error))?;
    let broken = || fault.map(|fault| message::of_fault(card, &fault, BAD_ROW));
    match wrong.or_else(broken) {
        Some(failure) => Err(failure),
        None => Ok((items, amounts)),
    }
}

/// The amounts of the rows before the first that has none, and what is wrong with that one.
fn read_amounts(card: &Input, rows: &[Row]) -> (Vec<Amount>, Option<Failure>) {
    let mut amounts = vec![];
    for (row, at) in rows.iter().zip(0..) {
        match amount(&card.bytes, row) {
            Ok(amount) => amounts.push(amount),
            Err(why) => {
                let column = (row.len() == FIELDS).then_some(FIELDS - 1);
                let place = message::place(card, at, column);
                return (amounts, Some(Failure::refused(format!("{place}: {why}"))));
            }
        }
    }
    (amounts, None)
}

/// The bytes of a row up to its fourth field, as a row of a sheet.
fn three_fields(text: &[u8], row: &Row) -> Vec<u8> {
    match &row[..] {
        [name, _, end, ..] => [&text[name.start..end.end], b"\r\n"].concat(),
        _ => vec![],
    }
}

/// The amount of a row, or what is wrong.
fn amount(text: &[u8], row: &Row) -> Result<Amount, String> {
    let [_, _, _, field] = &row[..] else {
        return Err(fields_told(text, row));
    };
    let field = unquoted(&text[field.clone()]);
    String::from_utf8_lossy(field).parse().map_err(|why| {
        let number = if why == AmountError::OutOfRange {
            " (refusal 14)"
        } else {
            ""
        };
        format!("'{}' is no amount: {why}{number}", message::shown(field))
    })
}

/// What is wrong with the number of a row's fields.
fn fields_told(text: &[u8], row: &Row) -> String {
    let form = "a row of a card has four fields: name, start key, end key and amount";
    match row.len() {
        1 if text[row[0].clone()].is_empty() => {
            format!("the row is blank: {form} (refusal {BAD_ROW})")
        }
        1 => format!("it has one field: {form} (refusal {BAD_ROW})"),
        count => format!("it has {count} fields: {form} (refusal {BAD_ROW})"),
    }
}

/// What a field says; two quotes inside are left, as no amount has one.
fn unquoted(field: &[u8]) -> &[u8] {
    match field {
        [b'"', inside @ .., b'"'] => inside,
        _ => field,
    }
}

// ---- the keys

/// The keys of an invoice, added to the pool.
fn read_keys(input: &Input, pool: &mut Pool) -> Result<Vec<KeyAt>, Failure> {
    let count = lines::of(input).len();
    if count > MOST_INVOICE_KEYS {
        let why = format!(
            "{count} keys, and an invoice has at most 1,000: ask in parts, whose sums add up"
        );
        return Err(Failure::numbered(&input.name, why, TOO_MANY));
    }
    let keys = lines::parse(input, key)?;
    let mut asked = vec![];
    for (key, at) in keys.iter().zip(0..) {
        let added = pool.add_once(key).map_err(|refusal| {
            let why = "the keys of card and invoice have more than 65,536 bytes together, equal ones counted once: the most that a pool has";
            Failure::numbered(lines::place(input, at), why, refusal.number)
        });
        asked.push(added?);
    }
    Ok(asked)
}

/// The bytes of a key: a line is the start key of a sheet's row, of nothing but digits.
fn key(line: &[u8]) -> Result<Vec<u8>, String> {
    if line.is_empty() {
        return Err("the line is blank, and the empty key is written as -".to_string());
    }
    let digit = |byte: &&u8| !byte.is_ascii_hexdigit();
    if let Some(byte) = line.iter().find(digit).filter(|_| line != b"-") {
        return Err(format!(
            "'{}' is no hexadecimal digit",
            message::shown(&[*byte])
        ));
    }
    match Sheet::read(&[b"Key,", line, b","].concat()) {
        Ok(sheet) => Ok(sheet.pool.bytes().to_vec()),
        Err(error) if error.refusal.reason() == Reason::KeyOutside => {
            Err("the key has more than 255 bytes (refusal 2)".to_string())
        }
        Err(_) => Err("the key has an odd number of hexadecimal digits".to_string()),
    }
}

// ---- the answer

/// A line for each key, and the totals.
fn priced(card: RateCard, pool: &[u8], asked: &[KeyAt]) -> Result<String, Refusal> {
    let mut text = String::new();
    for key in asked {
        let key = key.bytes(pool);
        let rate = card
            .rate(key)?
            .map_or("none".to_string(), |amount| amount.to_string());
        text += &format!("{} {rate}\n", shown(key));
    }
    let invoice = card.invoice(asked)?;
    text += &format!(
        "sum {}\nwithout a rate {}\nto pay {}\n",
        invoice.sum, invoice.without_rate, invoice.cents
    );
    Ok(text)
}

/// A key as sheets have it.
fn shown(key: &[u8]) -> String {
    match key {
        [] => "-".to_string(),
        _ => key.iter().map(|byte| format!("{byte:02X}")).collect(),
    }
}
