use crate::{sample, Folder};

const PRICED: &str = "44452D41542F3137 12.345\n44452D46522F3035 0.9\n44452D46522F3036 none\n44452D504C2F3034 -1.25\n\
                      sum 11.995\nwithout a rate 1\nto pay 12.00\n";

fn folder(test: &str) -> Folder {
    let folder = Folder::new(test)
        .with("card.csv", sample("card.csv"))
        .with("keys.txt", sample("keys.txt"));
    folder.with("none.csv", "").with("none.txt", "")
}

#[test]
fn the_samples() {
    let folder = folder("rates_the_samples");
    folder
        .run(&["rates", "card.csv", "keys.txt"])
        .answers(PRICED);
    folder
        .run_on(&["rates", "-", "keys.txt"], &sample("card.csv"))
        .answers(PRICED);
    folder
        .run_on(&["rates", "card.csv", "-"], &sample("keys.txt"))
        .answers(PRICED);
    folder
        .run(&["rates", "card.csv", "none.txt"])
        .answers("sum 0\nwithout a rate 0\nto pay 0.00\n");
    folder.run(&["rates", "none.csv", "keys.txt"]).answers(
        "44452D41542F3137 none\n44452D46522F3035 none\n44452D46522F3036 none\n44452D504C2F3034 none\nsum 0\nwithout a rate 4\nto pay 0.00\n",
    );
}

#[test]
fn any_spelling() {
    // quoted fields, the empty key, a last row and a last key without their ends, digits in either case, lines that end in CR LF
    let folder = Folder::new("rates_any_spelling")
        .with(
            "card.csv",
            "\"RangeTo\",\"\",\"0a\",\"+007.50\"\r\nRangeFrom,\"0b\",,0.005",
        )
        .with("keys.txt", "-\r\n0A\r\n0bfF\r\n0B")
        .with("three.txt", "0b\n0b\n0b\n");
    folder
        .run(&["rates", "card.csv", "keys.txt"])
        .answers("- 7.5\n0A none\n0BFF 0.005\n0B 0.005\nsum 7.51\nwithout a rate 1\nto pay 7.51\n");
    // halves go to the even cent, and only the sum is rounded
    folder
        .run(&["rates", "card.csv", "three.txt"])
        .answers("0B 0.005\n0B 0.005\n0B 0.005\nsum 0.015\nwithout a rate 0\nto pay 0.02\n");
}

#[test]
fn bad_rows_of_a_card() {
    let folder = folder("bad_rows_of_a_card");
    let refuses = |card: &str, why: &str| {
        folder
            .run_on(&["rates", "-", "keys.txt"], card.as_bytes())
            .refuses(&format!("standard input: {why}"))
    };
    let four = "a row of a card has four fields: name, start key, end key and amount (refusal 12)";
    refuses("Key,03,\r\n", &format!("row 1: it has 3 fields: {four}"));
    refuses("Key,3,\r\n", &format!("row 1: it has 3 fields: {four}"));
    refuses(
        "Key,03,,1\r\nKey,04,,1,\r\n",
        &format!("row 2: it has 5 fields: {four}"),
    );
    refuses(
        "Key,03,,1\r\n\r\n",
        &format!("row 2: the row is blank: {four}"),
    );
    refuses("Key\r\n", &format!("row 1: it has one field: {four}"));
    let amount = "is no amount: no decimal number: an amount is written in digits, as -12.5 is, with a digit on both sides of a point";
    refuses(
        "Key,03,,1\r\nKey,04,,.5\r\n",
        &format!("row 2, column 4: '.5' {amount}"),
    );
    refuses("Key,03,,\r\n", &format!("row 1, column 4: '' {amount}"));
    for row in ["Key,03,,1", "\"Key\",03,,1", "Key,03", ""] {
        refuses(
            &format!("\u{FEFF}{row}\r\n"),
            "row 1, column 1: a byte order mark stands before the name (refusal 12)",
        );
    }
    refuses(
        "Key,03,,\"1\"\"5\"\r\n",
        &format!("row 1, column 4: '1\"\"5' {amount}"),
    );
    refuses(
        "Key,03,,\u{661}\r\n",
        &format!("row 1, column 4: '\\xd9\\xa1' {amount}"),
    );
    refuses(
        "Key,03,,100000000.0001\r\n",
        "row 1, column 4: '100000000.0001' is no amount: out of range: an amount is from -100,000,000 to 100,000,000 currency units (refusal 14)",
    );
    let places = "more than four places behind the point: an amount has at most four, and none is rounded away";
    refuses(
        "Key,03,,0.12340\r\n",
        &format!("row 1, column 4: '0.12340' is no amount: {places}"),
    );
}

#[test]
fn where_a_card_is_wrong() {
    let folder = folder("where_a_card_is_wrong");
    let at = |card: &str, place: &str, number: &str| {
        let ran = folder.run_on(&["rates", "-", "keys.txt"], card.as_bytes());
        assert_eq!((ran.0.status.code(), ran.text()), (Some(1), String::new()));
        let message = ran.message();
        assert!(
            message.starts_with(&format!("fernsponge: standard input: {place}: ")),
            "{message}"
        );
        assert!(message.ends_with(&format!("{number}\n")), "{message}");
    };
    // a row that ends in LF alone, in its fourth field and before
    at("Key,03,,1\nKey,04,,1\n", "row 1, column 4", "(refusal 12)");
    at(
        "Key,03,,1\r\nKey,04\n,,1\r\n",
        "row 2, column 2",
        "(refusal 12)",
    );
    at(
        "Key,03,,1\rKey,04,,1\r\n",
        "row 1, column 4",
        "(refusal 12)",
    );
    // quotes
    at("Key,03,,\"1\r\n", "row 1, column 4", "(refusal 12)");
    at("Key,03,,\"1\"5\r\n", "row 1, column 4", "(refusal 12)");
    at("Key,03,,1\"5\"\r\n", "row 1, column 4", "(refusal 12)");
    at(
        "Key,03,,1\r\nKey,\"0\"\"4\",,1\r\n",
        "row 2, column 2",
        "(refusal 12)",
    );
    at(
        "\u{feff}\"Key\",03,,1\r\n",
        "row 1, column 1",
        "(refusal 12)",
    );
    // names and keys, by the library's reader
    at(
        "Key,03,,1\r\nkey,04,,1\r\n",
        "row 2, column 1",
        "(refusal 12)",
    );
    at(
        "Key,03,,1\r\nKey,4,,1\r\n",
        "row 2, column 2",
        "(refusal 12)",
    );
    at(
        &format!("Key,03,,1\r\nRange,04,{},1\r\n", "05".repeat(256)),
        "row 2, column 3",
        "(refusal 2)",
    );
    // the first row that is wrong is told, and of one row the first three fields before the amount
    at("Key,03,,x\r\nKey,4,,1\r\n", "row 1, column 4", "point");
    at(
        "Key,4,,x\r\nKey,03,,1\r\n",
        "row 1, column 2",
        "(refusal 12)",
    );
    at("Key,4,,1\r\nKey,03,\r\n", "row 1, column 2", "(refusal 12)");
    at(
        "Key,4,,1\r\nKey,03,,\"1\r\n",
        "row 1, column 2",
        "(refusal 12)",
    );
    // line ends inside a quoted field
    at(
        "Key,03,,1\r\nKey,\"0\r\n4\",,\"1\"5\r\n",
        "row 2, line 3, column 4",
        "(refusal 12)",
    );
    at(
        "Key,03,,1\r\n\"Key\r\n\r\n\",04,,\"5\r\n",
        "row 2, line 4, column 4",
        "(refusal 12)",
    );
}

#[test]
fn cards_that_are_refused() {
    let folder = folder("cards_that_are_refused");
    let refuses = |card: &str, why: &str| {
        folder
            .run_on(&["rates", "-", "keys.txt"], card.as_bytes())
            .refuses(&format!("standard input: {why}"))
    };
    refuses(
        "Key,03,,1\r\nRange,09,05,1\r\n",
        "row 2: its start is above its end, or they are equal and one of them is left out (refusal 3)",
    );
    refuses(
        "Range,03,07,1\r\nKey,05,,2\r\n",
        "row 2: it does not start above the end of the one before it: a list ascends, and no key is in two of its items (refusal 4)",
    );
    let many: String = (0..2_049).map(|i| format!("Key,{i:04X},,1\r\n")).collect();
    refuses(
        &many,
        "2049 rows, and a list has at most 2,048 items (refusal 6)",
    );
    let large: String = (0..300).map(|i| format!("Key,{i:0510X},,1\r\n")).collect();
    refuses(
        &large,
        "its keys, equal ones counted each time, have more than 65,536 bytes, the most that a pool has (refusal 6)",
    );
}

#[test]
fn bad_keys() {
    let folder = folder("bad_keys");
    let refuses = |keys: &str, why: &str| {
        folder
            .run_on(&["rates", "card.csv", "-"], keys.as_bytes())
            .refuses(&format!("standard input: {why}"))
    };
    refuses(
        "03\n\n04\n",
        "line 2: the line is blank, and the empty key is written as -",
    );
    refuses("03\n0g\n", "line 2: 'g' is no hexadecimal digit");
    refuses("\"03\"\n", "line 1: '\"' is no hexadecimal digit");
    refuses("03\n--\n", "line 2: '-' is no hexadecimal digit");
    refuses("03\n04 \n", "line 2: ' ' is no hexadecimal digit");
    refuses(
        "03\n4\n",
        "line 2: the key has an odd number of hexadecimal digits",
    );
    refuses(
        &format!("03\n{}\n", "04".repeat(256)),
        "line 2: the key has more than 255 bytes (refusal 2)",
    );
}

#[test]
fn the_longest_invoice() {
    let keys = |count: usize| "03\n".repeat(count);
    let folder = Folder::new("the_longest_invoice")
        .with("card.csv", "Key,03,,0.0001\r\n")
        .with("most.txt", keys(1_000))
        .with("more.txt", keys(1_001))
        .with(
            "large.txt",
            (0..258).map(|i| format!("{i:0510X}\n")).collect::<String>(),
        );
    let lines = "03 0.0001\n".repeat(1_000);
    folder
        .run(&["rates", "card.csv", "most.txt"])
        .answers(&format!("{lines}sum 0.1\nwithout a rate 0\nto pay 0.10\n"));
    folder.run(&["rates", "card.csv", "more.txt"]).refuses(
        "more.txt: 1001 keys, and an invoice has at most 1,000: ask in parts, whose sums add up (refusal 15)",
    );
    folder.run(&["rates", "card.csv", "large.txt"]).refuses(
        "large.txt: line 258: the keys of card and invoice have more than 65,536 bytes together, equal ones counted once: the most that a pool has \
         (refusal 1)",
    );
}

/// Keys that the card has take no room when they are asked for.
#[test]
fn keys_of_a_full_card() {
    let key = |i: usize| format!("{i:032X}");
    let ranges =
        (0..2_000).map(|i| format!("RangeInclusive,{},{},1\r\n", key(2 * i), key(2 * i + 1)));
    let folder = Folder::new("keys_of_a_full_card")
        .with("card.csv", ranges.collect::<String>())
        .with(
            "keys.txt",
            (0..100).map(|i| key(7 * i) + "\n").collect::<String>(),
        )
        .with(
            "new.txt",
            (4_000..4_097).map(|i| key(i) + "\n").collect::<String>(),
        );
    let answer = folder.run(&["rates", "card.csv", "keys.txt"]).text();
    assert!(
        answer.ends_with("sum 100\nwithout a rate 0\nto pay 100.00\n"),
        "{answer}"
    );
    // 4,000 keys of 16 bytes leave room for 96
    let full = folder.run(&["rates", "card.csv", "new.txt"]).message();
    assert!(
        full.starts_with("fernsponge: new.txt: line 97: the keys of card and invoice"),
        "{full}"
    );
}

#[test]
fn wrong_calls() {
    let folder = folder("rates_wrong_calls");
    folder.run(&["rates"]).is_wrong(
        "rates",
        "an operand is missing: it is called as rates CARD KEYS",
    );
    folder.run(&["rates", "card.csv"]).is_wrong(
        "rates",
        "an operand is missing: it is called as rates CARD KEYS",
    );
    folder
        .run(&["rates", "card.csv", "keys.txt", "x"])
        .is_wrong("rates", "x is one operand too many");
    folder
        .run(&["rates", "-", "-"])
        .is_wrong("rates", "standard input, -, can be named once");
}

#[cfg(unix)]
#[test]
fn files_that_cannot_be_read() {
    let folder = folder("rates_files_that_cannot_be_read");
    folder
        .run(&["rates", "card.csv", "no.txt"])
        .fails("no.txt: cannot be read: No such file or directory (os error 2)");
    folder
        .run(&["rates", ".", "keys.txt"])
        .fails(".: cannot be read: Is a directory (os error 21)");
}
