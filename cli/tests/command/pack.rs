use crate::{krl, sample, Folder};

/// Every kind of item, and the empty key, in the plain form and in no order.
const KINDS: &str = "RangeFull,,\r\nKey,-,\r\nRange,05,01\r\nRangeInclusive,0102,FF\r\nRangeFrom,05,\r\nRangeTo,,-\r\nRangeToInclusive,,05\r\n\
                     RangeAfter,FF,\r\nRangeAfterTo,01,0102\r\nRangeAfterToInclusive,-,05\r\nKey,-,\r\n";

#[test]
fn one_sheet_and_two() {
    let folder = Folder::new("one_sheet_and_two")
        .with("ours.csv", sample("ours.csv"))
        .with("theirs.csv", sample("theirs.csv"));
    assert_eq!(
        folder.run(&["pack", "ours.csv", "theirs.csv"]).bytes(),
        sample("document.krl")
    );
    let alone = krl(&[1, 5], &[[1, 0, 0, 0, 1, 0, 1, 1]], &[]);
    assert_eq!(folder.run(&["pack", "ours.csv"]).bytes(), alone);
    assert_eq!(
        folder.run_on(&["pack", "-"], b"\"Range\",01,05").bytes(),
        alone
    );
    folder
        .run(&["pack", "--output", "both.krl", "ours.csv", "theirs.csv"])
        .answers("");
    assert_eq!(folder.bytes("both.krl"), sample("document.krl"));
}

#[test]
fn there_and_back() {
    let folder = Folder::new("there_and_back")
        .with("kinds.csv", KINDS)
        .with("none.csv", "");
    folder
        .run(&["pack", "kinds.csv", "--output", "kinds.krl"])
        .answers("");
    folder
        .run(&["unpack", "kinds.krl"])
        .answers(&format!("ours 11\r\n{KINDS}theirs 0\r\n"));
    folder
        .run(&["unpack", "kinds.krl", "--ours", "-"])
        .answers(KINDS);
    folder
        .run(&["pack", "none.csv", "kinds.csv", "--output", "second.krl"])
        .answers("");
    folder
        .run(&[
            "unpack",
            "second.krl",
            "--ours",
            "o.csv",
            "--theirs",
            "t.csv",
        ])
        .answers("");
    assert_eq!([folder.text("o.csv"), folder.text("t.csv")], ["", KINDS]);
    // equal keys stand in the file once: 05, 01, 0102 and FF
    assert_eq!(folder.bytes("kinds.krl")[11..16], [5, 1, 1, 2, 0xFF]);
    assert_eq!(folder.bytes("kinds.krl").len(), 11 + 5 + 11 * 8);
    // the file again, byte for byte
    let sheet = folder.run(&["unpack", "kinds.krl", "--ours=-"]);
    assert_eq!(
        folder.run_on(&["pack", "-"], sheet.bytes()).bytes(),
        folder.bytes("kinds.krl")
    );
}

#[test]
fn the_longest() {
    let long = format!("Key,{},\r\n", "A7".repeat(255));
    let rows = |count: u32, length: usize| {
        (0..count)
            .map(|i| format!("Key,{i:0digits$X},\r\n", digits = 2 * length))
            .collect::<String>()
    };
    // 11 + 2,048 items of 8 bytes + 2,048 keys of 24 bytes, which is 11 too many
    let folder = Folder::new("the_longest")
        .with("long.csv", &long)
        .with("all.csv", rows(2_048, 23))
        .with("full.csv", rows(2_048, 24))
        .with("pool.csv", rows(256, 254) + &rows(256, 2))
        .with(
            "key.csv",
            format!("Key,03,\r\nKey,{},\r\n", "A7".repeat(256)),
        )
        .with("many.csv", rows(2_049, 2));
    for name in ["long.csv", "all.csv"] {
        folder
            .run(&["pack", name, "--output", "packed.krl"])
            .answers("");
        folder
            .run(&["unpack", "packed.krl", "--ours", "-"])
            .answers(&folder.text(name));
    }
    folder.run(&["pack", "full.csv"]).refuses(
        "full.csv: the file would have 65547 bytes, 11 and 49152 of keys and 8 for each of 2048 items, and a KRL file has at most 65,536",
    );
    folder
        .run(&["pack", "pool.csv"])
        .refuses("pool.csv: the keys have 65536 bytes, and the pool of a KRL file at most 65,535");
    folder
        .run(&["pack", "many.csv"])
        .refuses("many.csv: 2049 rows, and a list has at most 2,048 items (refusal 6)");
    let key = folder.run(&["pack", "long.csv", "key.csv"]);
    assert!(
        key.message()
            .starts_with("fernsponge: key.csv: row 2, column 2: ")
            && key.message().ends_with(" (refusal 2)\n"),
        "{}",
        key.message()
    );
    assert_eq!((key.0.status.code(), key.text()), (Some(1), String::new()));
}

#[test]
fn items_without_a_row() {
    let key = [0, 0, 0, 0, 1, 0, 0, 0];
    let folder = Folder::new("items_without_a_row")
        .with(
            "wrapped.krl",
            krl(&[1], &[key], &[key, [3, 2, 0, 0, 0, 0, 0, 0]]),
        )
        .with("code.krl", krl(&[1], &[[11, 0, 0, 0, 0, 0, 0, 0]], &[]))
        .with("past.krl", krl(&[1], &[[0, 0, 0, 1, 1, 0, 0, 0]], &[]))
        .with("many.krl", krl(&[1], &[], &[key; 2_049]))
        .with("sheet.csv", sample("ours.csv"));
    let refuses = |name: &str, why: &str| {
        folder
            .run(&["unpack", name])
            .refuses(&format!("{name}: {why}"))
    };
    let wrapped = "item 2 of theirs: it is wrapped, as it asks for a count or a sum too, and a sheet has no word for that (refusal 5)";
    refuses("wrapped.krl", wrapped);
    folder
        .run(&["unpack", "wrapped.krl", "--ours", "new.csv"])
        .refuses(&format!("wrapped.krl: {wrapped}"));
    assert!(!folder.has("new.csv"));
    let code = "item 1 of ours: malformed: there is no such code or wrapper, or a key that this kind of item does not have is not 0 (refusal 1)";
    refuses("code.krl", code);
    refuses(
        "past.krl",
        "item 1 of ours: a key of it has more than 255 bytes, or reaches past the pool (refusal 2)",
    );
    refuses(
        "many.krl",
        "theirs: 2049 items, and a list has at most 2,048 (refusal 1)",
    );
    refuses(
        "sheet.csv",
        "no KRL file: it does not begin with the mark KRL (refusal 10)",
    );
}

#[test]
fn wrong_calls() {
    let folder = Folder::new("pack_wrong_calls")
        .with("both.krl", sample("document.krl"))
        .with("ours.csv", sample("ours.csv"));
    folder.run(&["pack"]).is_wrong(
        "pack",
        "an operand is missing: it is called as pack [--output FILE] OURS [THEIRS]",
    );
    folder
        .run(&["pack", "both.krl"])
        .is_wrong("pack", "both.krl is a KRL file already");
    let over = "--output ours.csv: that file is read, and is not written over";
    folder
        .run(&["pack", "ours.csv", "--output", "ours.csv"])
        .is_wrong("pack", over);
    folder
        .run(&["pack", "-", "-"])
        .is_wrong("pack", "standard input, -, can be named once");
    folder.run(&["unpack"]).is_wrong(
        "unpack",
        "an operand is missing: it is called as unpack [OPTION].. FILE.krl",
    );
    folder
        .run(&["unpack", "both.krl", "ours.csv"])
        .is_wrong("unpack", "ours.csv is one operand too many");
    let over = "--theirs both.krl: that file is read, and is not written over";
    folder
        .run(&["unpack", "both.krl", "--theirs", "both.krl"])
        .is_wrong("unpack", over);
    assert_eq!(folder.bytes("both.krl"), sample("document.krl"));
}

#[cfg(unix)]
#[test]
fn files_that_cannot_be_read() {
    let folder = Folder::new("pack_files_that_cannot_be_read");
    let none =
        |name: &str| format!("{name}: cannot be read: No such file or directory (os error 2)");
    folder.run(&["pack", "none.csv"]).fails(&none("none.csv"));
    folder.run(&["unpack", "none.krl"]).fails(&none("none.krl"));
    folder
        .run_on(&["unpack", "-"], &sample("document.krl"))
        .answers("ours 1\r\nRange,01,05\r\ntheirs 1\r\nKey,03,\r\n");
}
