use crate::{krl, sample, Folder};

const SHARED: &str = "Key,03,\r\n";
const OURS: &str = "Range,01,03\r\nRangeAfterTo,03,05\r\n";
const ALL: &str =
    "shared 1\r\nKey,03,\r\nours 2\r\nRange,01,03\r\nRangeAfterTo,03,05\r\ntheirs 0\r\n";

fn folder(test: &str) -> Folder {
    Folder::new(test)
        .with("ours.csv", sample("ours.csv"))
        .with("theirs.csv", sample("theirs.csv"))
}

#[test]
fn two_sheets() {
    folder("two_sheets")
        .run(&["compare", "ours.csv", "theirs.csv"])
        .answers(ALL);
}

#[test]
fn sheets_of_any_spelling() {
    let folder = Folder::new("sheets_of_any_spelling")
        .with("ours.csv", "\"Range\",01,\"0a\"\r\nKey,\"fF\",")
        .with("theirs.csv", "");
    let all = "shared 0\r\nours 2\r\nRange,01,0A\r\nKey,FF,\r\ntheirs 0\r\n";
    folder
        .run(&["compare", "ours.csv", "theirs.csv"])
        .answers(all);
}

#[test]
fn nothing_with_nothing() {
    let folder = Folder::new("nothing_with_nothing").with("none.csv", "");
    folder
        .run(&["compare", "none.csv", "none.csv"])
        .answers("shared 0\r\nours 0\r\ntheirs 0\r\n");
}

#[test]
fn a_krl_file_alone() {
    let folder = Folder::new("a_krl_file_alone")
        .with("one.krl", sample("document.krl"))
        .with("two.krl", sample("two_lists.krl"))
        .with("none.krl", krl(&[], &[], &[]));
    folder.run(&["compare", "one.krl"]).answers(ALL);
    folder.run(&["compare", "two.krl"]).answers(
        "shared 2\r\nRangeInclusive,02,03\r\nRangeInclusive,07,08\r\nours 2\r\nRange,01,02\r\nRangeAfterToInclusive,08,09\r\n\
         theirs 1\r\nRangeAfterTo,03,07\r\n",
    );
    folder
        .run(&["compare", "none.krl"])
        .answers("shared 0\r\nours 0\r\ntheirs 0\r\n");
}

#[test]
fn a_krl_file_and_a_sheet() {
    // over a pool with a byte that no item names; the empty key, and a wrapper that is read through
    let ours = krl(&[9, 1, 5], &[[4, 1, 0, 0, 0, 0, 0, 0]], &[]);
    let folder = folder("a_krl_file_and_a_sheet")
        .with(
            "ours.krl",
            krl(&[9, 1, 5], &[[1, 0, 0, 1, 1, 0, 2, 1]], &[]),
        )
        .with("from.krl", ours);
    folder
        .run(&["compare", "ours.krl", "theirs.csv"])
        .answers(ALL);
    let turned =
        "shared 1\r\nKey,03,\r\nours 0\r\ntheirs 2\r\nRange,01,03\r\nRangeAfterTo,03,05\r\n";
    folder
        .run(&["compare", "theirs.csv", "ours.krl"])
        .answers(turned);
    folder.run(&["compare", "ours.krl", "from.krl"]).answers(
        "shared 1\r\nRange,01,05\r\nours 0\r\ntheirs 2\r\nRange,-,01\r\nRangeFrom,05,\r\n",
    );
}

#[test]
fn standard_input() {
    let folder = folder("standard_input");
    folder
        .run_on(&["compare", "-", "theirs.csv"], b"Range,01,05\r\n")
        .answers(ALL);
    folder
        .run_on(&["compare", "ours.csv", "-"], b"Key,03,")
        .answers(ALL);
    folder
        .run_on(&["compare", "-"], &sample("document.krl"))
        .answers(ALL);
    folder.run_on(&["compare", "-", "theirs.csv"], b"Range,01,0\r\n").refuses(
        "standard input: row 1, column 3: the end key has an odd number of hexadecimal digits (refusal 12)",
    );
    folder
        .run_on(&["compare", "-", "-"], b"")
        .is_wrong("compare", "standard input, -, can be named once");
}

#[test]
fn into_files() {
    let folder = folder("into_files");
    folder
        .run(&[
            "compare",
            "ours.csv",
            "theirs.csv",
            "--shared",
            "s.csv",
            "--ours=o.csv",
            "--theirs",
            "t.csv",
        ])
        .answers("");
    assert_eq!(
        [
            folder.text("s.csv"),
            folder.text("o.csv"),
            folder.text("t.csv")
        ],
        [SHARED, OURS, ""]
    );
    // lists that are not named are not written
    folder
        .run(&["compare", "--ours", "only.csv", "ours.csv", "theirs.csv"])
        .answers("");
    assert_eq!(folder.text("only.csv"), OURS);
    // one of them to standard output, as a sheet alone; the others beside it
    folder
        .run(&["compare", "ours.csv", "theirs.csv", "--ours", "-"])
        .answers(OURS);
    folder
        .run(&[
            "compare",
            "ours.csv",
            "theirs.csv",
            "--shared",
            "-",
            "--ours",
            "beside.csv",
        ])
        .answers(SHARED);
    assert_eq!(folder.text("beside.csv"), OURS);
    // what is written can be compared again
    folder.run(&["compare", "s.csv", "o.csv"]).answers(
        "shared 0\r\nours 1\r\nKey,03,\r\ntheirs 2\r\nRange,01,03\r\nRangeAfterTo,03,05\r\n",
    );
}

#[test]
fn a_file_whose_name_begins_with_a_hyphen() {
    let folder =
        folder("a_file_whose_name_begins_with_a_hyphen").with("-o.csv", sample("ours.csv"));
    folder
        .run(&["compare", "--shared", "-", "--", "-o.csv", "theirs.csv"])
        .answers(SHARED);
    folder
        .run(&["compare", "-o.csv", "theirs.csv"])
        .is_wrong("compare", "there is no option -o.csv");
}

#[test]
fn never_over_an_input() {
    let folder = folder("never_over_an_input");
    let over = |list: &str, name: &str| {
        let message = format!("{list} {name}: that file is read, and is not written over");
        folder
            .run(&["compare", "ours.csv", "theirs.csv", list, name])
            .is_wrong("compare", &message);
    };
    over("--shared", "ours.csv");
    over("--theirs", "./theirs.csv");
    over("--ours", "../never_over_an_input/ours.csv");
    std::fs::hard_link(folder.0.join("ours.csv"), folder.0.join("same.csv")).unwrap();
    over("--ours", "same.csv");
    assert_eq!(folder.bytes("ours.csv"), sample("ours.csv"));
    let twice = [
        "compare",
        "ours.csv",
        "theirs.csv",
        "--shared",
        "new.csv",
        "--ours",
        "./new.csv",
    ];
    folder.run(&twice).is_wrong(
        "compare",
        "--ours ./new.csv: another list is written there already",
    );
    assert!(!folder.has("new.csv"));
    let both = [
        "compare",
        "ours.csv",
        "theirs.csv",
        "--shared",
        "-",
        "--ours",
        "-",
    ];
    folder
        .run(&both)
        .is_wrong("compare", "--ours -: another list is written there already");
}

#[cfg(unix)]
#[test]
fn never_over_an_input_under_another_name() {
    let folder = folder("never_over_an_input_under_another_name");
    std::os::unix::fs::symlink("ours.csv", folder.0.join("link.csv")).unwrap();
    let linked = ["compare", "ours.csv", "theirs.csv", "--ours", "link.csv"];
    folder.run(&linked).is_wrong(
        "compare",
        "--ours link.csv: that file is read, and is not written over",
    );
    // one name of a file that there is not yet is a link to the other, or a link to a link
    for (to, link) in [("new.csv", "dang.csv"), ("./dang.csv", "far.csv")] {
        std::os::unix::fs::symlink(to, folder.0.join(link)).unwrap();
        for [ours, shared] in [["new.csv", link], [link, "new.csv"]] {
            let args = ["compare", "ours.csv", "theirs.csv", "--shared", shared];
            folder
                .run(&[&args[..], &["--ours", ours]].concat())
                .is_wrong(
                    "compare",
                    &format!("--ours {ours}: another list is written there already"),
                );
        }
    }
    assert!(!folder.has("new.csv"));
    let alone = ["compare", "ours.csv", "theirs.csv", "--ours", "far.csv"];
    folder.run(&alone).answers("");
    assert!(folder.text("new.csv").starts_with("Range,01,03"));
    // devices can be named twice
    folder
        .run(&[
            "compare",
            "ours.csv",
            "theirs.csv",
            "--ours",
            "/dev/null",
            "--shared",
            "/dev/null",
        ])
        .answers("");
    // the folder stays, below cli/target; the gate refuses links in the checkout
    for link in ["link.csv", "dang.csv", "far.csv"] {
        std::fs::remove_file(folder.0.join(link)).unwrap();
    }
}

/// Standard output is a file like any other where it is one.
#[cfg(target_os = "linux")]
#[test]
fn never_two_lists_over_standard_output() {
    let folder = folder("never_two_lists_over_standard_output");
    for name in ["out.csv", "/dev/stdout"] {
        let output = std::fs::File::create(folder.0.join("out.csv")).unwrap();
        let args = ["compare", "ours.csv", "theirs.csv", "--ours", "-"];
        let mut command = folder.command(&[&args[..], &["--theirs", name]].concat());
        let ran = crate::Ran(command.stdout(output).output().unwrap());
        ran.is_wrong(
            "compare",
            &format!("--theirs {name}: another list is written there already"),
        );
        assert_eq!(folder.text("out.csv"), "");
    }
}

#[cfg(target_os = "linux")]
#[test]
fn never_over_standard_input() {
    let folder = folder("never_over_standard_input");
    let mut command = folder.command(&["compare", "-", "theirs.csv", "--ours", "ours.csv"]);
    let input = std::fs::File::open(folder.0.join("ours.csv")).unwrap();
    let ran = crate::Ran(command.stdin(input).output().unwrap());
    ran.is_wrong(
        "compare",
        "--ours ours.csv: that file is read, and is not written over",
    );
    assert_eq!(folder.bytes("ours.csv"), sample("ours.csv"));
}

#[test]
fn bad_rows() {
    let folder = folder("bad_rows")
        .with("odd.csv", "Key,03,\r\nRange,01,5\r\n")
        .with("feed.csv", "Key,03,\nKey,04,\n")
        .with(
            "long.csv",
            format!("Key,03,\r\nRange,{},FF\r\n", "01".repeat(256)),
        )
        .with("inside.csv", "Key,03,\r\n\"Ke\r\ny\",\"03\"x,\r\n")
        .with("short.csv", "Key,03,\r\n\"Ke\r\ny\",04\r\nKey,05,\r\n");
    let odd = "odd.csv: row 2, column 3: the end key has an odd number of hexadecimal digits (refusal 12)";
    folder
        .run(&["compare", "odd.csv", "theirs.csv"])
        .refuses(odd);
    folder.run(&["compare", "ours.csv", "odd.csv"]).refuses(odd);
    for (name, place, number) in [
        ("feed", "row 1, column 3", 12),
        ("long", "row 2, column 2", 2),
        ("inside", "row 2, line 3, column 2", 12),
        ("short", "row 2, line 3, column 3", 12),
    ] {
        let ran = folder.run(&["compare", "ours.csv", &format!("{name}.csv")]);
        assert_eq!((ran.0.status.code(), ran.text()), (Some(1), String::new()));
        let message = ran.message();
        assert!(
            message.starts_with(&format!("fernsponge: {name}.csv: {place}: ")),
            "{message}"
        );
        assert!(
            message.ends_with(&format!(" (refusal {number})\n"))
                && !message.contains("counted from 0"),
            "{message}"
        );
    }
}

#[test]
fn lists_that_are_refused() {
    let folder = folder("lists_that_are_refused")
        .with("turned.csv", "Key,01,\r\nRange,05,03\r\n")
        .with("crossed.csv", "Key,01,\r\nRange,03,07\r\nKey,05,\r\n")
        .with("open.csv", "RangeInclusive,03,03\r\nRange,04,04\r\n");
    folder.run(&["compare", "open.csv", "ours.csv"]).refuses(
        "open.csv: row 2: its start is above its end, or they are equal and one of them is left out (refusal 3)",
    );
    let turned = "turned.csv: row 2: its start is above its end, or they are equal and one of them is left out (refusal 3)";
    folder
        .run(&["compare", "turned.csv", "theirs.csv"])
        .refuses(turned);
    folder
        .run(&["compare", "ours.csv", "turned.csv"])
        .refuses(turned);
    folder.run(&["compare", "ours.csv", "crossed.csv", "--ours", "new.csv"]).refuses(
        "crossed.csv: row 3: it does not start above the end of the one before it: a list ascends, and no key is in two of its items (refusal 4)",
    );
    assert!(!folder.has("new.csv"));
}

/// A list of 200 keys of 250 bytes.
fn large_krl() -> Vec<u8> {
    let pool: Vec<u8> = (0..200).flat_map(|i| [i; 250]).collect();
    let offset = |i: usize| ((250 * i) as u16).to_be_bytes();
    let keys: Vec<_> = (0..200)
        .map(|i| [0, 0, offset(i)[0], offset(i)[1], 250, 0, 0, 0])
        .collect();
    krl(&pool, &keys, &[])
}

/// A list of 300 keys of 255 bytes, each of which begins two bytes behind the one before it.
fn overlapping_krl() -> Vec<u8> {
    let pool: Vec<u8> = (0_u16..300).flat_map(u16::to_be_bytes).collect();
    let pool = [&pool[..], &[0; 255]].concat();
    let offset = |i: u16| (2 * i).to_be_bytes();
    let keys: Vec<_> = (0..300)
        .map(|i| [0, 0, offset(i)[0], offset(i)[1], 255, 0, 0, 0])
        .collect();
    krl(&pool, &keys, &[])
}

#[test]
fn limits() {
    let rows = |count: u32, width: usize| {
        (0..count)
            .map(|i| format!("Key,{i:0width$X},\r\n"))
            .collect::<String>()
    };
    let folder = folder("limits")
        .with("many.csv", rows(2_048, 4) + "Key,0800,")
        .with("most.csv", rows(2_048, 4))
        .with("large.csv", rows(2_000, 40))
        .with("other.csv", rows(2_000, 42))
        .with("large.krl", large_krl())
        .with("overlap.krl", overlapping_krl())
        .with("larger.csv", rows(300, 510))
        .with(
            "wide.csv",
            (0..1_500)
                .map(|i| format!("RangeInclusive,{i:04X},{i:04X}05\r\n"))
                .collect::<String>(),
        )
        .with(
            "cuts.csv",
            (0..1_500)
                .map(|i| format!("Key,{i:04X}03,\r\n"))
                .collect::<String>(),
        );
    let most = folder.run(&["compare", "most.csv", "most.csv"]).text();
    assert!(
        most.starts_with("shared 2048\r\nKey,0000,\r\n")
            && most.ends_with("Key,07FF,\r\nours 0\r\ntheirs 0\r\n")
    );
    // 40,000 bytes of keys each, which the two lists have together
    let same = folder.run(&["compare", "large.csv", "large.csv"]).text();
    assert!(same.starts_with("shared 2000\r\n") && same.ends_with("ours 0\r\ntheirs 0\r\n"));
    folder
        .run(&["compare", "ours.csv", "many.csv"])
        .refuses("many.csv: 2049 rows, and a list has at most 2,048 items (refusal 6)");
    for files in [["larger.csv", "ours.csv"], ["ours.csv", "larger.csv"]] {
        folder.run(&[&["compare"], &files[..]].concat()).refuses(
            "larger.csv: its keys, equal ones counted each time, have more than 65,536 bytes, the most that a pool has (refusal 6)",
        );
    }
    let both = |ours: &str, theirs: &str| {
        let ran = folder.run(&["compare", ours, theirs]);
        ran.refuses(&format!(
            "{theirs}: its keys and those of the file before it have more than 65,536 bytes together, equal ones counted once: the most \
             that a pool has (refusal 1)"
        ));
    };
    both("large.csv", "other.csv");
    both("large.krl", "other.csv");
    both("other.csv", "large.krl");
    folder.run(&["compare", "overlap.krl", "ours.csv"]).refuses(
        "overlap.krl: its keys overlap in its pool, and have more than 65,536 bytes where they stand apart: the most that a pool has (refusal 1)",
    );
    for files in [["large.csv", "ours.csv"], ["ours.csv", "large.krl"]] {
        let args = ["compare", files[0], files[1], "--shared", "-"];
        let shared = folder.run(&args);
        assert_eq!(
            (shared.0.status.code(), shared.message()),
            (Some(0), String::new())
        );
    }
    let long = "what only ours has makes 3000 items, and a list has at most 2,048 (refusal 6)";
    folder
        .run(&["compare", "wide.csv", "cuts.csv"])
        .refuses(&format!("wide.csv and cuts.csv: {long}"));
    // a list that is not asked for may have any length
    let shared = ["compare", "wide.csv", "cuts.csv", "--shared", "-"];
    folder.run(&shared).answers(&folder.text("cuts.csv"));
    // the same lists in one file
    let pack = ["pack", "wide.csv", "cuts.csv", "--output", "wide.krl"];
    folder.run(&pack).answers("");
    folder
        .run(&["compare", "wide.krl", "--ours", "-"])
        .refuses(&format!("wide.krl: {long}"));
    folder
        .run(&["compare", "wide.krl", "--shared", "-", "--theirs", "t.csv"])
        .answers(&folder.text("cuts.csv"));
}

#[test]
fn krl_files_that_are_refused() {
    let good = sample("document.krl");
    let folder = folder("krl_files_that_are_refused")
        .with("cut.krl", &good[..29])
        .with("more.krl", [&good[..], b"x"].concat())
        .with("head.krl", &good[..10])
        .with("version.krl", [&good[..4], &[2], &good[5..]].concat())
        .with("large.krl", [&good[..], &[0; 65_507]].concat())
        .with(
            "code.krl",
            krl(
                &[1, 5],
                &[[0, 0, 0, 0, 1, 0, 0, 0]],
                &[[10, 0, 0, 0, 0, 0, 0, 0]],
            ),
        )
        .with(
            "past.krl",
            krl(
                &[1, 5],
                &[[0, 0, 0, 0, 1, 0, 0, 0], [0, 0, 0, 1, 2, 0, 0, 0]],
                &[],
            ),
        )
        .with(
            "order.krl",
            krl(
                &[1, 5],
                &[],
                &[[0, 0, 0, 1, 1, 0, 0, 0], [0, 0, 0, 0, 1, 0, 0, 0]],
            ),
        )
        .with(
            "many.krl",
            krl(&[1], &[[0, 0, 0, 0, 1, 0, 0, 0]; 2_049], &[]),
        )
        .with("two.krl", sample("two_lists.krl"));
    let refuses = |name: &str, why: &str| {
        folder
            .run(&["compare", name])
            .refuses(&format!("{name}: {why}"))
    };
    refuses(
        "cut.krl",
        "it has 29 bytes, and its header speaks of 30 (refusal 10)",
    );
    refuses(
        "more.krl",
        "it has 31 bytes, and its header speaks of 30 (refusal 10)",
    );
    refuses(
        "head.krl",
        "it ends inside its header, which has 11 bytes (refusal 10)",
    );
    refuses(
        "version.krl",
        "it has version 2, and only version 1 is known (refusal 10)",
    );
    refuses(
        "large.krl",
        "it has more than 65,536 bytes, the most that a KRL file has (refusal 10)",
    );
    let malformed = "malformed: there is no such code or wrapper, or a key that this kind of item does not have is not 0 (refusal 1)";
    refuses("code.krl", &format!("item 1 of theirs: {malformed}"));
    let past =
        "item 2 of ours: a key of it has more than 255 bytes, or reaches past the pool (refusal 2)";
    refuses("past.krl", past);
    folder
        .run(&["compare", "past.krl", "ours.csv"])
        .refuses(&format!("past.krl: {past}"));
    let order = "it does not start above the end of the one before it: a list ascends, and no key is in two of its items (refusal 4)";
    refuses("order.krl", &format!("item 2 of theirs: {order}"));
    refuses(
        "many.krl",
        "ours: 2049 items, and a list has at most 2,048 (refusal 1)",
    );
    let two =
        "two.krl: it has two lists, and of two files each has one: name it alone, or unpack it";
    folder
        .run(&["compare", "ours.csv", "two.krl"])
        .is_wrong("compare", two);
}

#[test]
fn wrong_calls() {
    let folder = folder("compare_wrong_calls");
    let wrong = |args: &[&str], message: &str| {
        folder
            .run(&[&["compare"], args].concat())
            .is_wrong("compare", message)
    };
    wrong(
        &[],
        "an operand is missing: it is called as compare [OPTION].. OURS THEIRS",
    );
    wrong(
        &["ours.csv"],
        "ours.csv is no KRL file: a sheet is compared with a second one",
    );
    wrong(
        &["ours.csv", "theirs.csv", "more.csv"],
        "more.csv is one operand too many",
    );
    wrong(
        &["ours.csv", "theirs.csv", "--output", "x"],
        "there is no option --output",
    );
    wrong(
        &["ours.csv", "theirs.csv", "--ours"],
        "--ours has to be followed by a file",
    );
    wrong(
        &["ours.csv", "theirs.csv", "--ours", "x", "--ours=y"],
        "--ours is given twice",
    );
    assert!(!folder.has("x") && !folder.has("y"));
}

#[cfg(unix)]
#[test]
fn files_that_cannot_be_read_or_written() {
    let folder = folder("files_that_cannot_be_read_or_written");
    let none = "none.csv: cannot be read: No such file or directory (os error 2)";
    folder.run(&["compare", "ours.csv", "none.csv"]).fails(none);
    folder
        .run(&["compare", ".", "ours.csv"])
        .fails(".: cannot be read: Is a directory (os error 21)");
    let there = [
        "compare",
        "ours.csv",
        "theirs.csv",
        "--ours",
        "none/ours.csv",
    ];
    folder
        .run(&there)
        .fails("none/ours.csv: cannot be written: No such file or directory (os error 2)");
}
