use crate::{sample, Folder, Ran};
use std::time::{Duration, Instant};

const WINDOWS: &str = "0..3\n5..9\n9..10\n20..24\n24..28\n28..32\n32..34\n";

const PICTURE: &str = "\
rows 0..34, one row to a mark
covered ##########..........##############
present ...##....................##.......
missing ###..#####..........#####..#######
windows [==..[===[..........[===[===[===[=
covered 24, present 4, missing 20, windows 7
# all rows of a mark, + some, . none; [ a window opens, * several do, = goes on
";

fn folder(test: &str) -> Folder {
    let folder = Folder::new(test)
        .with("covered.txt", sample("covered.txt"))
        .with("proved.txt", sample("proved.txt"));
    folder.with("none.txt", "")
}

/// The picture of these, so many columns wide.
fn picture(folder: &Folder, width: &str, files: [&str; 2], columns: &str) -> Ran {
    let mut command =
        folder.command(&["refetch", "--picture", "--width", width, files[0], files[1]]);
    Ran(command.env("COLUMNS", columns).output().unwrap())
}

#[test]
fn the_samples() {
    let folder = folder("refetch_the_samples");
    folder
        .run(&["refetch", "--width", "4", "covered.txt", "proved.txt"])
        .answers(WINDOWS);
    folder
        .run(&["refetch", "covered.txt", "--width=4", "proved.txt"])
        .answers(WINDOWS);
    folder
        .run_on(
            &["refetch", "--width", "4", "-", "proved.txt"],
            &sample("covered.txt"),
        )
        .answers(WINDOWS);
    folder
        .run_on(
            &["refetch", "--width", "4", "covered.txt", "-"],
            &sample("proved.txt"),
        )
        .answers(WINDOWS);
    folder
        .run(&[
            "refetch",
            "--width",
            "4",
            "--picture",
            "covered.txt",
            "proved.txt",
        ])
        .answers(PICTURE);
    for columns in ["79", "0", "wide", "1000000000000"] {
        picture(&folder, "4", ["covered.txt", "proved.txt"], columns).answers(PICTURE);
    }
    let (marks, _) = PICTURE.split_once("covered 24").unwrap();
    picture(&folder, "4", ["covered.txt", "proved.txt"], "42").answers(&format!(
        "\
{marks}covered 24, present 4, missing 20,
windows 7
# all rows of a mark, + some, . none;
[ a window opens, * several do, = goes on
"
    ));
    folder
        .run(&["refetch", "--width", "100", "covered.txt", "none.txt"])
        .answers("0..34\n");
    folder
        .run(&["refetch", "--width", "4", "none.txt", "proved.txt"])
        .answers("");
    folder
        .run(&[
            "refetch",
            "--width",
            "4",
            "--picture",
            "none.txt",
            "proved.txt",
        ])
        .answers("no row is covered\n");
}

#[test]
fn ranges_of_any_spelling() {
    let folder = Folder::new("ranges_of_any_spelling")
        .with("covered.txt", "0 2\r\n3,5\n6\t8\n 10 .. 12 \n 13  15")
        .with("proved.txt", "1\r\n 4\n7");
    folder
        .run(&["refetch", "--width", "1", "covered.txt", "proved.txt"])
        .answers("0..1\n3..4\n6..7\n10..11\n11..12\n13..14\n14..15\n");
}

#[test]
fn what_is_read_back() {
    // once the windows are covered and nothing is proved, they are the plan
    let folder = folder("what_is_read_back").with("apart.txt", "0..3\n5..9\n");
    folder
        .run(&["refetch", "--width", "4", "apart.txt", "none.txt"])
        .answers("0..3\n5..9\n");
}

#[test]
fn pictures_of_long_logs() {
    let folder = folder("pictures_of_long_logs")
        .with("long.txt", "0..1000\n1500..2000\n")
        .with("all.txt", "0..18446744073709551615\n")
        .with("uneven.txt", "1..26\n")
        .with("two.txt", "2\n9\n10\n")
        .with("some.txt", "10\n999\n1000\n1200\n1500\n1501\n")
        .with("last.txt", "18446744073709551614\n");
    picture(&folder, "300", ["long.txt", "some.txt"], "28").answers(
        "\
rows 0..2000,
100 rows to a mark
covered ##########.....#####
present +........+.....+....
missing +########+.....+####
windows [==[==[==[.....[==[=
covered 1500, present 4,
missing 1496, windows 6;
proved and not covered 2
# all rows of a mark,
+ some, . none;
[ a window opens,
* several do, = goes on
",
    );
    picture(&folder, "30", ["long.txt", "none.txt"], "3").answers(
        "\
rows 0..2000,
200 rows to a mark
covered #####..+##
present ..........
missing #####..+##
windows *****..***
covered 1500,
present 0,
missing 1500,
windows 51
# all rows of a mark,
+ some, . none;
[ a window opens,
* several do,
= goes on
",
    );
    // marks of two rows and of three
    picture(&folder, "9", ["uneven.txt", "two.txt"], "18").answers(
        "\
rows 1..26,
2 or 3 rows to a mark
covered ##########
present +..#......
missing +##.######
windows [==.[==[==
covered 25,
present 3,
missing 22,
windows 3
# all rows of a mark,
+ some, . none;
[ a window opens,
* several do,
= goes on
",
    );
    let widest = picture(
        &folder,
        "1000000000000000000",
        ["all.txt", "none.txt"],
        "1000000000000",
    );
    assert!(widest
        .text()
        .lines()
        .nth(1)
        .is_some_and(|line| line.len() == 8 + 10_000));
    // all the rows that there can be take no longer than a few
    let before = Instant::now();
    picture(
        &folder,
        "18446744073709551615",
        ["all.txt", "last.txt"],
        "24",
    )
    .answers(
        "\
rows 0..18446744073709551615,
1152921504606846975 or 1152921504606846976 rows to a mark
covered ################
present ...............+
missing ###############+
windows [===============
covered 18446744073709551615,
present 1,
missing 18446744073709551614,
windows 1
# all rows of a mark,
+ some, . none;
[ a window opens,
* several do, = goes on
",
    );
    folder
        .run(&[
            "refetch",
            "--width",
            "9223372036854775807",
            "all.txt",
            "last.txt",
        ])
        .answers("0..9223372036854775807\n9223372036854775807..18446744073709551614\n");
    assert!(before.elapsed() < Duration::from_secs(10));
}

/// Where neither COLUMNS nor a terminal tells the columns, there are 80.
#[test]
fn pictures_of_80_columns() {
    let folder = Folder::new("pictures_of_80_columns")
        .with("covered.txt", "0..1000\n")
        .with("none.txt", "");
    let args = [
        "refetch",
        "--picture",
        "--width",
        "4",
        "covered.txt",
        "none.txt",
    ];
    let picture = folder.run(&args).text();
    let lengths: Vec<_> = picture.lines().map(str::len).collect();
    assert_eq!(lengths[1..5], [80; 4]);
    assert!(lengths.iter().all(|length| *length <= 80), "{picture}");
}

/// More lines than are printed at once.
#[test]
fn long_plans() {
    let folder = Folder::new("long_plans")
        .with("covered.txt", "0..100000\n")
        .with("none.txt", "");
    let lines: String = (0..100_000).map(|i| format!("{i}..{}\n", i + 1)).collect();
    let ran = folder.run(&["refetch", "--width", "1", "covered.txt", "none.txt"]);
    assert!(ran.bytes() == lines.as_bytes());
}

/// Memory that is not granted is told, and is no refusal of the files.
#[cfg(target_os = "linux")]
#[test]
fn short_memory() {
    let folder = Folder::new("short_memory")
        .with("covered.txt", "0..10000000\n")
        .with("none.txt", "");
    let run =
        r#"ulimit -v 100000; exec "$0" refetch --width 1 --limit 10000000 covered.txt none.txt"#;
    let mut command = std::process::Command::new("sh");
    command
        .args(["-c", run, env!("CARGO_BIN_EXE_fernsponge")])
        .current_dir(&folder.0);
    Ran(command.output().unwrap()).fails(
        "covered.txt and none.txt: the system has no memory for the windows of the plan (refusal 6)",
    );
}

#[test]
fn the_usual_limit() {
    let folder = Folder::new("the_usual_limit")
        .with("most.txt", "0..1000000\n")
        .with("more.txt", "0..1000001\n")
        .with("none.txt", "");
    let help = folder.run(&["refetch", "--help"]).text();
    assert!(help.contains("N is 1,000,000 without this, and 10,000,000 at most"));
    let refetch = |name: &str| folder.run(&["refetch", "--width", "1", name, "none.txt"]);
    assert!(refetch("most.txt")
        .bytes()
        .ends_with(b"\n999999..1000000\n"));
    refetch("more.txt").refuses(
        "more.txt and none.txt: the plan has more than 1000000 windows, the most that --limit allows (refusal 6)",
    );
}

#[test]
fn plans_that_are_refused() {
    let folder = folder("plans_that_are_refused")
        .with("touching.txt", "0..5\n5..7\n")
        .with("empty.txt", "0..5\n7..7\n")
        .with("twice.txt", "3\n3\n")
        .with("all.txt", "0..18446744073709551615\n");
    let refuses = |args: &[&str], why: &str| {
        folder
            .run(&[&["refetch", "--width"], args].concat())
            .refuses(why)
    };
    let apart = "a range has at least one row, and starts above the end of the one before it: they ascend, and neither overlap nor touch (refusal 9)";
    refuses(
        &["4", "touching.txt", "proved.txt"],
        &format!("touching.txt: line 2: {apart}"),
    );
    refuses(
        &["4", "empty.txt", "proved.txt"],
        &format!("empty.txt: line 2: {apart}"),
    );
    let above = "twice.txt: line 2: it is not above the one before it: proved rows ascend, each named once (refusal 8)";
    refuses(&["4", "covered.txt", "twice.txt"], above);
    refuses(
        &["0", "covered.txt", "proved.txt"],
        "--width: windows of at most 0 rows can fetch nothing (refusal 16)",
    );
    refuses(
        &["4", "covered.txt", "proved.txt", "--limit", "6"],
        "covered.txt and proved.txt: the plan has more than 6 windows, the most that --limit allows (refusal 6)",
    );
    folder
        .run(&[
            "refetch",
            "--width",
            "4",
            "covered.txt",
            "proved.txt",
            "--limit",
            "7",
        ])
        .answers(WINDOWS);
    refuses(
        &["4", "all.txt", "proved.txt"],
        "all.txt and proved.txt: the plan has more than 1000000 windows, the most that --limit allows (refusal 6)",
    );
}

#[test]
fn bad_lines() {
    let folder = folder("refetch_bad_lines");
    let covered = |text: &str, why: &str| {
        let ran = folder.run_on(
            &["refetch", "--width", "4", "-", "proved.txt"],
            text.as_bytes(),
        );
        ran.refuses(&format!("standard input: {why}"));
    };
    covered(
        "0..5\n7\n",
        "line 2: '7' is no range: one is written as 0..10",
    );
    covered(
        "0..5\n\n",
        "line 2: '' is no range: one is written as 0..10",
    );
    covered(
        "0..5\n7..x\n",
        "line 2: 'x' is no row: rows are numbers from 0 to 18446744073709551615",
    );
    covered(
        "0..=5\n",
        "line 1: '=5' is no row: rows are numbers from 0 to 18446744073709551615",
    );
    covered(
        "0..18446744073709551616\n",
        "line 1: '18446744073709551616' is no row: rows are numbers from 0 to 18446744073709551615",
    );
    let bytes = |text: &[u8], why: &str| {
        let ran = folder.run_on(&["refetch", "--width", "4", "-", "proved.txt"], text);
        ran.refuses(&format!("standard input: line 1: {why}"));
    };
    let rows = "is no row: rows are numbers from 0 to 18446744073709551615";
    bytes(b"\xFF..5\n", &format!("'\\xff' {rows}"));
    bytes(b"\"0\"..5\n", &format!("'\"0\"' {rows}"));
    bytes(
        b"0\\5\xE9\n",
        "'0\\5\\xe9' is no range: one is written as 0..10",
    );
    let proved = |text: &str, why: &str| {
        let ran = folder.run_on(
            &["refetch", "--width", "4", "covered.txt", "-"],
            text.as_bytes(),
        );
        ran.refuses(&format!("standard input: {why}"));
    };
    proved(
        "3\n-4\n",
        "line 2: '-4' is no row: rows are numbers from 0 to 18446744073709551615",
    );
    proved("+3\n", "line 1: '+3' is no row: rows have no sign");
    proved(
        "3\n\n4\n",
        "line 2: '' is no row: rows are numbers from 0 to 18446744073709551615",
    );
}

#[test]
fn wrong_calls() {
    let folder = folder("refetch_wrong_calls");
    let wrong = |args: &[&str], message: &str| {
        folder
            .run(&[&["refetch"], args].concat())
            .is_wrong("refetch", message)
    };
    wrong(
        &["covered.txt", "proved.txt"],
        "--width is missing: the most rows of a window",
    );
    wrong(
        &["--width", "4", "covered.txt"],
        "an operand is missing: it is called as refetch --width W [OPTION].. COVERED PROVED",
    );
    let number = "--width takes a number from 0 to 18446744073709551615, and four is none";
    wrong(&["--width", "four", "covered.txt", "proved.txt"], number);
    let sign = "--width takes a number from 0 to 18446744073709551615, and +3 is none";
    wrong(&["--width", "+3", "covered.txt", "proved.txt"], sign);
    let most = "--limit is at most 10,000,000: a plan stands in memory";
    let limit = [
        "--width",
        "4",
        "--limit",
        "10000001",
        "covered.txt",
        "proved.txt",
    ];
    wrong(&limit, most);
    wrong(
        &["--width", "4", "--picture=yes", "covered.txt", "proved.txt"],
        "--picture takes no value",
    );
    wrong(
        &["covered.txt", "proved.txt", "--width"],
        "--width has to be followed by the most rows of a window",
    );
}

#[cfg(unix)]
#[test]
fn files_that_cannot_be_read() {
    let folder = folder("refetch_files_that_cannot_be_read");
    let none = "no.txt: cannot be read: No such file or directory (os error 2)";
    folder
        .run(&["refetch", "--width", "4", "covered.txt", "no.txt"])
        .fails(none);
}
