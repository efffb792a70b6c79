use crate::{Folder, Ran};

fn explain(words: &[&str]) -> Ran {
    Folder::new(&format!("explain_{}", words.join("_"))).run(&[&["explain"], words].concat())
}

#[test]
fn three_parts_or_one_number() {
    let told = "Refusal 3: item 8 of theirs (index 7): its start is above its end, or they are equal and one of them is left out.\n";
    explain(&["3", "1", "7"]).answers(told);
    explain(&["3", "theirs", "7"]).answers(told);
    explain(&["459011"]).answers(told);
    explain(&["0x70103"]).answers(told);
    explain(&["refused", "3", "theirs", "7"]).answers(told);
    // the program krl leaves side and index out where they tell nothing
    explain(&["refused", "3"])
        .answers("Refusal 3: item 1 of ours (index 0): its start is above its end, or they are equal and one of them is left out.\n");
    explain(&["refused", "4", "ours", "1"]).answers(&explain(&["4", "0", "1"]).text());
    explain(&["refused", "4", "theirs", "1"]).answers(&explain(&["4", "1", "1"]).text());
    explain(&["3"])
        .answers("Refusal 3: item 1 of ours (index 0): its start is above its end, or they are equal and one of them is left out.\n");
    explain(&["3", "ours", "0"])
        .answers("Refusal 3: item 1 of ours (index 0): its start is above its end, or they are equal and one of them is left out.\n");
}

#[test]
fn every_number() {
    for (number, begins) in [
        (
            "1",
            "Refusal 1: item 4 of ours (index 3): it is malformed: ",
        ),
        (
            "2",
            "Refusal 2: item 4 of ours, or row 4 of a sheet (index 3): a key has more than 255 bytes",
        ),
        (
            "3",
            "Refusal 3: item 4 of ours (index 3): its start is above its end, or they are equal and one of them is left out.",
        ),
        (
            "4",
            "Refusal 4: item 4 of ours (index 3): it does not stand in order",
        ),
        ("5", "Refusal 5: item 4 of ours (index 3): it is wrapped"),
        ("6", "Refusal 6: the result needs more room"),
        (
            "7",
            "Refusal 7: item 4 of ours (index 3): it names no position",
        ),
        (
            "8",
            "Refusal 8: position or span 4 of ours (index 3): positions ascend",
        ),
        (
            "9",
            "Refusal 9: interval 4 of ours (index 3): each interval has at least one row",
        ),
        ("10", "Refusal 10: this is no KRL file: "),
        ("12", "Refusal 12: row 4 of ours (index 3): it says no item"),
        (
            "14",
            "Refusal 14: amount 4 of ours (index 3): it is below -100,000,000",
        ),
        ("15", "Refusal 15: an invoice has more than 1,000 keys"),
        (
            "16",
            "Refusal 16: windows of at most 0 rows can fetch nothing.",
        ),
    ] {
        let ran = explain(&[number, "0", "3"]);
        assert_eq!(
            (ran.0.status.code(), ran.message()),
            (Some(0), String::new())
        );
        let text = ran.text();
        assert!(
            text.starts_with(begins) && text.ends_with(".\n") && text.lines().count() == 1,
            "{text}"
        );
    }
    explain(&["2", "1", "4"]).answers(
        "Refusal 2: item 5 of theirs, or key 5 of an invoice (index 4): a key has more than 255 bytes, or reaches past the end of the pool.\n",
    );
    let whole = explain(&["1", "0", "0"]).text();
    assert!(
        whole.contains("a list has more than 2,048 items"),
        "{whole}"
    );
}

#[test]
fn an_answer_and_the_greatest() {
    explain(&["0"]).answers("0 is no refusal: the call answered.\n");
    explain(&["3", "1", "18446744073709551615"]).answers(
        "Refusal 3: item 18446744073709551616 of theirs (index 18446744073709551615): \
         its start is above its end, or they are equal and one of them is left out.\n",
    );
    explain(&["0xffffffffffff0103"]).answers(
        "Refusal 3: item 281474976710656 of theirs (index 281474976710655): \
         its start is above its end, or they are equal and one of them is left out.\n",
    );
}

#[test]
fn what_is_no_refusal() {
    let wrong = |words: &[&str], message: &str| explain(words).is_wrong("explain", message);
    wrong(
        &[],
        "an operand is missing: it is called as explain NUMBER SIDE INDEX",
    );
    wrong(&["99"], "no refusal has the number 99");
    wrong(&["0", "0", "0"], "no refusal has the number 0");
    wrong(&["300", "0", "0"], "no refusal has the number 300");
    wrong(&["3", "2", "0"], "2 is no side: 0 is ours, and 1 theirs");
    wrong(&["3", "0", "-"], "- is no index: that is a number from 0");
    wrong(
        &["3", "0"],
        "a refusal is a number, a side and an index, or the one number that a call returns",
    );
    wrong(
        &["517"],
        "517 has the side 2 in its second byte, and there are 0, ours, and 1, theirs",
    );
    wrong(&["three"], "three is no number that a call returns");
    wrong(
        &["18446744073709551616"],
        "18446744073709551616 is no number that a call returns",
    );
}
