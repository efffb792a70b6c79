//! `explain`: a refusal as a sentence.

use crate::{
    args::{Command, Given},
    message::Failure,
    reasons,
};
use fernsponge::{Refusal, Side};

pub const COMMAND: Command = Command {
    name: "explain",
    about: "a refusal's number, side and index as a sentence",
    forms: &["NUMBER SIDE INDEX", "RETURNED", "refused NUMBER [SIDE INDEX]"],
    help: "\
SIDE is 0 or ours, or 1 or theirs. INDEX counts from 0, as the library does; the sentence counts from 1, too. RETURNED is
the one number that a call of C returns, decimal or, behind 0x, hexadecimal: the refusal's number in the lowest byte, the
side in the next, and the index above. The third form is the line that the program krl writes.

  fernsponge explain 3 1 7
  fernsponge explain 459011
  fernsponge explain refused 4 theirs 1
",
    operands: (1, 4),
    options: &[],
    run,
};

/// A refusal's number, side and index.
type Parts = (u8, Side, u64);

fn run(given: &Given) -> Result<Vec<u8>, Failure> {
    let words: Vec<_> = given
        .operands
        .iter()
        .map(|word| word.to_string_lossy())
        .collect();
    let words: Vec<&str> = words.iter().map(|word| word.as_ref()).collect();
    let sentence = match parts(&words).map_err(|why| given.usage(&why))? {
        None => "0 is no refusal: the call answered.".to_string(),
        Some((number, side, index)) => {
            let unknown = || given.usage(&format!("no refusal has the number {number}"));
            reasons::sentence(number, side, index).ok_or_else(unknown)?
        }
    };
    Ok(format!("{sentence}\n").into_bytes())
}

/// The refusal that the words tell, or none where they tell that there is none.
fn parts(words: &[&str]) -> Result<Option<Parts>, String> {
    match words {
        ["refused", number] => read(number, "ours", "0").map(Some),
        ["refused", number, side, index] | [number, side, index] => {
            read(number, side, index).map(Some)
        }
        [returned] => taken_apart(returned),
        _ => Err(
            "a refusal is a number, a side and an index, or the one number that a call returns"
                .to_string(),
        ),
    }
}

/// The three parts, read one by one.
fn read(number: &str, side: &str, index: &str) -> Result<Parts, String> {
    let number = number
        .parse()
        .map_err(|_| format!("no refusal has the number {number}"))?;
    let side = match side {
        "0" | "ours" => Side::Ours,
        "1" | "theirs" => Side::Theirs,
        _ => return Err(format!("{side} is no side: 0 is ours, and 1 theirs")),
    };
    let index = index
        .parse()
        .map_err(|_| format!("{index} is no index: that is a number from 0"))?;
    Ok((number, side, index))
}

/// The parts of a refusal as a call returned it.
fn taken_apart(returned: &str) -> Result<Option<Parts>, String> {
    let number = match returned.strip_prefix("0x") {
        Some(digits) => u64::from_str_radix(digits, 16),
        None => returned.parse(),
    };
    let number = number.map_err(|_| format!("{returned} is no number that a call returns"))?;
    let side = number >> 8 & 0xff;
    if side > 1 {
        return Err(format!("{returned} has the side {side} in its second byte, and there are 0, ours, and 1, theirs"));
    }
    let refusal = Refusal::from_number(number).err();
    Ok(refusal.map(|refusal| (refusal.number, refusal.side, refusal.index)))
}
