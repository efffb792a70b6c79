//! Files and standard input, read.

use crate::{
    args::Given,
    krl::{self, is_krl},
    message::Failure,
};
use std::{
    ffi::{OsStr, OsString},
    fs::File,
    io::{self, Read},
    path::Path,
};

/// What was read, and what messages call it.
pub struct Input {
    /// The file's name.
    pub name: String,
    /// All of it.
    pub bytes: Vec<u8>,
}

/// Reads every operand, `-` as standard input, which can be named once.
pub fn read(given: &Given) -> Result<Vec<Input>, Failure> {
    let is_stdin = |name: &&OsString| is_standard(name);
    if given.operands.iter().filter(is_stdin).count() > 1 {
        return Err(given.usage("standard input, -, can be named once"));
    }
    given.operands.iter().map(|name| read_one(name)).collect()
}

/// The names of what was read, for a message that is about all of it.
pub fn names(inputs: &[Input]) -> String {
    let names: Vec<_> = inputs.iter().map(|input| input.name.as_str()).collect();
    names.join(" and ")
}

/// Whether a name stands for standard input or standard output.
pub fn is_standard(name: &OsStr) -> bool {
    name == "-"
}

/// The most bytes that are read of a text.
const MOST_TEXT: usize = 256 << 20;

fn read_one(name: &OsStr) -> Result<Input, Failure> {
    let (name, read) = match is_standard(name) {
        true => (
            "standard input".to_string(),
            read_bounded(io::stdin().lock()),
        ),
        false => (
            Path::new(name).display().to_string(),
            File::open(name).and_then(read_bounded),
        ),
    };
    match read {
        Ok(bytes) if bytes.len() > MOST_TEXT => Err(Failure::unusable(format!(
            "{name}: it has more than 256 MiB, the most that are read"
        ))),
        Ok(bytes) => Ok(Input { name, bytes }),
        Err(why) => Err(Failure::unusable(format!("{name}: cannot be read: {why}"))),
    }
}

/// All bytes; or, of those that are too many, one more than there may be: for a KRL file, or else for a text.
fn read_bounded(mut from: impl Read) -> io::Result<Vec<u8>> {
    let mut bytes = vec![];
    let more = krl::MOST_FILE + 1;
    from.by_ref().take(more as u64).read_to_end(&mut bytes)?;
    if !is_krl(&bytes) {
        let more = MOST_TEXT + 1 - bytes.len();
        from.take(more as u64).read_to_end(&mut bytes)?;
    }
    Ok(bytes)
}
