//! Texts that have one thing a line.

use crate::{input::Input, message::Failure};

/// The lines of a text, without their ends: LF, or CR LF. The last one may lack it.
pub fn of(input: &Input) -> Vec<&[u8]> {
    if input.bytes.is_empty() {
        return vec![];
    }
    let text = input.bytes.strip_suffix(b"\n").unwrap_or(&input.bytes);
    let lines = text.split(|byte| *byte == b'\n');
    lines
        .map(|line| line.strip_suffix(b"\r").unwrap_or(line))
        .collect()
}

/// What each line says; or the first line that says nothing, and why.
pub fn parse<T>(
    input: &Input,
    said: impl Fn(&[u8]) -> Result<T, String>,
) -> Result<Vec<T>, Failure> {
    let numbered = of(input).into_iter().zip(0..);
    let parsed = numbered.map(|(line, at)| {
        said(line).map_err(|why| Failure::refused(format!("{}: {why}", place(input, at))))
    });
    parsed.collect()
}

/// The file and the line, which is told from 0.
pub fn place(input: &Input, at: u64) -> String {
    format!("{}: line {}", input.name, u128::from(at) + 1)
}
