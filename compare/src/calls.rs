//! Calls of ours that are lent places for an answer. What is refused, and what the places hold, the original has not: these are held against
//! the documents alone.

use crate::{
    refusals::Checked,
    table::{Against, Held, Row},
};
use std::fmt::Debug;

/// The calls of one function.
pub struct Calls {
    accepted: Row,
    refused: Row,
}

impl Calls {
    pub fn new(accepted: &'static str, refused: &'static str) -> Self {
        Self {
            accepted: Row::new(accepted),
            refused: Row::new(refused),
        }
    }

    /// A call that is lent what is marked. It is held against the documents' answer, all that is lent as the call is to leave it, and where
    /// that is no refusal against the original's: `rust` is handed what we wrote.
    pub fn hold<L: Clone + PartialEq + Debug, R: PartialEq + Debug>(
        &mut self,
        input: impl Fn() -> String,
        marked: L,
        call: impl Fn(&mut L) -> u64,
        answer: Checked<L>,
        rust: impl Fn(&L) -> Held<R>,
    ) {
        let accepted = answer.is_ok();
        let rust = |returned, left: &L| (accepted && returned == 0).then(|| rust(left));
        self.hold_all(input, marked, call, answer, rust);
    }

    /// The same where the original refuses too: `rust` is handed the returned number besides, and tells where there is nothing of the original's.
    pub fn hold_all<L: Clone + PartialEq + Debug, R: PartialEq + Debug>(
        &mut self,
        input: impl Fn() -> String,
        marked: L,
        call: impl Fn(&mut L) -> u64,
        answer: Checked<L>,
        rust: impl Fn(u64, &L) -> Option<Held<R>>,
    ) {
        let mut ours = marked.clone();
        let returned = call(&mut ours);
        let row = match answer {
            Ok(_) => &mut self.accepted,
            Err(_) => &mut self.refused,
        };
        let against = Against {
            rust: rust(returned, &ours),
            paper: Some(Held {
                ours: (returned, ours),
                other: given(marked, answer),
            }),
            listed: false,
        };
        row.hold(input, against);
    }

    /// The same where there is nothing of the original's.
    pub fn hold_paper<L: Clone + PartialEq + Debug>(
        &mut self,
        input: impl Fn() -> String,
        marked: L,
        call: impl Fn(&mut L) -> u64,
        answer: Checked<L>,
    ) {
        self.hold_all(input, marked, call, answer, |_, _| None::<Held<()>>);
    }

    pub fn rows(self) -> [Row; 2] {
        [self.accepted, self.refused]
    }
}

/// The returned number, and all that is lent as it is to be left: a refused call writes nothing.
pub fn given<L>(marked: L, answer: Checked<L>) -> (u64, L) {
    match answer {
        Err(refusal) => (refusal.returned(), marked),
        Ok(left) => (0, left),
    }
}

/// The first of the words that mark what is lent, so that what is written shows.
pub const MARK: u32 = 0xFE00_0000;

/// Marked words.
pub fn lent(room: usize) -> Vec<u32> {
    (0..room as u32).map(|at| MARK + at).collect()
}

/// Marked words of a known count.
pub fn place<const N: usize>() -> [u32; N] {
    std::array::from_fn(|at| MARK + at as u32)
}

/// The first of the numbers of 64 bits that mark what is lent.
pub const WIDE_MARK: u64 = 0xFE00_0000_0000_0000;

/// Marked numbers.
pub fn wide_lent(room: usize) -> Vec<u64> {
    (0..room as u64).map(|at| WIDE_MARK + at).collect()
}
