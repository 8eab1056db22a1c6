//! The cases of the test program that calls all five entries, and the text that it has to print.
//!
//! A case is six numbers of two bytes each, lowest first: the lengths of a ticket, of the buffer that write is lent, of the one that list is lent
//! and of a store, and two access numbers; then the ticket, and the store's words in four bytes each, lowest first.

use std::fmt::Write;

use crate::{Answer, Answers};

pub struct Case {
    pub ticket: Vec<u8>,
    /// The lengths of the buffers that write and list are lent.
    pub buffers: (usize, usize),
    pub accesses: (u64, u64),
    pub store: Vec<u32>,
}

const HEAD: usize = 12;

/// The first case of these bytes, and the bytes after it.
fn first(bytes: &[u8]) -> Option<(Case, &[u8])> {
    let head: Vec<usize> = bytes
        .get(..HEAD)?
        .chunks(2)
        .map(|pair| usize::from(u16::from_le_bytes([pair[0], pair[1]])))
        .collect();
    let (ticket, rest) = bytes[HEAD..].split_at_checked(head[0])?;
    let (store, rest) = rest.split_at_checked(4 * head[3])?;
    let case = Case {
        ticket: ticket.to_vec(),
        buffers: (head[1], head[2]),
        accesses: (head[4] as u64, head[5] as u64),
        store: store
            .chunks(4)
            .map(|word| u32::from_le_bytes([word[0], word[1], word[2], word[3]]))
            .collect(),
    };
    Some((case, rest))
}

pub fn cases(mut bytes: &[u8]) -> Vec<Case> {
    let mut found = vec![];
    while let Some((case, rest)) = first(bytes) {
        found.push(case);
        bytes = rest;
    }
    assert!(bytes.is_empty(), "the last case is torn");
    found
}

fn line(answer: &Answer, accepted: &str) -> String {
    match answer.number {
        0 => format!("{accepted}\n"),
        number => format!("refused {number} {}\n", answer.place),
    }
}

fn counted(answer: &Answer) -> String {
    line(answer, &format!("accepted {}", answer.count))
}

impl Case {
    /// What the five entries answer, one after another; after an acceptance what they leave.
    pub fn expected(&self) -> String {
        let answers = Answers::to(&self.ticket);
        let mut text = counted(&answers.judge());

        let mut nest = vec![0; self.buffers.0];
        let written = answers.write(&mut nest);
        text += &counted(&written);
        if written.number == 0 {
            for byte in &nest[..written.count as usize] {
                write!(text, "{byte:02x}").expect("a string takes all");
            }
            text += "\n";
        }

        let mut listing = vec![0; self.buffers.1];
        let listed = answers.list(&mut listing);
        text += &counted(&listed);
        text += std::str::from_utf8(&listing[..listed.count as usize]).expect("a listing is ASCII");

        let tested = answers.quick(self.accesses.0, self.accesses.1);
        text += &line(&tested, if tested.count == 1 { "apart" } else { "perhaps" });

        let mut store = self.store.clone();
        let ran = answers.run(&mut store);
        text += &counted(&ran);
        if ran.number == 0 {
            for word in &store {
                write!(text, " {word}").expect("a string takes all");
            }
            text += "\n";
        }
        text
    }
}
