//! The journal: each step's calls with their answers, as blocks of lines.
//!
//! ```text
//! step BEFORE AFTER SUM-BEFORE SUM-AFTER    step numbers in decimal, checksums of the ledger's bytes
//! > CALL                                    a frame, or the journal's own form
//! < ANSWER                                  as the line program prints it
//! end SUM                                   the checksum of the block so far
//! ```
//!
//! A block is written before the ledger that it leaves is put in place. It counts where what follows goes on from what it left:
//! the next block, or the stored ledger behind the last. A block that a crash cut off has no right end, and is no block.

use std::str::Lines;

use crate::{checksum, Kept};

/// A ledger as the journal names it: the step that left it, and the checksum of its bytes.
#[derive(Clone, Copy, Debug, PartialEq, Eq)]
pub struct Left {
    pub step: u64,
    pub sum: u64,
}

impl Left {
    pub fn by(kept: Option<&Kept>) -> Left {
        kept.map_or(Left { step: 0, sum: 0 }, |kept| Left { step: kept.step, sum: checksum(&kept.ledger) })
    }
}

#[derive(Clone, Debug)]
pub struct Block {
    pub before: Left,
    pub after: Left,
    /// Each call with its answer.
    pub calls: Vec<(String, String)>,
}

/// The text of a block; `calls` has the lines of calls and answers.
pub(crate) fn block(before: Left, after: Left, calls: &str) -> String {
    let text = format!("step {} {} {:016x} {:016x}\n{calls}", before.step, after.step, before.sum, after.sum);
    let sum = checksum(text.as_bytes());
    format!("{text}end {sum:016x}\n")
}

/// What a journal holds: its blocks in order, and how many lines belong to none.
pub fn read(text: &str) -> (Vec<Block>, usize) {
    let (mut blocks, mut stray) = (Vec::new(), 0);
    let mut lines = text.lines();
    while let Some(line) = lines.next() {
        let mut ahead = lines.clone();
        match whole(line, &mut ahead) {
            Some(block) => {
                blocks.push(block);
                lines = ahead;
            }
            None if line.is_empty() => {}
            None => stray += 1,
        }
    }
    (blocks, stray)
}

fn whole(first: &str, lines: &mut Lines) -> Option<Block> {
    let head: Vec<&str> = first.strip_prefix("step ")?.split(' ').collect();
    if head.len() != 4 {
        return None;
    }
    let (step, sum) = (|at: usize| head[at].parse().ok(), |at: usize| u64::from_str_radix(head[at], 16).ok());
    let before = Left { step: step(0)?, sum: sum(2)? };
    let after = Left { step: step(1)?, sum: sum(3)? };
    let (mut text, mut calls) = (format!("{first}\n"), Vec::new());
    loop {
        let line = lines.next()?;
        if let Some(end) = line.strip_prefix("end ") {
            let right = u64::from_str_radix(end, 16) == Ok(checksum(text.as_bytes()));
            return if right { Some(Block { before, after, calls }) } else { None };
        }
        let (call, answer) = (line.strip_prefix("> ")?, lines.next()?);
        text += &format!("{line}\n{answer}\n");
        calls.push((call.to_string(), answer.strip_prefix("< ")?.to_string()));
    }
}

/// The blocks that count, and how many do not; or the step at which the journal does not go on from what came before.
pub fn counted(blocks: Vec<Block>, stored: Left) -> Result<(Vec<Block>, usize), u64> {
    let (mut good, mut void) = (Vec::new(), 0);
    let mut reached = Left::by(None);
    let begins: Vec<Left> = blocks.iter().skip(1).map(|block| block.before).chain([stored]).collect();
    for (block, next) in blocks.into_iter().zip(begins) {
        if block.before != reached {
            return Err(block.before.step);
        }
        if block.after == next {
            reached = block.after;
            good.push(block);
        } else {
            void += 1;
        }
    }
    if reached == stored {
        Ok((good, void))
    } else {
        Err(stored.step)
    }
}
