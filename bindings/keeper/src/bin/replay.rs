//! Makes a journal's calls again over the archive, and compares every answer and the ledger at the end.
//!
//!   replay JOURNAL KEPT            KEPT is what the keeper stored: NAME.ledger, or the row's column `kept`
//!   replay --frames JOURNAL KEPT   print each call that counts as a frame with its answer, for the line program

use std::error::Error;
use std::fs;

use perdigolh_keeper::journal::{self, Block, Left};
use perdigolh_keeper::{Kept, Replay};

fn main() -> Result<(), Box<dyn Error>> {
    let words: Vec<String> = std::env::args().skip(1).collect();
    let words: Vec<&str> = words.iter().map(String::as_str).collect();
    match words[..] {
        ["--frames", journal, kept] => frames(journal, kept),
        [journal, kept] => replay(journal, kept),
        _ => Err("replay [--frames] JOURNAL KEPT".into()),
    }
}

fn replay(journal: &str, kept: &str) -> Result<(), Box<dyn Error>> {
    let kept = Kept::from_bytes(&fs::read(kept)?)?;
    let (blocks, void, stray) = counted(journal, &kept)?;
    let (mut replay, mut calls) = (Replay::default(), 0);
    for block in &blocks {
        for (call, answer) in &block.calls {
            let given = replay.call(call).ok_or_else(|| format!("of no form: {call}"))?;
            if given != *answer {
                return Err(format!("step {}: {call}\njournal {answer}\nreplay  {given}", block.before.step).into());
            }
            calls += 1;
        }
    }
    if replay.ledger != kept.ledger {
        return Err("the ledger at the end is another".into());
    }
    println!("{calls} calls in {} blocks give the same answers and the stored ledger", blocks.len());
    println!("{void} blocks and {stray} lines do not count");
    Ok(())
}

/// A call that no frame can say is refused and has changed nothing, so it is passed over; a table that none can say ends it.
fn frames(journal: &str, kept: &str) -> Result<(), Box<dyn Error>> {
    let kept = Kept::from_bytes(&fs::read(kept)?)?;
    let (blocks, ..) = counted(journal, &kept)?;
    for (call, answer) in blocks.iter().flat_map(|block| &block.calls) {
        if call.starts_with("table ") {
            return Err("a client table that frames cannot say: replay over the archive".into());
        }
        if !call.contains(' ') {
            println!("{call} {answer}");
        }
    }
    Ok(())
}

fn counted(journal: &str, kept: &Kept) -> Result<(Vec<Block>, usize, usize), Box<dyn Error>> {
    let (blocks, stray) = journal::read(&String::from_utf8_lossy(&fs::read(journal)?));
    let (blocks, void) = journal::counted(blocks, Left::by(Some(kept)))
        .map_err(|step| format!("the journal does not go on at step {step}"))?;
    Ok((blocks, void, stray))
}
