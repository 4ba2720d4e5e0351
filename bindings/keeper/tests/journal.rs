//! The journal: what counts, what replays, and what no frame can say.

mod desk;

use std::fs::{self, OpenOptions};
use std::io::Write;
use std::sync::atomic::Ordering::SeqCst;

use desk::*;
use perdigolh::*;
use perdigolh_keeper::journal::{counted, read as read_journal, Block, Left};
use perdigolh_keeper::{Failure, Kept, Options, Push, Replay};

const WRITTEN: Options = Options { journal: true, memo: true };

fn stored(room: &Room) -> Kept {
    Kept::from_bytes(&fs::read(room.file("ledger")).unwrap()).unwrap()
}

/// The blocks that count, the number of those that do not, and that of stray lines.
fn journal(room: &Room) -> (Vec<Block>, usize, usize) {
    let (blocks, stray) = read_journal(&fs::read_to_string(room.file("journal")).unwrap());
    let (blocks, void) = counted(blocks, Left::by(Some(&stored(room)))).unwrap();
    (blocks, void, stray)
}

fn replayed(room: &Room) -> usize {
    let mut replay = Replay::default();
    let mut calls = 0;
    for (call, answer) in journal(room).0.iter().flat_map(|block| &block.calls) {
        assert_eq!(replay.call(call).as_ref(), Some(answer), "{call}");
        calls += 1;
    }
    assert_eq!(replay.ledger, stored(room).ledger);
    calls
}

#[test]
fn a_grant_and_its_refusals_replay() {
    let room = Room::new("replay");
    let (keeper, clock) = room.started(1, WRITTEN);
    let pushed = keeper.call(|ledger| ledger.push(&table(), &PUSH)).unwrap().unwrap();
    assert_eq!(keeper.call(|ledger| ledger.push(&table(), &PUSH)).unwrap(), Err(Refusal::LedgerFull));
    let code = keeper.call(|ledger| ledger.decide(&yes(pushed.reference))).unwrap().unwrap().code.unwrap();
    keeper.call(|ledger| ledger.decide(&yes(pushed.reference))).unwrap().unwrap(); // no call of the desk
    let token = keeper.call(|ledger| ledger.token(&table(), &redeem(code))).unwrap().unwrap().token;
    keeper.call(|ledger| ledger.resource(&read(token))).unwrap().unwrap();
    clock.store(1300, SeqCst);
    keeper.call(|ledger| ledger.push(&table(), &PUSH)).unwrap().unwrap();
    // start, client, push; push, sweep, push; decide; token; resource; push, sweep, push
    assert_eq!(replayed(&room), 12);
    let (blocks, void, stray) = journal(&room);
    assert_eq!((blocks.len(), void, stray), (7, 0, 0));
}

#[test]
fn a_code_shown_twice_replays() {
    let room = Room::new("twice-replay");
    let (keeper, _) = room.started(1, WRITTEN);
    let pushed = keeper.call(|ledger| ledger.push(&table(), &PUSH)).unwrap().unwrap();
    let code = keeper.call(|ledger| ledger.decide(&yes(pushed.reference))).unwrap().unwrap().code.unwrap();
    let token = keeper.call(|ledger| ledger.token(&table(), &redeem(code))).unwrap().unwrap().token;
    assert_eq!(keeper.call(|ledger| ledger.token(&table(), &redeem(code))).unwrap(), Err(Refusal::CodeRedeemed));
    assert_eq!(keeper.call(|ledger| ledger.resource(&read(token))).unwrap(), Err(Refusal::NoToken));
    // start, client, push; decide; token; token; resource
    assert_eq!(replayed(&room), 7);
}

#[test]
fn what_no_frame_can_say_has_a_form_of_its_own() {
    let room = Room::new("own");
    let (keeper, _) = room.started(4, WRITTEN);
    let long = vec![b'a'; 400];
    let odd = [
        Push { challenge: b"short", ..PUSH },
        Push { challenge: b"", ..PUSH },
        Push { redirect: &long, ..PUSH },
        Push { redirect: b"", ..PUSH },
    ];
    for request in &odd {
        assert_eq!(keeper.call(|ledger| ledger.push(&table(), request)).unwrap().unwrap_err(), Refusal::IllFormed);
    }
    let late = perdigolh_keeper::Redeem { verifier: &long, ..redeem(Code([1; 32])) };
    assert_eq!(keeper.call(|ledger| ledger.token(&table(), &late)).unwrap().unwrap_err(), Refusal::IllFormed);
    // a table that grows, one that shrinks, one of no right length, none
    let more = [table(), client_record(ClientId([0xb1; 16]), KEY, 1, 0).to_vec()].concat();
    for other in [&more[..], &table(), &more[..100], &[]] {
        let _ = keeper.call(|ledger| ledger.push(other, &PUSH)).unwrap();
    }
    assert_eq!(replayed(&room), 15);
    let own: Vec<String> = journal(&room).0.iter().flat_map(|block| block.calls.clone()).map(|call| call.0).collect();
    let forms: Vec<&str> = own.iter().filter_map(|call| call.split_once(' ')).map(|(name, _)| name).collect();
    assert_eq!(forms, ["push", "push", "push", "token", "table", "table", "table"]);
}

#[test]
fn what_a_crash_cuts_off_does_not_count() {
    let room = Room::new("torn");
    let (keeper, _) = room.started(4, WRITTEN);
    let text = fs::read_to_string(room.file("journal")).unwrap();
    keeper.call(|ledger| ledger.push(&table(), &PUSH)).unwrap().unwrap();
    let whole = fs::read_to_string(room.file("journal")).unwrap();
    let block = &whole[text.len()..];
    for at in (0..block.len()).step_by(7) {
        // the block of a step whose ledger never came into place, cut there
        fs::write(room.file("journal"), &whole).unwrap();
        let mut file = OpenOptions::new().append(true).open(room.file("journal")).unwrap();
        file.write_all(block.replace("step 1 2", "step 2 3").as_bytes()[..at].as_ref()).unwrap();
        keeper.call(|ledger| ledger.resource(&read(Token([1; 32])))).unwrap().unwrap_err();
        let (blocks, void, _) = journal(&room);
        assert_eq!((blocks.len(), void), (3, 0), "cut at {at}");
    }
    replayed(&room);
}

#[test]
fn a_block_that_the_ledger_does_not_follow_is_told_apart() {
    let room = Room::new("void");
    let (keeper, clock) = room.started(4, WRITTEN);
    let (ledger, lock) = (fs::read(room.file("ledger")).unwrap(), fs::read(room.file("lock")).unwrap());
    keeper.call(|ledger| ledger.push(&table(), &PUSH)).unwrap().unwrap();
    // as a crash between the journal and the rename leaves it
    fs::write(room.file("ledger"), &ledger).unwrap();
    fs::write(room.file("lock"), &lock).unwrap();
    assert_eq!((journal(&room).0.len(), journal(&room).1), (1, 1));
    let after = room.timed(&clock);
    after.call(|ledger| ledger.push(&table(), &PUSH)).unwrap().unwrap();
    let (blocks, void, stray) = journal(&room);
    assert_eq!((blocks.len(), void, stray), (2, 1, 0));
    replayed(&room);
    // a block taken out of the middle is a gap
    let text = fs::read_to_string(room.file("journal")).unwrap();
    let gap = text[text.find("step 1 2").unwrap()..].to_string();
    let (blocks, _) = read_journal(&gap);
    assert_eq!(counted(blocks, Left::by(Some(&stored(&room)))).unwrap_err(), 1);
}

#[test]
fn a_journal_that_is_gone_is_noticed() {
    let room = Room::new("gone");
    let (keeper, _) = room.started(4, WRITTEN);
    fs::remove_file(room.file("journal")).unwrap();
    assert!(matches!(keeper.call(|ledger| ledger.push(&table(), &PUSH)), Err(Failure::Damaged(_))));
}
