//! What the keeper does again by itself: a full ledger swept, a taken value drawn anew, a yes answered as before.

mod desk;

use std::sync::atomic::Ordering::SeqCst;
use std::sync::{Barrier, Mutex};
use std::thread;
use std::time::Duration;

use desk::*;
use perdigolh::*;
use perdigolh_keeper::{Decide, Options};

const PLAIN: Options = Options { journal: false, memo: false };
const MEMO: Options = Options { journal: false, memo: true };

#[test]
fn the_clock_is_read_under_the_lock() {
    let room = Room::new("clock");
    let (keeper, clock) = room.started(1, PLAIN);
    let held = Barrier::new(2);
    thread::scope(|threads| {
        threads.spawn(|| {
            keeper.call(|_| {
                held.wait();
                thread::sleep(Duration::from_millis(100)); // the other one waits for the lock
                clock.store(2000, SeqCst);
            })
        });
        held.wait();
        assert_eq!(room.timed(&clock).call(|ledger| ledger.time()).unwrap(), 2000);
    });
}

#[test]
fn a_full_ledger_is_swept_once() {
    let room = Room::new("full");
    let (keeper, clock) = room.started(1, PLAIN);
    keeper.call(|ledger| ledger.push(&table(), &PUSH)).unwrap().unwrap();
    clock.store(1598, SeqCst);
    let full = keeper.call(|ledger| ledger.push(&table(), &PUSH)).unwrap();
    assert_eq!(full, Err(Refusal::LedgerFull));
    clock.store(1599, SeqCst);
    assert_eq!(keeper.call(|ledger| ledger.push(&table(), &PUSH)).unwrap().unwrap().answer.grant, 2);
}

#[test]
fn a_taken_value_is_drawn_anew_once() {
    for (draws, last) in [(vec![5, 5, 6], Ok(2)), (vec![5, 0, 6], Ok(2)), (vec![5, 5, 5, 6], Err(Refusal::FreshTaken))]
    {
        let room = Room::new("draw");
        room.started(4, PLAIN);
        let left = Mutex::new(draws.into_iter());
        let draw = move || Ok([left.lock().unwrap().next().expect("no more than that"); 32]);
        let keeper = room.keeper().with_time(|| 1000).with_fresh(draw);
        keeper.call(|ledger| ledger.push(&table(), &PUSH)).unwrap().unwrap();
        let second = keeper.call(|ledger| ledger.push(&table(), &PUSH)).unwrap();
        assert_eq!(second.map(|pushed| pushed.answer.grant), last);
    }
}

#[test]
fn without_a_random_source_nothing_is_made() {
    let room = Room::new("source");
    room.started(4, PLAIN);
    let stored = std::fs::read(room.file("ledger")).unwrap();
    let keeper = room.keeper().with_fresh(|| Err(std::io::Error::from(std::io::ErrorKind::Other)));
    assert!(keeper.call(|ledger| ledger.push(&table(), &PUSH)).is_err());
    assert_eq!(std::fs::read(room.file("ledger")).unwrap(), stored);
}

#[test]
fn allow_once_pressed_twice_is_one_decision() {
    let room = Room::new("twice");
    let (keeper, clock) = room.started(4, MEMO);
    let reference = keeper.call(|ledger| ledger.push(&table(), &PUSH)).unwrap().unwrap().reference;
    clock.store(1010, SeqCst);
    let first = keeper.call(|ledger| ledger.decide(&yes(reference))).unwrap().unwrap();
    let stored = std::fs::read(room.file("ledger")).unwrap();
    clock.store(1040, SeqCst);
    let second = room.timed(&clock).call(|ledger| ledger.decide(&yes(reference))).unwrap().unwrap();
    assert_eq!(first, second);
    assert_eq!(std::fs::read(room.file("ledger")).unwrap(), stored);
    // another holder, another client or a no are asked of the desk
    for other in [Decide { holder: 8, ..yes(reference) }, Decide { client: ClientId([0xb1; 16]), ..yes(reference) }] {
        assert_eq!(keeper.call(|ledger| ledger.decide(&other)).unwrap(), Err(Refusal::NoReference));
    }
    let no = Decide { yes: false, ..yes(reference) };
    assert_eq!(keeper.call(|ledger| ledger.decide(&no)).unwrap(), Err(Refusal::NoReference));
    // once redeemed it is over, and a token is given once
    let code = first.code.unwrap();
    keeper.call(|ledger| ledger.token(&table(), &redeem(code))).unwrap().unwrap();
    assert_eq!(keeper.call(|ledger| ledger.token(&table(), &redeem(code))).unwrap(), Err(Refusal::CodeRedeemed));
    assert_eq!(keeper.call(|ledger| ledger.decide(&yes(reference))).unwrap(), Err(Refusal::NoReference));
}

#[test]
fn a_swept_code_is_forgotten() {
    let room = Room::new("swept");
    let (keeper, clock) = room.started(4, MEMO);
    let reference = keeper.call(|ledger| ledger.push(&table(), &PUSH)).unwrap().unwrap().reference;
    let first = keeper.call(|ledger| ledger.decide(&yes(reference))).unwrap();
    clock.store(1060, SeqCst);
    assert_eq!(keeper.call(|ledger| ledger.decide(&yes(reference))).unwrap(), first); // expired, and waits still
    assert_eq!(keeper.call(|ledger| ledger.sweep()).unwrap().unwrap().consented, 1);
    assert_eq!(keeper.call(|ledger| ledger.decide(&yes(reference))).unwrap(), Err(Refusal::NoReference));
}

#[test]
fn without_the_memo_the_second_press_is_refused() {
    let room = Room::new("plain");
    let (keeper, _) = room.started(4, PLAIN);
    let reference = keeper.call(|ledger| ledger.push(&table(), &PUSH)).unwrap().unwrap().reference;
    keeper.call(|ledger| ledger.decide(&yes(reference))).unwrap().unwrap();
    assert_eq!(keeper.call(|ledger| ledger.decide(&yes(reference))).unwrap(), Err(Refusal::NoReference));
}
