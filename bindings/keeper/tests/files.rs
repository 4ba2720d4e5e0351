//! A ledger in files: a whole grant, what is noticed, what is not stored.

mod desk;

use std::fs;
use std::os::unix::fs::PermissionsExt;
use std::sync::atomic::Ordering::SeqCst;

use desk::*;
use perdigolh::*;
use perdigolh_keeper::{Failure, Files, Keeper, Options};

const PLAIN: Options = Options { journal: false, memo: false };

#[test]
fn a_grant_from_push_to_reading() {
    let room = Room::new("grant");
    let (keeper, clock) = room.started(2, PLAIN);
    let pushed = keeper.call(|ledger| ledger.push(&table(), &PUSH)).unwrap().unwrap();
    assert_eq!(pushed.answer, Answer { grant: 1, holder: 0, scope: 4, expiry: 1599 });
    clock.store(1010, SeqCst);
    let decided = keeper.call(|ledger| ledger.decide(&yes(pushed.reference))).unwrap().unwrap();
    assert_eq!(decided.redirect, PUSH.redirect);
    assert_eq!(decided.answer, Answer { grant: 1, holder: MANAGER, scope: 4, expiry: 1070 });
    clock.store(1020, SeqCst);
    let code = decided.code.unwrap();
    let redeemed = room.timed(&clock).call(|ledger| ledger.token(&table(), &redeem(code))).unwrap().unwrap();
    assert_eq!(redeemed.answer.expiry, 1320);
    let reading = keeper.call(|ledger| ledger.resource(&read(redeemed.token))).unwrap();
    assert_eq!(reading, Ok(redeemed.answer));
    let again = keeper.call(|ledger| ledger.token(&table(), &redeem(code))).unwrap();
    assert_eq!(again, Err(Refusal::CodeRedeemed));
}

/// Document 02, Q-3: a 15 at token has changed the ledger, so it is stored; whoever opens the file anew finds the token ended.
#[test]
fn a_code_shown_twice_is_stored() {
    let room = Room::new("twice");
    let (keeper, clock) = room.started(1, PLAIN);
    let pushed = keeper.call(|ledger| ledger.push(&table(), &PUSH)).unwrap().unwrap();
    let code = keeper.call(|ledger| ledger.decide(&yes(pushed.reference))).unwrap().unwrap().code.unwrap();
    let token = keeper.call(|ledger| ledger.token(&table(), &redeem(code))).unwrap().unwrap().token;
    keeper.call(|ledger| ledger.resource(&read(token))).unwrap().unwrap();
    let before = fs::read(room.file("ledger")).unwrap();
    assert_eq!(keeper.call(|ledger| ledger.token(&table(), &redeem(code))).unwrap(), Err(Refusal::CodeRedeemed));
    assert_ne!(fs::read(room.file("ledger")).unwrap(), before);
    drop(keeper);
    let anew = room.timed(&clock);
    assert_eq!(anew.call(|ledger| ledger.resource(&read(token))).unwrap(), Err(Refusal::NoToken));
    assert_eq!(anew.call(|ledger| ledger.token(&table(), &redeem(code))).unwrap(), Err(Refusal::NoCode));
}

#[test]
fn a_name_is_started_once() {
    let room = Room::new("once");
    let keeper = room.keeper();
    assert!(matches!(keeper.call(|ledger| ledger.sweep()), Err(Failure::NoLedger)));
    keeper.start(1, PLAIN).unwrap();
    let stored = fs::read(room.file("ledger")).unwrap();
    assert!(matches!(keeper.start(1, PLAIN), Err(Failure::Started)));
    assert!(matches!(room.keeper().start(2, PLAIN), Err(Failure::Started)));
    assert_eq!(fs::read(room.file("ledger")).unwrap(), stored);
    fs::remove_file(room.file("ledger")).unwrap();
    assert!(matches!(room.keeper().start(1, PLAIN), Err(Failure::Damaged(_))));
    assert!(matches!(room.keeper().call(|ledger| ledger.sweep()), Err(Failure::Damaged(_))));
}

#[test]
fn only_the_owner_may_read() {
    let room = Room::new("rights");
    let (_keeper, _) = room.started(1, Options { journal: true, memo: false });
    for end in ["ledger", "lock", "journal"] {
        assert_eq!(fs::metadata(room.file(end)).unwrap().permissions().mode() & 0o777, 0o600, "{end}");
    }
}

#[test]
fn damage_is_noticed() {
    let room = Room::new("damage");
    let (keeper, _) = room.started(2, PLAIN);
    let stored = fs::read(room.file("ledger")).unwrap();
    for at in (0..stored.len()).step_by(7) {
        let mut spoilt = stored.clone();
        spoilt[at] ^= 0x10;
        fs::write(room.file("ledger"), &spoilt).unwrap();
        assert!(matches!(keeper.call(|ledger| ledger.sweep()), Err(Failure::Damaged(_))), "byte {at}");
        fs::write(room.file("ledger"), &stored[..at]).unwrap();
        assert!(matches!(keeper.call(|ledger| ledger.sweep()), Err(Failure::Damaged(_))), "cut at {at}");
    }
    fs::write(room.file("ledger"), &stored).unwrap();
    assert!(keeper.call(|ledger| ledger.sweep()).unwrap().is_ok());
}

#[test]
fn an_old_copy_is_noticed() {
    let room = Room::new("old");
    let (keeper, clock) = room.started(2, PLAIN);
    let (old, old_lock) = (fs::read(room.file("ledger")).unwrap(), fs::read(room.file("lock")).unwrap());
    keeper.call(|ledger| ledger.push(&table(), &PUSH)).unwrap().unwrap();
    fs::write(room.file("ledger"), &old).unwrap();
    // by the number in the lock's file, whoever comes
    let other = room.timed(&clock).call(|ledger| ledger.sweep());
    assert!(matches!(other, Err(Failure::OldCopy { stored: 1, known: 2 })));
    // with that put back as well, by a keeper that saw a later step
    fs::write(room.file("lock"), &old_lock).unwrap();
    assert!(matches!(keeper.call(|ledger| ledger.sweep()), Err(Failure::OldCopy { stored: 1, known: 2 })));
    // and by nobody else: docs/KEEPER.md says so
    assert!(room.timed(&clock).call(|ledger| ledger.sweep()).unwrap().is_ok());
}

#[test]
fn storing_is_judged_by_the_bytes() {
    let room = Room::new("bytes");
    let (keeper, clock) = room.started(2, PLAIN);
    let before = fs::metadata(room.file("ledger")).unwrap().modified().unwrap();
    assert_eq!(keeper.call(|ledger| ledger.resource(&read(Token([1; 32])))).unwrap(), Err(Refusal::NoToken));
    assert_eq!(fs::metadata(room.file("ledger")).unwrap().modified().unwrap(), before);
    keeper.call(|ledger| ledger.sweep()).unwrap().unwrap(); // the clock moves
    let moved = fs::read(room.file("ledger")).unwrap();
    keeper.call(|ledger| ledger.sweep()).unwrap().unwrap(); // and does not
    assert_eq!(fs::read(room.file("ledger")).unwrap(), moved);
    clock.store(1001, SeqCst);
    keeper.call(|ledger| ledger.sweep()).unwrap().unwrap();
    assert_ne!(fs::read(room.file("ledger")).unwrap(), moved);
}

#[test]
fn a_step_that_panics_stores_nothing_and_lets_the_lock_go() {
    let room = Room::new("panic");
    let (keeper, _) = room.started(2, PLAIN);
    let stored = fs::read(room.file("ledger")).unwrap();
    let broken = std::panic::catch_unwind(std::panic::AssertUnwindSafe(|| {
        keeper.call(|ledger| {
            ledger.push(&table(), &PUSH).unwrap();
            panic!("the front's own fault");
        })
    }));
    assert!(broken.is_err());
    assert_eq!(fs::read(room.file("ledger")).unwrap(), stored);
    assert_eq!(keeper.call(|ledger| ledger.push(&table(), &PUSH)).unwrap().unwrap().answer.grant, 1);
}

#[test]
fn names_are_plain() {
    let room = Room::new("names");
    let most = "n".repeat(64);
    for good in ["a", "north-2026", &most] {
        assert!(Keeper::new(Files::new(room.path()), good).is_ok());
    }
    for bad in ["", "..", "a/b", "A", "a b", "a.b", "ü", &(most.clone() + "n")] {
        assert!(matches!(Keeper::new(Files::new(room.path()), bad), Err(Failure::BadName)), "{bad}");
    }
}
