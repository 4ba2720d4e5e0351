//! Steps that only read: the request that she is to see, and a token's text. Nothing is stored, and nothing is written down.

mod desk;

use std::fs;
use std::sync::atomic::Ordering::SeqCst;

use desk::*;
use perdigolh::*;
use perdigolh_keeper::Options;

#[test]
fn what_she_sees_and_what_a_figure_server_is_told() {
    let room = Room::new("reading");
    let (keeper, clock) = room.started(4, Options { journal: true, memo: true });
    let files = || (fs::read(room.file("ledger")).unwrap(), fs::read(room.file("journal")).unwrap());
    let reference = keeper.call(|ledger| ledger.push(&table(), &PUSH)).unwrap().unwrap().reference;
    clock.store(1010, SeqCst);
    let stored = files();
    let asked = Pending { reference, client: BUYER };
    let shown = keeper.call(|ledger| ledger.pending(&asked)).unwrap().unwrap();
    assert_eq!(shown.answer, Answer { grant: 1, holder: 0, scope: 4, expiry: 1599 });
    assert_eq!(shown.redirect, PUSH.redirect);
    let other = Pending { client: ClientId([0xb1; 16]), ..asked };
    assert_eq!(keeper.call(|ledger| ledger.pending(&other)).unwrap(), Err(Refusal::NoReference));
    assert!(files() == stored, "a step that only read was stored");

    let code = keeper.call(|ledger| ledger.decide(&yes(reference))).unwrap().unwrap().code.unwrap();
    let token = keeper.call(|ledger| ledger.token(&table(), &redeem(code))).unwrap().unwrap().token;
    let stored = files();
    clock.store(1309, SeqCst);
    let text = keeper.call(|ledger| ledger.introspect(&token)).unwrap().unwrap();
    assert!(text.starts_with("{\"active\":true,\"client_id\":\"a1a1") && text.contains("\"sub\":\"7\",\"exp\":1310,"));
    clock.store(1310, SeqCst);
    assert_eq!(keeper.call(|ledger| ledger.introspect(&token)).unwrap().unwrap(), "{\"active\":false}");
    clock.store(1000, SeqCst);
    assert_eq!(keeper.call(|ledger| ledger.introspect(&token)).unwrap(), Err(Refusal::TimeWrong));
    assert!(files() == stored, "a step that only read was stored");
}
