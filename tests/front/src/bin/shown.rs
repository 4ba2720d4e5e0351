//! What pending shows is what decide then allows, through the archive: shown [COUNT [SEED]]
//!
//! On sound, damaged and wrong-sized ledgers, at good and bad times, with references and client ids that are known and not: pending,
//! and behind it decide on the ledger that it left: yes and no at the same time, and yes later. At the same time both refuse by one
//! number or none does; whenever decide is accepted, it answers the grant number, the scope and the redirect that were shown. Each
//! number of pending must come up (with a COUNT of 2000 or more).

use std::process::ExitCode;

use front_tests::beside::{Archive, Kind, Outcome, Request};
use front_tests::chance::Chance;
use front_tests::lent::Place;
use front_tests::world::{World, LEDGER_ROOM, TABLE_ROOM};

const GATE_COUNT: usize = 12_000;
const ENOUGH_FOR_ALL: usize = 2_000;
const SHOWN: usize = 5;
const YES: u8 = 1;
const NO: u8 = 0;

fn main() -> ExitCode {
    let mut words = std::env::args().skip(1).map(|word| word.parse::<u64>().expect("shown [COUNT [SEED]]"));
    let count = words.next().map_or(GATE_COUNT, |count| count as usize);
    let mut chance = Chance::new(words.next().unwrap_or(2));
    let mut archive = Archive::with_room(LEDGER_ROOM, TABLE_ROOM);
    let mut world = World::new(&mut chance);
    let numbers = Kind::Pending.numbers();
    let (mut seen, mut wrong, mut tried) = (vec![0; numbers.len()], vec![0; numbers.len()], 0);
    while tried < count {
        let (mut request, own) = world.request(&mut chance);
        let kind = request.kind;
        if matches!(kind, Kind::Decide | Kind::Pending) {
            tried += 1;
            (request.holder, request.fresh) = (request.holder.max(1), chance.array());
            let shown = called(&mut archive, &request, Kind::Pending);
            let row = numbers.iter().position(|&number| number == shown.number).expect("a number of pending");
            seen[row] += 1;
            for (yes, later) in [(YES, 0), (NO, 0), (YES, 1 + chance.below(600) as u64)] {
                let time = request.time.wrapping_add(later);
                let next = Request { ledger: shown.ledger.clone(), time, yes, ..request.clone() };
                let decided = called(&mut archive, &next, Kind::Decide);
                if !reads(&shown, &request) || !follows(&shown, &decided, &next, later) {
                    wrong[row] += 1;
                    if wrong.iter().sum::<usize>() <= SHOWN {
                        println!(
                            "try {tried}, yes {yes}, {later} later\n  shown   {}\n  decided {}",
                            cut(&shown),
                            cut(&decided)
                        );
                    }
                }
            }
        }
        let outcome = called(&mut archive, &Request { kind, ..request }, kind);
        if own && outcome.number == 0 {
            world.keep(outcome);
        }
    }
    let counts: Vec<String> = numbers.iter().zip(&seen).map(|(number, count)| format!("{number}:{count}")).collect();
    println!("shown {}", counts.join(" "));
    let bad = |row: usize| wrong[row] > 0 || (seen[row] == 0 && count >= ENOUGH_FOR_ALL);
    let failed = (0..numbers.len()).filter(|&row| bad(row)).count();
    println!("{} passed, {failed} failed", numbers.len() - failed);
    if failed == 0 {
        ExitCode::SUCCESS
    } else {
        ExitCode::FAILURE
    }
}

fn called(archive: &mut Archive, request: &Request, kind: Kind) -> Outcome {
    archive.call(&Request { kind, ..request.clone() }, Place::Last).expect("nothing but what is lent is touched")
}

/// Whether pending has left the ledger as it was, and shows a request that waits.
fn reads(shown: &Outcome, request: &Request) -> bool {
    let waits = shown.holder == 0 && shown.scope != 0 && request.time < shown.expiry;
    shown.ledger == request.ledger && (waits || shown.number != 0)
}

/// Whether a decision is about what was shown: grant number, scope and redirect are the same, and at the same time the number is.
fn follows(shown: &Outcome, decided: &Outcome, asked: &Request, later: u64) -> bool {
    if later > 0 && (shown.number, decided.number) != (0, 0) {
        return true;
    }
    let scope = if asked.yes == YES { shown.scope } else { 0 };
    (shown.number, shown.grant, scope, shown.length) == (decided.number, decided.grant, decided.scope, decided.length)
        && shown.output == decided.output
}

fn cut(outcome: &Outcome) -> String {
    format!("{outcome:?}").chars().take(200).collect()
}
