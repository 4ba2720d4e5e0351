//! Random, damaged and wrong-sized ledgers, tables, requests and outputs through the archive's calls: faults [COUNT [SEED]]
//!
//! Every answer and every lent byte afterwards must be the second program's, nothing beside what is lent may be touched, and every
//! number that a call can give must come up (with a COUNT of 20000 or more).

use std::process::ExitCode;

use front_tests::beside::{second, Archive, Kind, Request};
use front_tests::chance::Chance;
use front_tests::lent::Place;
use front_tests::world::{World, LEDGER_ROOM, TABLE_ROOM};
use second::description;

const GATE_COUNT: usize = 60_000;
const ENOUGH_FOR_ALL: usize = 20_000;
const SHOWN: usize = 5;
const NUMBERS: usize = 21;

fn main() -> ExitCode {
    let mut words = std::env::args().skip(1).map(|word| word.parse::<u64>().expect("faults [COUNT [SEED]]"));
    let count = words.next().map_or(GATE_COUNT, |count| count as usize);
    let mut chance = Chance::new(words.next().unwrap_or(1));
    let mut archive = Archive::with_room(LEDGER_ROOM, TABLE_ROOM);
    let mut world = World::new(&mut chance);
    let mut tried = [[Cell::default(); NUMBERS]; Kind::ALL.len()];
    let (mut shown, mut live) = (0, 0);
    for place in 0..count {
        let (request, own) = world.request(&mut chance);
        let expected = second(&request);
        let lent = chance_place(&mut chance);
        let outcome = archive.call(&request, lent);
        let cell = &mut tried[request.kind as usize][usize::from(expected.number)];
        cell.calls += 1;
        if outcome.as_ref() != Ok(&expected) {
            cell.wrong += 1;
            shown += 1;
            if shown <= SHOWN {
                show(place, &request, &format!("{outcome:?}"), &format!("{expected:?}"));
            }
        }
        live += usize::from(request.kind == Kind::Introspect && expected.length > description::INACTIVE.len());
        if own && expected.number == 0 {
            world.keep(expected);
        }
    }
    if report(&tried, live, count) {
        ExitCode::SUCCESS
    } else {
        ExitCode::FAILURE
    }
}

/// The calls that the second program answers with one number.
#[derive(Clone, Copy, Default)]
struct Cell {
    calls: usize,
    wrong: usize,
}

fn chance_place(chance: &mut Chance) -> Place {
    match chance.below(5) {
        0 | 1 => Place::First,
        2 | 3 => Place::Last,
        _ => Place::Between(chance.below(1 << 20)),
    }
}

/// Prints how often each number came up and the tally, one test a number of a call, and one that texts of live tokens came up.
fn report(tried: &[[Cell; NUMBERS]], live: usize, count: usize) -> bool {
    let mut wrong = 0;
    let mut failed = usize::from(live == 0 && count >= ENOUGH_FOR_ALL);
    let mut passed = 1 - failed;
    for (kind, cells) in Kind::ALL.iter().zip(tried) {
        let own = kind.numbers().iter().map(|&n| (n, cells[usize::from(n)]));
        let words: Vec<String> = own.clone().map(|(n, cell)| format!("{n}:{}", cell.calls)).collect();
        println!("{:<11}{}", format!("{kind:?}").to_lowercase(), words.join(" "));
        let bad = |cell: &Cell| cell.wrong > 0 || (cell.calls == 0 && count >= ENOUGH_FOR_ALL);
        let bads = own.filter(|(_, cell)| bad(cell)).count();
        failed += bads;
        passed += kind.numbers().len() - bads;
        wrong += cells.iter().map(|cell| cell.wrong).sum::<usize>();
    }
    println!("{live} texts of live tokens");
    println!("{count} calls tried, {} as the second program's, {wrong} not", count - wrong);
    println!("{passed} passed, {failed} failed");
    failed == 0
}

fn show(place: usize, request: &Request, got: &str, expected: &str) {
    let (got, expected) = (cut(got), cut(expected));
    println!(
        "call {place}: {:?} on {} bytes of ledger\n  got      {got}\n  expected {expected}",
        request.kind,
        request.ledger.len()
    );
}

fn cut(text: &str) -> &str {
    &text[..text.len().min(300)]
}
