//! Number 1 sentence by sentence of document 01's "Ledger", number 3 of its "Client table" and of document 02, Q-2.

mod common;
use common::*;

/// Ledgers with a record in each state and one free behind them.
fn full() -> Desk {
    let mut desk = Desk::started(4);
    for i in 1..=3 {
        assert_eq!(desk.push(&Push { fresh: [i; 32], ..Push::default() }).number, 0);
    }
    for i in 2..=3 {
        let decide = Decide { reference: [i; 32], fresh: [10 + i; 32], ..Decide::default() };
        assert_eq!(desk.decide(&decide).answer.number, 0);
    }
    assert_eq!(desk.token(&Token { code: [13; 32], ..Token::default() }).number, 0);
    desk
}

/// The number of a sweep after these bytes were put at this place of the ledger.
fn number_with(at: usize, bytes: &[u8]) -> u8 {
    let mut desk = full();
    desk.ledger[at..at + bytes.len()].copy_from_slice(bytes);
    desk.sweep((1 << 40) - 1).number
}

fn at(record: usize, byte: usize) -> usize {
    32 + 256 * record + byte
}

#[test]
fn the_head() {
    assert_eq!(number_with(0, &[]), 0);
    assert_eq!(number_with(0, &((1u64 << 40) - 1).to_be_bytes()), 0);
    assert_eq!(number_with(0, &(1u64 << 40).to_be_bytes()), 1);
    assert_eq!(number_with(8, &3u64.to_be_bytes()), 1, "grant number 3 is not below the next");
    assert_eq!(number_with(8, &u64::MAX.to_be_bytes()), 0);
    for byte in 16..32 {
        assert_eq!(number_with(byte, &[1]), 1);
    }
    let mut desk = Desk::started(1);
    desk.ledger[15] = 0;
    assert_eq!(desk.sweep(0).number, 1);
}

#[test]
fn lengths() {
    for length in [0, 31, 32, 287, 289, 1055, 1057, 51_488] {
        let mut desk = full();
        desk.ledger.resize(length, 0);
        assert_eq!(desk.sweep(2000).number, 1, "{length}");
    }
    let mut desk = full();
    desk.ledger.resize(51_232, 0);
    assert_eq!(desk.sweep(2000).number, 0);
}

#[test]
fn a_free_record_is_all_zeros() {
    for byte in 1..256 {
        assert_eq!(number_with(at(3, byte), &[1]), 1, "{byte}");
    }
}

#[test]
fn zero_fields_and_states() {
    for record in 0..3 {
        for byte in [2, 3, 91, 92, 93, 94, 95] {
            assert_eq!(number_with(at(record, byte), &[1]), 1);
        }
        for state in [0, 4, 255] {
            assert_eq!(number_with(at(record, 0), &[state]), 1);
        }
    }
    for (record, wrong_states) in [(0, [2, 3]), (1, [1, 3]), (2, [1, 2])] {
        for state in wrong_states {
            assert_eq!(number_with(at(record, 0), &[state]), 1);
        }
    }
}

#[test]
fn fields_of_a_used_record() {
    for record in 0..3 {
        assert_eq!(number_with(at(record, 4), &[0; 4]), 1, "scope");
        assert_eq!(number_with(at(record, 4), &[0x80, 0, 0, 0]), 0, "scope");
        assert_eq!(number_with(at(record, 8), &0u64.to_be_bytes()), 1, "grant");
        assert_eq!(number_with(at(record, 8), &4u64.to_be_bytes()), 1, "grant");
        assert_eq!(
            number_with(at(record, 8), &((record as u64 + 1) % 3 + 1).to_be_bytes()),
            1,
            "grant"
        );
        assert_eq!(number_with(at(record, 16), &((1u64 << 41) - 1).to_be_bytes()), 0, "expiry");
        assert_eq!(number_with(at(record, 16), &(1u64 << 41).to_be_bytes()), 1, "expiry");
        assert_eq!(number_with(at(record, 16), &[0; 8]), 0, "expiry");
        assert_eq!(number_with(at(record, 32), &[0; 16]), 1, "client");
        assert_eq!(number_with(at(record, 32), &[1; 16]), 0, "a client need not be in the table");
        assert_eq!(number_with(at(record, 96), &[0; 32]), 1, "value");
        for byte in 48..91 {
            assert_eq!(number_with(at(record, byte), b"."), 1, "challenge");
        }
    }
}

#[test]
fn redirect_of_a_used_record() {
    for record in 0..3 {
        for length in [0, 8, 10, 64, 65, 255] {
            assert_eq!(number_with(at(record, 1), &[length]), 1, "length {length}");
        }
        for byte in 192..201 {
            assert_eq!(number_with(at(record, byte), b" "), 1);
        }
        for byte in 201..256 {
            assert_eq!(number_with(at(record, byte), b"a"), 1, "zeros behind the redirect");
        }
    }
}

#[test]
fn holder_token_and_key_by_state() {
    let one = 1u64.to_be_bytes();
    let numbers = [0, 1, 2].map(|record| {
        [
            number_with(at(record, 24), &[0; 8]),
            number_with(at(record, 24), &one),
            number_with(at(record, 128), &[0; 32]),
            number_with(at(record, 128), &[9; 32]),
            number_with(at(record, 160), &[0; 32]),
            number_with(at(record, 160), &[9; 32]),
        ]
    });
    assert_eq!(numbers, [[0, 1, 0, 1, 0, 1], [1, 0, 0, 1, 0, 1], [1, 0, 1, 0, 1, 0]]);
}

/// The values are 1, 12 and 13 thirty-two times, and the token of the last record is TOKEN.
#[test]
fn the_pool() {
    let held = [[1; 32], [12; 32], [13; 32], TOKEN];
    let places = [at(0, 96), at(1, 96), at(2, 96), at(2, 128)];
    for (i, &place) in places.iter().enumerate() {
        for (j, value) in held.iter().enumerate() {
            assert_eq!(number_with(place, value), u8::from(i != j), "{i} {j}");
        }
        assert_eq!(number_with(place, &[0xfe; 32]), 0);
    }
    assert_eq!(number_with(at(2, 160), &[1; 32]), 0, "a bound key is not of the pool");
}

/// The number of a push, and of a token call, with this table.
fn numbers_with(table: Vec<u8>) -> [u8; 2] {
    let mut desks = [Desk::started(1), Desk::consented()];
    for desk in &mut desks {
        desk.table = table.clone();
    }
    [desks[0].push(&Push::default()).number, desks[1].token(&Token::default()).number]
}

#[test]
fn the_client_table() {
    let ours = client(A, A_KEY, 5);
    let with = |other: Vec<u8>| numbers_with([ours.clone(), other].concat());
    assert_eq!(numbers_with(Vec::new()), [3, 3]);
    assert_eq!(numbers_with(ours.clone()), [0, 0]);
    assert_eq!(numbers_with(ours[..63].to_vec()), [3, 3]);
    assert_eq!(with(vec![1]), [3, 3]);
    assert_eq!(with(client([0; 16], B_KEY, 1)), [3, 3]);
    assert_eq!(with(client(B, [0; 32], 1)), [3, 3]);
    assert_eq!(with(client(A, B_KEY, 1)), [3, 3]);
    assert_eq!(with(client(B, A_KEY, 1)), [0, 0], "two clients may share a key");
    assert_eq!(with(client(B, B_KEY, 0)), [0, 0]);
    assert_eq!(numbers_with(client(A, A_KEY, 0)), [6, 0], "permitted bits matter at push alone");
    for lifetime in [0, 1, 90, 255, 256, 598, 599] {
        assert_eq!(with(client_saying(B, B_KEY, 1, lifetime)), [0, 0], "{lifetime}");
    }
    for lifetime in [600, 601, 0x0300, 0x5702, 0x8000, u16::MAX] {
        assert_eq!(with(client_saying(B, B_KEY, 1, lifetime)), [3, 3], "{lifetime}");
        assert_eq!(numbers_with(client_saying(A, A_KEY, 5, lifetime)), [3, 3], "{lifetime}");
    }
    for byte in 54..64 {
        let mut other = client(B, B_KEY, 1);
        other[byte] = 1;
        assert_eq!(with(other), [3, 3]);
    }
}

#[test]
fn size_of_the_client_table() {
    let table = |count: u8| (0..count).flat_map(|i| client([0xa1 + i; 16], A_KEY, 5)).collect();
    assert_eq!(numbers_with(table(64)), [0, 0]);
    assert_eq!(numbers_with(table(65)), [3, 3]);
}
