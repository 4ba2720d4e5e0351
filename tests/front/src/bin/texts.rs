//! Values as text by the bindings: the lines of tests/front/texts.c, answered alike.

use std::io::{self, BufRead};

use perdigolh::*;

fn bytes_of(digits: &str) -> Vec<u8> {
    let digit = |at: usize| u8::from_str_radix(&digits[at..at + 2], 16).expect("digits");
    (0..digits.len()).step_by(2).map(digit).collect()
}

fn hex(bytes: &[u8]) -> String {
    bytes.iter().map(|byte| format!("{:02x}", byte)).collect()
}

fn array<const N: usize>(bytes: &[u8]) -> [u8; N] {
    bytes.try_into().expect("a value's bytes")
}

macro_rules! by_kind {
    ($kind:expr, $what:expr, $given:expr, $($name:literal $type:ident)*) => {
        match ($kind, $what) {
            $(
                ($name, "write") => $type(array($given)).to_text(),
                ($name, "read") => $type::from_text($given).map_or("no".to_owned(), |value| hex(&value.0)),
            )*
            _ => panic!("no such line"),
        }
    };
}

fn main() {
    for line in io::stdin().lock().lines() {
        let line = line.expect("a line");
        let words: Vec<&str> = line.split(' ').collect();
        let given = bytes_of(words[2].trim_start_matches('-'));
        let answer = by_kind!(words[0], words[1], &given, "code" Code "client" ClientId "reference" Reference "token" Token "thumbprint" Key);
        println!("{}", answer);
    }
}
