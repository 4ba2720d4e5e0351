//! Document 01, "The line program".

use second::line::{run, serve, Program};

fn run_text(input: &str) -> String {
    String::from_utf8(run(input.as_bytes())).unwrap()
}

#[test]
fn the_example() {
    let input = "0002\n050000000000000005\n050000000000000004\n";
    assert_eq!(run_text(input), "00\n00000000000000\n02000000000000\n");
}

#[test]
fn lines_and_their_ends() {
    let sweep = "050000000000000005";
    assert_eq!(run_text(""), "");
    assert_eq!(run_text("\n"), "ff\n");
    assert_eq!(run_text("0001"), "00\n");
    assert_eq!(run_text("0001\n\n"), "00\nff\n");
    assert_eq!(run_text(&format!("0001\r\n{sweep}")), "ff\n01000000000000\n");
    assert_eq!(
        run_text(&format!("0001\n{sweep}\n{sweep}")),
        "00\n00000000000000\n00000000000000\n"
    );
}

#[test]
fn lines_that_are_no_frames() {
    let no_frames = [
        "0",
        "000",
        "00010",
        "0g01",
        "0x01",
        " 0001",
        "0001 ",
        "00 01",
        "07",
        "ff",
        "0701",
        "00",
        "000101",
        "05",
        "0500000000000000",
        "05000000000000000000",
        "+1",
        "é1",
    ];
    for line in no_frames {
        assert_eq!(run_text(line), "ff\n", "{line}");
    }
    assert_eq!(run(b"00\x0001\n\xff\xff\n"), b"ff\nff\n");
    for (kind, bytes) in [("02", 97), ("04", 84), ("06", 64)] {
        let frame = |bytes: usize| run_text(&(kind.to_owned() + &"00".repeat(bytes)));
        assert_ne!(frame(bytes), "ff\n");
        assert_eq!(frame(bytes - 1), "ff\n");
        assert_eq!(frame(bytes + 1), "ff\n");
    }
}

#[test]
fn the_last_field_takes_the_rest() {
    for (kind, least) in [("01", 135), ("03", 152)] {
        for (bytes, number) in [(least - 1, "ff"), (least, "01"), (319, "01"), (320, "ff")] {
            let line = kind.to_owned() + &"00".repeat(bytes);
            assert!(run_text(&line).starts_with(number), "{kind} {bytes}");
        }
    }
}

#[test]
fn a_long_line_prints_ff_once() {
    for digits in [641, 642, 1280, 200_001] {
        let line = "0".repeat(digits);
        assert_eq!(run_text(&format!("{line}\n0001\n{line}")), "ff\n00\nff\n");
    }
}

#[test]
fn a_yes_byte_above_one_is_no_frame() {
    for (yes, starts) in [("00", "01"), ("01", "01"), ("02", "ff"), ("ff", "ff")] {
        let line = format!("02{}{yes}{}", "00".repeat(56), "00".repeat(40));
        assert!(run_text(&line).starts_with(starts));
    }
}

#[test]
fn before_the_first_start_every_call_answers_1_at_its_width() {
    let frames = [("01", 135, 29), ("02", 97, 30), ("03", 152, 29), ("04", 84, 29), ("05", 8, 7)];
    for (kind, bytes, width) in frames {
        let answer = run_text(&(kind.to_owned() + &"00".repeat(bytes)));
        assert_eq!(answer, format!("01{}\n", "00".repeat(width - 1)));
    }
}

#[test]
fn a_bad_slot_count_keeps_the_old_ledger() {
    for slots in ["00", "c9", "ff"] {
        let input = format!("0003\n050000000000000009\n00{slots}\n050000000000000008\n");
        assert_eq!(run_text(&input), "00\n00000000000000\n01\n02000000000000\n");
    }
    let mut program = Program::default();
    assert_eq!(program.answer(b"00c8"), "00\n");
    assert_eq!(program.ledger.len(), 51_232);
}

#[test]
fn the_65th_client_is_not_appended() {
    let mut program = Program::default();
    for i in 1..=64 {
        let record = format!("06{}", format!("{i:02X}").repeat(48) + &"00".repeat(16));
        assert_eq!(program.answer(record.as_bytes()), "00\n");
    }
    let before = program.clone();
    assert_eq!(program.answer(&[b"06", &[b'0'; 128][..]].concat()), "03\n");
    assert_eq!(program, before);
}

#[test]
fn a_line_that_is_no_frame_changes_nothing() {
    let mut program = Program::default();
    assert_eq!(program.answer(b"0001"), "00\n");
    let before = program.clone();
    assert_eq!(program.answer(b"000"), "ff\n");
    assert_eq!(program.answer(b"0500000000000000070"), "ff\n");
    assert_eq!(program, before);
}

/// Hands out its input one byte at a read.
struct Drops<'a>(&'a [u8]);

impl std::io::Read for Drops<'_> {
    fn read(&mut self, buffer: &mut [u8]) -> std::io::Result<usize> {
        let count = self.0.len().min(1);
        buffer[..count].copy_from_slice(&self.0[..count]);
        self.0 = &self.0[count..];
        Ok(count)
    }
}

#[test]
fn pieces_do_not_matter() {
    let input =
        [b"0002\n\n0", &[b'0'; 700][..], b"\n050000000000000005\n05000000000000000F"].concat();
    let mut output = Vec::new();
    serve(Drops(&input), &mut output).unwrap();
    assert_eq!(output, run(&input));
    assert_eq!(output, b"00\nff\nff\n00000000000000\n00000000000000\n");
}
