//! Values as text: outside vectors, and what other decoders take as a second spelling. tests/runs/texts.py compares with C and Python.

use perdigolh::*;

/// The digest and its text in RFC 7636, Appendix B.
const DIGEST: [u8; 32] = [
    19, 211, 30, 150, 26, 26, 216, 236, 47, 22, 177, 12, 76, 152, 46, 8, 118, 168, 120, 173, 109, 241, 68, 86, 110,
    225, 137, 74, 203, 112, 249, 195,
];
const TEXT: &str = "E9Melhoa2OwvFrEMTJguCHaoeK1t8URWbuGJSstw-cM";
const HEX: &str = "13d31e961a1ad8ec2f16b10c4c982e0876a878ad6df144566ee1894acb70f9c3";

#[test]
fn a_value_travels_and_comes_back() {
    assert_eq!((Token(DIGEST).to_text(), Key(DIGEST).to_text()), (TEXT.to_owned(), TEXT.to_owned()));
    assert_eq!((Token::from_text(TEXT), Key::from_text(TEXT)), (Some(Token(DIGEST)), Some(Key(DIGEST))));
    assert_eq!((Code(DIGEST).to_text(), Code::from_text(HEX)), (HEX.to_owned(), Some(Code(DIGEST))));
    let uri = format!("urn:ietf:params:oauth:request_uri:{HEX}");
    assert_eq!((Reference(DIGEST).to_text(), Reference::from_text(&uri)), (uri, Some(Reference(DIGEST))));
    assert_eq!(ClientId([0xa1; 16]).to_text(), "a1".repeat(16));
    assert_eq!(ClientId::from_text("a1".repeat(16)), Some(ClientId([0xa1; 16])));
}

#[test]
fn a_token_has_one_spelling() {
    let stem = &TEXT[..42];
    // M has pad bits 00; N, O and P differ from it in them alone
    for last in ["N", "O", "P", "M=", "M==", "", "M ", "M\n", "MA"] {
        assert_eq!(Token::from_text(format!("{stem}{last}")), None, "{last:?}");
    }
    for (old, new) in [("-", "+"), ("-", "/"), ("E", "="), ("E", "%"), ("E", "\u{e9}"), ("E9", " E9"), ("E9", "E\r\n9")]
    {
        assert_eq!(Token::from_text(TEXT.replacen(old, new, 1)), None, "{new:?}");
    }
}

#[test]
fn a_code_has_one_spelling() {
    assert_eq!(Code::from_text(HEX.to_uppercase()), None);
    for (at, digit) in HEX.char_indices().filter(|(_, digit)| digit.is_ascii_lowercase()) {
        let other = format!("{}{}{}", &HEX[..at], digit.to_ascii_uppercase(), &HEX[at + 1..]);
        assert_eq!(Code::from_text(&other), None, "{other}");
    }
    for other in ["0x", " ", "", "1", "131"] {
        assert_eq!(Code::from_text(format!("{other}{}", &HEX[2..])), None, "{other:?}");
    }
    assert_eq!(Code::from_text(format!("{}g", &HEX[..63])), None);
    assert_eq!(ClientId::from_text(HEX), None);
    assert_eq!(Code::from_text(&HEX[..32]), None);
}

#[test]
fn a_reference_travels_in_its_uri_alone() {
    for other in [
        HEX.to_owned(),
        format!("URN:ietf:params:oauth:request_uri:{HEX}"),
        format!("urn:ietf:params:oauth:request_uri::{HEX}"),
    ] {
        assert_eq!(Reference::from_text(&other), None, "{other}");
    }
    assert_eq!(Reference::from_text(REQUEST_URI), None);
    assert_eq!(Reference::from_text(format!("{REQUEST_URI}{HEX} ")), None);
}
