//! What a refusal is outside, on every number of every call.

use perdigolh::*;

/// The numbers of each call, in the documents' order.
const CALLS: [(Call, &[u8]); 8] = [
    (Call::Start, &[1]),
    (Call::Push, &[1, 2, 3, 4, 5, 6, 7, 8, 9]),
    (Call::Decide, &[1, 2, 20, 10, 11, 12, 7]),
    (Call::Token, &[1, 2, 3, 4, 13, 5, 14, 15, 11, 16, 7]),
    (Call::Resource, &[1, 2, 17, 11, 18, 6, 19]),
    (Call::Sweep, &[1, 2]),
    (Call::Pending, &[1, 2, 20, 10, 11]),
    (Call::Introspect, &[1, 2, 20]),
];

fn rows() -> impl Iterator<Item = (Call, Refusal, Outside)> {
    let all = CALLS.iter().flat_map(|&(call, _)| Refusal::ALL.iter().map(move |&refusal| (call, refusal)));
    all.filter_map(|(call, refusal)| refusal.at(call).map(|said| (call, refusal, said)))
}

#[test]
fn a_row_for_each_number_of_each_call_and_no_other() {
    for (call, numbers) in CALLS {
        for &refusal in Refusal::ALL {
            assert_eq!(refusal.at(call).is_some(), numbers.contains(&refusal.number()), "{call:?} {refusal}");
        }
    }
}

#[test]
fn a_status_fits_its_error() {
    for (call, refusal, said) in rows() {
        let asked = !matches!(call, Call::Start | Call::Sweep);
        assert_eq!(said.status.is_some(), asked, "{call:?} {refusal}");
        let wanted = match said.error {
            Some("invalid_client" | "invalid_token") => Some(401),
            Some("insufficient_scope") => Some(403),
            Some("invalid_request" | "invalid_scope" | "invalid_grant") => Some(400),
            Some("server_error") => Some(500),
            Some("temporarily_unavailable") => Some(503),
            Some(other) => panic!("{other}"),
            None => continue,
        };
        assert_eq!(said.status, wanted, "{call:?} {refusal}");
    }
}

#[test]
fn errors_are_those_of_the_endpoint() {
    for (call, refusal, said) in rows() {
        let known: &[&str] = match call {
            Call::Start | Call::Decide | Call::Sweep | Call::Pending => &[],
            // RFC 7662, section 2.3: none but for a figure server that does not authenticate
            Call::Introspect => &[],
            // RFC 9126, section 2.3: those of RFC 6749, sections 5.2 and 4.1.2.1
            Call::Push => {
                &["invalid_request", "invalid_client", "invalid_scope", "server_error", "temporarily_unavailable"]
            }
            // RFC 6749, section 5.2
            Call::Token => &["invalid_request", "invalid_client", "invalid_grant"],
            // RFC 6750, section 3.1
            Call::Resource => &["invalid_token", "insufficient_scope"],
        };
        assert!(said.error.map_or(true, |error| known.contains(&error)), "{call:?} {refusal} {:?}", said.error);
    }
}

#[test]
fn retries_and_alarms() {
    for (call, refusal, said) in rows() {
        let retry = match refusal.number() {
            2 => Retry::Time,
            7 => Retry::Fresh,
            8 => Retry::Sweep,
            _ => Retry::Never,
        };
        assert_eq!(said.retry, retry, "{call:?} {refusal}");
        let alarm = match refusal.number() {
            1 | 3 | 9 | 12 | 20 => Alarm::Always,
            2 | 7 | 8 => Alarm::Again,
            _ => Alarm::Never,
        };
        assert_eq!(said.alarm, alarm, "{call:?} {refusal}");
    }
}
