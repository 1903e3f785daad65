//! Access tables. The linked calls have one entry of their own, so these go through the proved player, whose scripts can set up any.

use reference::envelope::{seal, Envelope, READ_REQUEST, STATUS_RESPONSE, WRITE_REQUEST};
use reference::generate::maker::hex;
use reference::paths::Path;
use reference::script::parse;
use reference::spelling;
use reference::status::SUCCESS;
use reference::tlv::{write, Element};
use reference::value::Value;

use crate::against::{proved, Step};

/// A sign with a switch and these entries, and three messages for it.
fn script(access: &[u8]) -> Vec<String> {
    let path = Path { endpoint: 1, cluster: 6, attribute: 0 };
    let entry = spelling::write_entry(None, &path, &Value::Bool(false));
    let message = |opcode, payload: Element| {
        let envelope = Envelope { opcode, exchange: 1, turn: u16::from(opcode == STATUS_RESPONSE) };
        format!("sign 7{}", hex(&seal(envelope, &write(&payload))))
    };
    let open = spelling::open_path(None, None, None);
    let setup = ["subject 7", "cluster 1 6 5", "attribute 1 6 0 1 2 0 bool 1"].map(str::to_string);
    let entries = access.iter().map(|privilege| format!("access {privilege} 7 * *"));
    let messages = [
        "start".to_string(),
        message(READ_REQUEST, spelling::read_request(vec![open], Vec::new())),
        message(WRITE_REQUEST, spelling::write_request(false, vec![entry])),
        message(STATUS_RESPONSE, spelling::status_response(SUCCESS)),
    ];
    setup.into_iter().chain(entries).chain(messages).collect()
}

/// What the three messages get.
fn numbers(access: &[u8]) -> Vec<(u8, Vec<u8>)> {
    let step = |text: String| {
        let line = parse(text.as_bytes()).expect("it is a line").expect("that says something");
        Step { text, line }
    };
    let steps: Vec<Step> = script(access).into_iter().map(step).collect();
    proved(&steps).split_off(1)
}

/// How many tables break a rule.
pub fn hold() -> usize {
    println!("Access tables, at a read, a write and a status:");
    let mut count = 0;
    let mut rule = |words: &str, broken: &[&[u8]], kept: &[&[u8]]| {
        for access in broken {
            let none = vec![(2, Vec::new()); 3];
            assert_eq!(numbers(access), none, "{words}: {access:?}");
        }
        for access in kept {
            assert!(numbers(access).iter().all(|(number, _)| *number != 2), "{words}: {access:?}");
        }
        println!("  {words:78}{:16} {:5} {:5}", " 2 2 2", broken.len(), kept.len());
        count += broken.len();
    };
    rule("2.1: at most 16 access entries", &[&[1; 17]], &[&[], &[1; 16]]);
    rule(
        "2.12: an access entry gives one of four privileges",
        &[&[0], &[5], &[255], &[1, 0], &[4, 4, 5], &[0, 4]],
        &[&[1], &[4], &[1, 2, 3, 4]],
    );
    count
}
