//! The messages of the folder `modules` of the repository, which the variable `ASN1_MODULES` names: those
//! that another compiler has encoded, and invalid ones with their errors.

use asn1_messages::{Codec, Rules, Schema};
use std::collections::HashMap;
use std::fs::read_to_string;

/// The modules of the repository by their names, read when a row needs them.
struct Modules {
    folder: String,
    read: HashMap<String, Schema>,
}

impl Modules {
    fn new() -> Modules {
        Modules { folder: std::env::var("ASN1_MODULES").expect("ASN1_MODULES"), read: HashMap::new() }
    }

    fn rows(&self, name: &str) -> Vec<Vec<String>> {
        let text = read_to_string(format!("{}/{name}", self.folder)).expect(name);
        let lines = text.lines().filter(|it| !it.is_empty() && !it.starts_with('#'));
        lines.map(|it| it.splitn(5, ' ').map(str::to_owned).collect()).collect()
    }

    fn codec(&mut self, module: &str, of: &str, rules: &str) -> Codec<'_> {
        let folder = &self.folder;
        let schema = self.read.entry(module.to_owned()).or_insert_with(|| {
            Schema::parse(&read_to_string(format!("{folder}/{module}.asn1")).expect(module)).expect(module)
        });
        schema.codec(of, Rules::named(rules).expect(rules)).expect(of)
    }
}

/// Returns the octets of hexadecimal digits.
fn octets_of(digits: &str) -> Vec<u8> {
    let pairs = digits.as_bytes().chunks(2);
    pairs.map(|it| u8::from_str_radix(str::from_utf8(it).unwrap(), 16).unwrap()).collect()
}

/// Returns a text of JSON without white space between its tokens.
fn compact(json: &str) -> String {
    let (mut is_inside, mut is_escaped) = (false, false);
    json.chars()
        .filter(|it| {
            let is_kept = is_inside || !it.is_ascii_whitespace();
            is_inside ^= *it == '"' && !is_escaped;
            is_escaped = *it == '\\' && !is_escaped;
            is_kept
        })
        .collect()
}

#[test]
fn messages_become_their_json_and_are_encoded_again() {
    let mut modules = Modules::new();
    let rows = modules.rows("messages");
    assert!(rows.len() > 50);
    for row in rows {
        let [module, of, rules, digits, json] = row.as_slice() else { panic!("{row:?}") };
        let codec = modules.codec(module, of, rules);
        let octets = octets_of(digits);
        assert_eq!(compact(&codec.decode_to_json(&octets).expect(json)), compact(json), "{module}.{of} by {rules}");
        assert_eq!(codec.encode_json(json).expect(json), octets, "{json}");
        let message = codec.decode(&octets).unwrap();
        assert_eq!(message.encode(&codec), Ok(octets.clone()), "{message}");
    }
}

#[test]
fn the_first_fault_is_named() {
    let mut modules = Modules::new();
    let rows = modules.rows("faults");
    assert!(rows.len() > 5);
    for row in rows {
        let [module, of, rules, digits, told] = row.as_slice() else { panic!("{row:?}") };
        let codec = modules.codec(module, of, rules);
        assert_eq!(codec.decode(&octets_of(digits)).err().expect(told).to_string(), *told);
    }
}

#[test]
fn each_octet_of_a_message_may_be_damaged() {
    let mut modules = Modules::new();
    for row in modules.rows("messages") {
        let [module, of, rules, digits, _] = row.as_slice() else { panic!("{row:?}") };
        let codec = modules.codec(module, of, rules);
        let octets = octets_of(digits);
        for at in 0..octets.len().min(200) {
            for bit in 0..8 {
                let mut damaged = octets.clone();
                damaged[at] ^= 1 << bit;
                if let Ok(message) = codec.decode(&damaged) {
                    assert_eq!(message.encode(&codec).as_ref(), Ok(&damaged), "{message}");
                }
            }
            assert!(codec.decode(&octets[..at]).is_err());
        }
    }
}
