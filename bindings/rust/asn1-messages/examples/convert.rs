//! Converts values of a type of a module: octets of hexadecimal digits to JSON, a line each, and JSON back to
//! octets.
//!
//! usage: convert MODULE TYPE der|uper|aper < LINES
//!
//! A line of digits becomes the JSON of its value, and after it the digits that the JSON becomes. An error is a
//! line that begins with `error: `.

use asn1_messages::{Codec, Error, Rules, Schema};
use std::io::{BufWriter, Write, stdin, stdout};

/// Returns the octets of hexadecimal digits. `None` if the text is no digits of octets.
fn octets_of(digits: &str) -> Option<Vec<u8>> {
    let pairs = digits.as_bytes().chunks(2);
    pairs.map(|it| u8::from_str_radix(str::from_utf8(it).ok()?, 16).ok()).collect()
}

/// Returns the JSON of a value, and the octets that it becomes.
fn converted(codec: &Codec<'_>, octets: &[u8]) -> Result<String, Error> {
    let json = codec.decode_to_json(octets)?;
    let made = codec.encode_json(&json)?;
    let digits: String = made.iter().map(|it| format!("{it:02X}")).collect();
    Ok(format!("{json}{digits}"))
}

fn main() -> Result<(), Box<dyn std::error::Error>> {
    let arguments: Vec<String> = std::env::args().skip(1).collect();
    let [module, of, rules] = arguments.as_slice() else {
        return Err("usage: convert MODULE TYPE der|uper|aper < LINES".into());
    };
    let schema = Schema::parse(&std::fs::read_to_string(module)?)?;
    let codec = schema.codec(of, Rules::named(rules).ok_or("the rules are der, uper or aper")?)?;
    let mut out = BufWriter::new(stdout().lock());
    for line in stdin().lines() {
        let octets = octets_of(line?.trim()).ok_or("a line is not digits of octets")?;
        match converted(&codec, &octets) {
            Ok(text) => writeln!(out, "{text}")?,
            Err(error) => writeln!(out, "error: {error}")?,
        }
    }
    Ok(out.flush()?)
}
