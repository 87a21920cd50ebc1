//! Reads a certificate (RFC 5280) in DER from standard input, and prints its serial number, its subject, its
//! validity, and what its key may be used for.
//!
//! usage: certificate < CERTIFICATE

use asn1_messages::{Error, Message, Rules, Schema};
use std::io::Read;

const MODULE: &str = include_str!("Certificates.asn1");

/// The identifier of the extension that lists the uses of the key (RFC 5280 4.2.1.3).
const KEY_USAGE: &str = "{ 2 5 29 15 }";

/// Returns the value of a type whose DER another message has at a path.
fn inner(schema: &Schema, of: &str, message: &Message<'_>, path: &str) -> Result<String, Error> {
    let octets = message.octets(path).unwrap_or_default();
    Ok(schema.codec(of, Rules::Der)?.decode(&octets)?.to_string())
}

/// Returns how many items a list at a path has.
fn count(message: &Message<'_>, path: &str) -> usize {
    message.count(path).unwrap_or(0)
}

/// Returns the text of a value at a path.
fn text(message: &Message<'_>, path: &str) -> String {
    message.text(path).unwrap_or_default()
}

fn main() -> Result<(), Box<dyn std::error::Error>> {
    let mut octets = Vec::new();
    std::io::stdin().read_to_end(&mut octets)?;
    let schema = Schema::parse(MODULE)?;
    let certificates = schema.codec("Certificate", Rules::Der)?;
    let message = certificates.decode(&octets)?;
    println!("serial number {}", text(&message, "tbsCertificate.serialNumber"));
    let names = "tbsCertificate.subject.rdnSequence";
    for at in 0..count(&message, names) {
        let value = inner(&schema, "DirectoryString", &message, &format!("{names}[{at}][0].value"))?;
        println!("subject {} {value}", text(&message, &format!("{names}[{at}][0].type")));
    }
    for end in ["notBefore", "notAfter"] {
        println!("{end} {}", text(&message, &format!("tbsCertificate.validity.{end}")));
    }
    let extensions = "tbsCertificate.extensions";
    for at in 0..count(&message, extensions) {
        if text(&message, &format!("{extensions}[{at}].extnID")) == KEY_USAGE {
            println!("key usage {}", inner(&schema, "KeyUsage", &message, &format!("{extensions}[{at}].extnValue"))?);
        }
    }
    Ok(())
}
