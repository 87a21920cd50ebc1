//! Reads a certificate (X.509, RFC 5280) in DER from standard input, and prints its serial number, signature
//! algorithm, names and validity. Only functions of the library read the octets.

use asn1_values::{
    arcs, decimal, der_bits, der_generalized_time, der_utc_time, dotted, is_shortest, next_element,
    string_to_utf8, Class, DerError, Element, StringKind,
};
use std::error::Error;
use std::io::Read;

/// Octets that are read from the front.
struct Reader<'a>(&'a [u8]);

impl<'a> Reader<'a> {
    fn next(&mut self) -> Result<Element<'a>, DerError> {
        let (element, rest) = next_element(self.0)?;
        self.0 = rest;
        Ok(element)
    }

    /// Returns the contents of the next element, which has the universal tag.
    fn expect(&mut self, number: u64, constructed: bool) -> Result<&'a [u8], Box<dyn Error>> {
        let element = self.next()?;
        if !element.is_universal(number) || element.constructed != constructed {
            return Err(format!("{element:?} and not {number}").into());
        }
        Ok(element.contents)
    }

    fn enter(&mut self, number: u64) -> Result<Reader<'a>, Box<dyn Error>> {
        self.expect(number, true).map(Reader)
    }

    fn end(&self) -> Result<(), Box<dyn Error>> {
        if self.0.is_empty() {
            return Ok(());
        }
        Err("more after the last element".into())
    }

    fn identifier(&mut self) -> Result<String, Box<dyn Error>> {
        Ok(dotted(&arcs(self.expect(6, false)?)?)?)
    }

    fn algorithm(&mut self, word: &str) -> Result<(), Box<dyn Error>> {
        println!("{word}{}", self.enter(16)?.identifier()?);
        Ok(())
    }

    fn time(&mut self, word: &str) -> Result<(), Box<dyn Error>> {
        let element = self.next()?;
        let time = if element.is_universal(23) && !element.constructed {
            der_utc_time(element.contents)?
        } else if element.is_universal(24) && !element.constructed {
            der_generalized_time(element.contents)?
        } else {
            return Err("no time".into());
        };
        println!(
            "{word} {:04}-{:02}-{:02} {:02}:{:02}:{:02}",
            time.year, time.month, time.day, time.hour, time.minute, time.second
        );
        Ok(())
    }

    fn name(&mut self, word: &str) -> Result<(), Box<dyn Error>> {
        let mut name = self.enter(16)?;
        while !name.0.is_empty() {
            let mut set = name.enter(17)?;
            while !set.0.is_empty() {
                let mut attribute = set.enter(16)?;
                let identifier = attribute.identifier()?;
                println!("{word}{identifier}={}", text(&attribute.next()?)?);
                attribute.end()?;
            }
        }
        Ok(())
    }
}

/// Returns the kind of string of a universal tag.
fn kind(number: u64) -> Option<StringKind> {
    match number {
        18 => Some(StringKind::Numeric),
        19 => Some(StringKind::Printable),
        22 => Some(StringKind::Ia5),
        26 => Some(StringKind::Visible),
        30 => Some(StringKind::Bmp),
        _ => None,
    }
}

/// Returns the text of a string, or the octets of another value.
fn text(value: &Element<'_>) -> Result<String, Box<dyn Error>> {
    let is_plain = value.class == Class::Universal && !value.constructed;
    let text = match kind(value.number) {
        _ if is_plain && value.number == 12 => String::from_utf8(value.contents.to_vec())?,
        Some(kind) if is_plain => string_to_utf8(kind, value.contents)?,
        _ => {
            let digits = value.contents.iter().map(|it| format!("{it:02X}"));
            return Ok(format!("#{}", digits.collect::<String>()));
        }
    };
    let mut escaped = String::new();
    for character in text.chars() {
        match character {
            '\\' => escaped.push_str("\\\\"),
            '\0'..='\x1F' | '\x7F' => escaped.push_str(&format!("\\{:02X}", character as u32)),
            _ => escaped.push(character),
        }
    }
    Ok(escaped)
}

/// What is signed.
fn signed(certificate: &mut Reader<'_>) -> Result<(), Box<dyn Error>> {
    let mut body = certificate.enter(16)?;
    let start = body.0;
    let first = body.next()?;
    if first.class != Class::Context || first.number != 0 {
        body.0 = start;
    }
    let serial = body.expect(2, false)?;
    if !is_shortest(serial) {
        return Err("not a shortest integer".into());
    }
    println!("serial {}", decimal(serial)?);
    body.algorithm("signed by ")?;
    body.name("issuer ")?;
    let mut validity = body.enter(16)?;
    validity.time("from")?;
    validity.time("until")?;
    body.name("subject ")?;
    while !body.0.is_empty() {
        body.next()?;
    }
    Ok(())
}

fn main() -> Result<(), Box<dyn Error>> {
    let mut octets = Vec::new();
    std::io::stdin().read_to_end(&mut octets)?;
    let mut all = Reader(&octets);
    let mut certificate = all.enter(16)?;
    signed(&mut certificate)?;
    certificate.algorithm("algorithm ")?;
    let signature = der_bits(certificate.expect(3, false)?)?;
    println!("signature of {} bits", signature.len());
    certificate.end()?;
    all.end()
}
