//! Reads a certificate (X.509, RFC 5280) in DER from standard input as fields of all seven kinds, and writes these
//! fields again, at bit 0 and at bit 3 of other octets. `bindings/c/certificate_fields.c` says which part is a field
//! of which kind.

use asn1_values::{
    next_element, read_fields, write_fields, Alphabet, Class, DerError, Element, Shape, StringKind,
};
use std::error::Error;
use std::io::Read;

/// Returns the alphabets of strings of one octet a character, by the numbers of their tags. They are aligned, so that
/// each character is its own code.
fn alphabets() -> Result<[(u64, Alphabet<'static>); 3], Box<dyn Error>> {
    Ok([
        (19, Alphabet::new(StringKind::Printable, None, true)?),
        (22, Alphabet::new(StringKind::Ia5, None, true)?),
        (26, Alphabet::new(StringKind::Visible, None, true)?),
    ])
}

/// The shapes of the fields of a certificate.
struct Shapes {
    alphabets: [(u64, Alphabet<'static>); 3],
    all: Vec<Shape<'static>>,
}

impl Shapes {
    fn octets(&mut self, count: usize) {
        self.all.push(Shape::Octets { count });
    }

    /// Adds the shapes of a primitive element, which has `front` octets before its contents.
    fn primitive(&mut self, front: usize, element: &Element<'_>) {
        let count = element.contents.len();
        let number = match element.class {
            Class::Universal => element.number,
            _ => 0,
        };
        if number == 2 && front == 2 && count > 0 {
            self.octets(1);
            self.all.push(Shape::CountedInteger);
            return;
        }
        self.octets(front);
        let alphabet = self.alphabets.iter().find(|it| it.0 == number);
        if let Some(&(_, alphabet)) = alphabet {
            self.all
                .extend((0..count).map(|_| Shape::Character { alphabet }));
            return;
        }
        match number {
            1 if count == 1 => self.all.push(Shape::Number { width: 8 }),
            2 => self.all.push(Shape::Integer { octets: count }),
            3 if count > 0 => {
                self.all.push(Shape::Number { width: 8 });
                self.all.push(Shape::Bits {
                    length: 8 * (count - 1),
                });
            }
            6 => self.all.push(Shape::Identifier { octets: count }),
            _ => self.octets(count),
        }
    }

    /// Adds the shapes of the elements, from the outermost on. Contents nested deeper than 64 elements are octets.
    fn elements(&mut self, mut octets: &[u8], depth: usize) -> Result<(), DerError> {
        while !octets.is_empty() {
            let (element, rest) = next_element(octets)?;
            let front = octets.len() - rest.len() - element.contents.len();
            if element.constructed && depth < 64 {
                self.octets(front);
                self.elements(element.contents, depth + 1)?;
            } else {
                self.primitive(front, &element);
            }
            octets = rest;
        }
        Ok(())
    }
}

fn main() -> Result<(), Box<dyn Error>> {
    let mut octets = Vec::new();
    std::io::stdin().read_to_end(&mut octets)?;
    let mut shapes = Shapes {
        alphabets: alphabets()?,
        all: Vec::new(),
    };
    shapes.elements(&octets, 1)?;

    let (fields, end) = read_fields(&octets, 0, &shapes.all)?;
    let mut at_bit_3 = vec![0; octets.len() + 1];
    assert_eq!(write_fields(&mut at_bit_3, 3, &fields)?, end + 3);

    let (again, _) = read_fields(&at_bit_3, 3, &shapes.all)?;
    assert_eq!(again, fields);
    let mut written = vec![0; octets.len()];
    assert_eq!(write_fields(&mut written, 0, &again)?, 8 * octets.len());
    if written != octets {
        return Err("other octets were written".into());
    }
    println!("{} fields", fields.len());
    Ok(())
}
