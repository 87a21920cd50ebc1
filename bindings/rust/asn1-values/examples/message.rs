//! A message of three fields, written, read back at the same bit, and rejected by its first invalid field.

use asn1_values::{read_fields, write_fields, Bits, Field, Shape};

fn main() -> Result<(), Box<dyn std::error::Error>> {
    let mut message = [0; 4];
    let fields = [
        Field::Number { value: 5, width: 3 },
        Field::Octets(Bits::of(&[0xA5, 0xBC])),
    ];
    let end = write_fields(&mut message, 1, &fields)?;
    println!("{message:02x?}, {end} bits");

    let shapes = [Shape::Number { width: 3 }, Shape::Octets { count: 2 }];
    let (read, _) = read_fields(&message, 1, &shapes)?;
    println!(
        "{}",
        if read == fields {
            "the same fields"
        } else {
            "other fields"
        }
    );
    match read_fields(&message, 17, &shapes) {
        Ok(_) => println!("read"),
        Err(error) => println!("{error}"),
    }
    Ok(())
}
