//! Encodes the personnel record of X.691 A.2 by unaligned PER, and decodes it again by names.

use asn1_messages::{Error, Rules, Schema};

const MODULE: &str = include_str!("Personnel.asn1");

const RECORD: &str = r#"{
    "name": {"givenName": "John", "initial": "P", "familyName": "Smith"},
    "title": "Director", "number": 51, "dateOfHire": "19710917",
    "nameOfSpouse": {"givenName": "Mary", "initial": "T", "familyName": "Smith"},
    "children": [
        {"name": {"givenName": "Ralph", "initial": "T", "familyName": "Smith"}, "dateOfBirth": "19571111"},
        {"name": {"givenName": "Susan", "initial": "B", "familyName": "Jones"}, "dateOfBirth": "19590717"}
    ]
}"#;

fn main() -> Result<(), Error> {
    let schema = Schema::parse(MODULE)?;
    let records = schema.codec("PersonnelRecord", Rules::Uper)?;
    let octets = records.encode_json(RECORD)?;
    println!("{} octets: {octets:02X?}", octets.len());

    let message = records.decode(&octets)?;
    let view = message.view();
    let record = message.value(&view);
    if let (Some(title), Some(children)) = (record.get("title"), record.get("children")) {
        println!("{title} with {} children", children.item_count().unwrap_or(0));
    }

    let by_der = message.encode(&schema.codec("PersonnelRecord", Rules::Der)?)?;
    println!("{} octets by DER", by_der.len());
    Ok(())
}
