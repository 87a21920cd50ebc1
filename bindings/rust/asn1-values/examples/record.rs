//! The personnel record of X.691 A.2 in unaligned PER: its values are written, compared with the octets of the
//! standard, and read back. Characters are those of ISO 646.

use asn1_values::{
    read_field, write_fields, Alphabet, AlphabetError, Field, Integer, Shape, StringKind,
};
use std::error::Error;

const RECORD: &str = "865D51D2888A5125F180998444D3CB2E3E9BF90CB8848B867396E8A88A5125F181089B93D71A\
                      A2294497C632AE222222985CE521885D54C170CAC838B8";

#[derive(Debug, PartialEq)]
struct Name {
    given: String,
    initial: String,
    family: String,
}

#[derive(Debug, PartialEq)]
struct Child {
    name: Name,
    date_of_birth: String,
}

#[derive(Debug, PartialEq)]
struct Record {
    name: Name,
    number: i64,
    title: String,
    date_of_hire: String,
    spouse: Name,
    children: Vec<Child>,
}

impl Name {
    fn new(given: &str, initial: &str, family: &str) -> Name {
        Name {
            given: given.to_string(),
            initial: initial.to_string(),
            family: family.to_string(),
        }
    }

    fn print(&self, what: &str) {
        println!("{what}: {} {} {}", self.given, self.initial, self.family);
    }
}

/// A `VisibleString`: its permitted characters, if not all, its least and greatest length, and the width of the length
/// field.
struct StringType {
    permitted: Option<Vec<u32>>,
    least: usize,
    most: usize,
    width: usize,
}

impl StringType {
    fn new(permitted: Option<&str>, least: usize, most: usize, width: usize) -> StringType {
        StringType {
            permitted: permitted.map(|set| set.chars().map(u32::from).collect()),
            least,
            most,
            width,
        }
    }

    fn alphabet(&self) -> Result<Alphabet<'_>, AlphabetError> {
        Alphabet::new(StringKind::Visible, self.permitted.as_deref(), false)
    }
}

struct Types {
    name: StringType,
    initial: StringType,
    title: StringType,
    date: StringType,
}

/// A message, and the index of the first bit that is not written or read yet.
struct Message {
    octets: Vec<u8>,
    at: usize,
}

type Done<T> = Result<T, Box<dyn Error>>;

impl Message {
    fn put(&mut self, fields: &[Field<'_, '_>]) -> Done<()> {
        self.at = write_fields(&mut self.octets, self.at, fields)?;
        Ok(())
    }

    fn put_number(&mut self, value: usize, width: usize) -> Done<()> {
        let value = value as u128;
        self.put(&[Field::Number { value, width }])
    }

    fn put_string(&mut self, string: &StringType, text: &str) -> Done<()> {
        if text.len() < string.least || text.len() > string.most {
            return Err("so many characters are not permitted".into());
        }
        self.put_number(text.len() - string.least, string.width)?;
        let alphabet = string.alphabet()?;
        let characters = text.chars().map(|c| Field::Character {
            character: c.into(),
            alphabet,
        });
        self.put(&characters.collect::<Vec<_>>())
    }

    fn put_name(&mut self, types: &Types, name: &Name) -> Done<()> {
        self.put_string(&types.name, &name.given)?;
        self.put_string(&types.initial, &name.initial)?;
        self.put_string(&types.name, &name.family)
    }

    fn put_record(&mut self, types: &Types, record: &Record) -> Done<()> {
        self.put_number(usize::from(!record.children.is_empty()), 1)?;
        self.put_name(types, &record.name)?;
        self.put(&[Field::CountedInteger(Integer::from(i128::from(
            record.number,
        )))])?;
        self.put_string(&types.title, &record.title)?;
        self.put_string(&types.date, &record.date_of_hire)?;
        self.put_name(types, &record.spouse)?;
        if !record.children.is_empty() {
            self.put_number(record.children.len(), 8)?;
        }
        for child in &record.children {
            self.put_name(types, &child.name)?;
            self.put_string(&types.date, &child.date_of_birth)?;
        }
        Ok(())
    }

    fn take<'s>(&mut self, shape: &Shape<'s>) -> Done<Field<'_, 's>> {
        let (field, end) = read_field(&self.octets, self.at, shape)?;
        self.at = end;
        Ok(field)
    }

    fn take_number(&mut self, width: usize) -> Done<usize> {
        match self.take(&Shape::Number { width })? {
            Field::Number { value, .. } => Ok(value as usize),
            _ => Err("no number".into()),
        }
    }

    fn take_string(&mut self, string: &StringType) -> Done<String> {
        let length = string.least + self.take_number(string.width)?;
        if length > string.most {
            return Err("so many characters are not permitted".into());
        }
        let alphabet = string.alphabet()?;
        let mut text = String::new();
        for _ in 0..length {
            if let Field::Character { character, .. } = self.take(&Shape::Character { alphabet })? {
                text.push(char::from_u32(character).ok_or("no character")?);
            }
        }
        Ok(text)
    }

    fn take_name(&mut self, types: &Types) -> Done<Name> {
        Ok(Name {
            given: self.take_string(&types.name)?,
            initial: self.take_string(&types.initial)?,
            family: self.take_string(&types.name)?,
        })
    }

    fn take_integer(&mut self) -> Done<i64> {
        match self.take(&Shape::CountedInteger)? {
            Field::CountedInteger(number) => {
                let value = number.value().ok_or("a large integer")?;
                Ok(i64::try_from(value)?)
            }
            _ => Err("no integer".into()),
        }
    }

    fn take_record(&mut self, types: &Types) -> Done<Record> {
        let present = self.take_number(1)? == 1;
        let mut record = Record {
            name: self.take_name(types)?,
            number: self.take_integer()?,
            title: self.take_string(&types.title)?,
            date_of_hire: self.take_string(&types.date)?,
            spouse: self.take_name(types)?,
            children: Vec::new(),
        };
        let count = if present { self.take_number(8)? } else { 0 };
        for _ in 0..count {
            record.children.push(Child {
                name: self.take_name(types)?,
                date_of_birth: self.take_string(&types.date)?,
            });
        }
        let left = 8 * self.octets.len() - self.at;
        if left >= 8 || self.take_number(left)? != 0 {
            return Err("no padding".into());
        }
        Ok(record)
    }
}

fn print(record: &Record) {
    record.name.print("name");
    println!("number: {}", record.number);
    println!("title: {}", record.title);
    println!("date of hire: {}", record.date_of_hire);
    record.spouse.print("name of spouse");
    for child in &record.children {
        child.name.print("child");
        println!("date of birth: {}", child.date_of_birth);
    }
}

fn main() -> Done<()> {
    let names = "-.ABCDEFGHIJKLMNOPQRSTUVWXYZabcdefghijklmnopqrstuvwxyz";
    let types = Types {
        name: StringType::new(Some(names), 1, 64, 6),
        initial: StringType::new(Some(names), 1, 1, 0),
        title: StringType::new(None, 0, 127, 8),
        date: StringType::new(Some("0123456789"), 8, 8, 0),
    };
    let smith = Record {
        name: Name::new("John", "P", "Smith"),
        number: 51,
        title: "Director".to_string(),
        date_of_hire: "19710917".to_string(),
        spouse: Name::new("Mary", "T", "Smith"),
        children: vec![
            Child {
                name: Name::new("Ralph", "T", "Smith"),
                date_of_birth: "19571111".to_string(),
            },
            Child {
                name: Name::new("Susan", "B", "Jones"),
                date_of_birth: "19590717".to_string(),
            },
        ],
    };
    let octets = vec![0; 96];
    let mut message = Message { octets, at: 0 };
    message.put_record(&types, &smith)?;
    message.octets.truncate(message.at.div_ceil(8));
    let written: String = message.octets.iter().map(|o| format!("{o:02X}")).collect();
    println!("{written}");
    assert_eq!(written, RECORD);

    message.at = 0;
    let read = message.take_record(&types)?;
    assert_eq!(read, smith);
    print(&read);
    Ok(())
}
