//! Worked rows: each expected value is from the standard or from arithmetic.

use asn1_values::*;
use core::cmp::Ordering;
use core::hash::{Hash, Hasher};

#[test]
fn bits_are_read_placed_and_compared() {
    let mut message = [0; 2];
    or_bits(&mut message, 0, Bits::new(&[0xA0], 0, 3).unwrap()).unwrap();
    or_bits(&mut message, 3, Bits::of(&[0xA5])).unwrap();
    assert_eq!(message, [0xB4, 0xA0]);
    assert_eq!(read_bits(&message, 3, 8), Ok(0xA5));
    let mut numbers = [0x80, 0];
    assert_eq!(or_number(&mut numbers, 1, 5, 3), Ok(()));
    assert_eq!(or_number(&mut numbers, 4, 5, 2), Err(BitsError::Overflow));
    assert_eq!(or_number(&mut numbers, 4, 0, 129), Err(BitsError::Width));
    assert_eq!(or_number(&mut numbers, 14, 5, 3), Err(BitsError::Outside));
    assert_eq!(numbers, [0xD0, 0]);
    assert_eq!(read_bits(&message, 12, 8), Err(BitsError::Outside));
    assert_eq!(read_bits(&[0; 17], 0, 129), Err(BitsError::Width));
    assert_eq!(read_bits(&[0xFF; 17], 3, 128), Ok(u128::MAX));
    assert_eq!(
        or_bits(&mut message, 9, Bits::of(&[0xFF])),
        Err(BitsError::Outside)
    );
    assert_eq!(message, [0xB4, 0xA0]);
    let here = |first, length| Bits::new(&message, first, length);
    let octet = Bits::of(&[0xA5]);
    assert_eq!(here(3, 8), Some(octet));
    assert_eq!(here(3, 7).unwrap().cmp(&octet), Ordering::Less);
    assert_eq!(
        here(3, 8).unwrap().cmp(&Bits::of(&[0xA4])),
        Ordering::Greater
    );
    assert_eq!(here(3, 14), None);
    assert_eq!(here(usize::MAX, usize::MAX), None);
    let hashed = |bits: &Bits<'_>| {
        let mut hasher = std::collections::hash_map::DefaultHasher::new();
        bits.hash(&mut hasher);
        hasher.finish()
    };
    assert_eq!(hashed(&here(3, 8).unwrap()), hashed(&octet));
    assert_ne!(hashed(&here(3, 7).unwrap()), hashed(&octet));
    assert_eq!(octet.copy_octets(&mut []), Err(BitsError::Room));
}

#[test]
fn integers_are_ordered_by_value() {
    let large = [1; 17];
    let larger = [2; 17];
    let below = [0x80; 17];
    let longer = [0x81; 18];
    let rows = [
        Integer::from_octets(&longer).unwrap(),
        Integer::from_octets(&below).unwrap(),
        Integer::from(i128::MIN),
        Integer::from(-1),
        Integer::from(0),
        Integer::from(i128::MAX),
        Integer::from_octets(&large).unwrap(),
        Integer::from_octets(&larger).unwrap(),
    ];
    for (i, a) in rows.iter().enumerate() {
        for (j, b) in rows.iter().enumerate() {
            assert_eq!(a.cmp(b), i.cmp(&j), "{a:?} {b:?}");
        }
    }
}

#[test]
fn integers_have_their_shortest_octets() {
    let mut room = [0; 8];
    for (number, octets) in [
        (0, &[0x00][..]),
        (127, &[0x7F]),
        (128, &[0x00, 0x80]),
        (-128, &[0x80]),
        (-129, &[0xFF, 0x7F]),
        (i64::MAX, &[0x7F, 0xFF, 0xFF, 0xFF, 0xFF, 0xFF, 0xFF, 0xFF]),
        (i64::MIN, &[0x80, 0, 0, 0, 0, 0, 0, 0]),
    ] {
        assert_eq!(integer_octets(number, &mut room), octets);
        assert_eq!(integer_from_octets(octets), Ok(number));
        assert!(is_shortest(octets));
    }
    assert_eq!(integer_from_octets(&[]), Err(IntegerError::Empty));
    assert_eq!(
        integer_from_octets(&[0, 0x80, 0, 0, 0, 0, 0, 0, 0]),
        Err(IntegerError::Overflow)
    );
    assert_eq!(integer_from_octets(&[0xFF; 20]), Ok(-1));
    assert!(!is_shortest(&[]));
    assert!(!is_shortest(&[0xFF, 0x80]));
    assert_eq!(shortest(&[0, 0, 0x7F]), [0x7F]);
    assert_eq!(shortest(&[]), []);
    assert_eq!(
        compare_integers(&[0xFF, 0x80], &[0x00, 0x80]),
        Ok(Ordering::Less)
    );
    assert_eq!(
        compare_integers(&[0x00, 0x05], &[0x05]),
        Ok(Ordering::Equal)
    );
    assert_eq!(compare_integers(&[0x05], &[]), Err(IntegerError::Empty));
}

#[test]
fn identifiers_have_their_text() {
    for (arcs, text) in [
        (&[1, 2, 840, 113549][..], "1.2.840.113549"),
        (&[0], "0"),
        (&[2, u32::MAX], "2.4294967295"),
    ] {
        assert_eq!(dotted(arcs).as_deref(), Ok(text));
        assert_eq!(arcs_of_dotted(text).as_deref(), Ok(arcs));
    }
    assert_eq!(dotted(&[1, 40]), Err(IdentifierError::Arcs));
    assert_eq!(
        write_dotted(&[2, 5], &mut [0; 2]),
        Err(IdentifierError::Room)
    );
    assert_eq!(
        write_arcs_of_dotted("2.5", &mut [0]),
        Err(IdentifierError::Room)
    );
    for text in [
        "",
        "2.",
        ".2",
        "2..1",
        "3",
        "1.40",
        "2.01",
        "2.+1",
        "2.4294967296",
    ] {
        assert_eq!(arcs_of_dotted(text), Err(IdentifierError::Text), "{text}");
    }
}

#[test]
fn identifiers_have_their_contents() {
    assert_eq!(contents(&[2, 100, 3]), Ok(vec![0x81, 0x34, 0x03]));
    assert_eq!(
        contents(&[1, 2, 840, 113549]),
        Ok(vec![0x2A, 0x86, 0x48, 0x86, 0xF7, 0x0D])
    );
    assert_eq!(contents(&[1, 40]), Err(IdentifierError::Arcs));
    assert_eq!(contents(&[1]), Err(IdentifierError::ArcCount));
    assert_eq!(
        write_contents(&[2, 100, 3], &mut [0; 2]),
        Err(IdentifierError::Room)
    );
    assert_eq!(check_contents(&[0x81, 0x34, 0x03]), Ok(()));
    assert_eq!(
        check_contents(&[0x80, 0x01]),
        Err(IdentifierError::Malformed)
    );
    assert_eq!(
        check_contents(&[0x2A, 0x90, 0x80, 0x80, 0x80, 0x00]),
        Err(IdentifierError::ArcTooLarge)
    );
    assert_eq!(check_arcs(&[2, 999]), Ok(()));
    assert_eq!(check_arcs(&[3]), Err(IdentifierError::Arcs));

    assert_eq!(arcs(&[0x81, 0x34, 0x03]), Ok(vec![2, 100, 3]));
    assert_eq!(
        arcs(&[0x2A, 0x86, 0x48, 0x86, 0xF7, 0x0D]),
        Ok(vec![1, 2, 840, 113549])
    );
    assert_eq!(
        arcs(&[0x90, 0x80, 0x80, 0x80, 0x4F]),
        Ok(vec![2, 4294967295])
    );
    assert_eq!(
        arcs(&[0x90, 0x80, 0x80, 0x80, 0x50]),
        Err(IdentifierError::ArcTooLarge)
    );
    assert_eq!(arcs(&[0x2A, 0x86]), Err(IdentifierError::Malformed));
    assert_eq!(arcs(&[]), Err(IdentifierError::Malformed));
    assert_eq!(
        write_arcs(&[0x2A, 0x03], &mut [0; 2]),
        Err(IdentifierError::Room)
    );
}

#[test]
fn strings_and_alphabets() {
    assert_eq!(check_string(StringKind::Printable, b"Smith, J."), Ok(()));
    let wrong = StringError::Character {
        place: 1,
        character: b'*'.into(),
    };
    assert_eq!(check_string(StringKind::Printable, b"a*"), Err(wrong));
    assert_eq!(check_string(StringKind::Bmp, &[0, 65, 0xFF, 0xFD]), Ok(()));
    let wrong = StringError::Character {
        place: 1,
        character: 0xFFFE,
    };
    assert_eq!(
        check_string(StringKind::Bmp, &[0, 65, 0xFF, 0xFE]),
        Err(wrong)
    );
    assert_eq!(check_string(StringKind::Bmp, &[0]), Err(StringError::Odd));

    let letters = [97, 98];
    let two = Alphabet::new(StringKind::Ia5, Some(&letters), false).unwrap();
    assert_eq!(
        (two.width(), two.encode(98), two.decode(0)),
        (1, Ok(1), Ok(97))
    );
    assert_eq!(two.encode(99), Err(AlphabetError::Character(99)));
    let digits = Alphabet::new(StringKind::Numeric, None, false).unwrap();
    assert_eq!(
        (digits.width(), digits.encode(0x20), digits.decode(10)),
        (4, Ok(0), Ok(0x39))
    );
    assert_eq!(digits.decode(11), Err(AlphabetError::Code(11)));
    assert!(characters(StringKind::Bmp, &[0, 65, 4, 16])
        .unwrap()
        .eq([0x41, 0x410]));
}

#[test]
fn fields_are_written_read_and_refused() {
    let octets = [0xA5, 0xBC];
    let fields = [
        Field::Number { value: 5, width: 3 },
        Field::Octets(Bits::of(&octets)),
        Field::Bits(Bits::new(&[0x7C], 1, 5).unwrap()),
    ];
    let mut message = [0; 4];
    assert_eq!(write_fields(&mut message, 1, &fields), Ok(25));
    assert_eq!(message, [0x5A, 0x5B, 0xCF, 0x80]);
    let shapes = [
        Shape::Number { width: 3 },
        Shape::Octets { count: 2 },
        Shape::Bits { length: 5 },
    ];
    assert_eq!(read_fields(&message, 1, &shapes), Ok((fields.to_vec(), 25)));

    let short = ReadError::Short { field: 1, bits: 4 };
    assert_eq!(read_fields(&message, 17, &shapes), Err(short));
    assert_eq!(short.to_string(), "field 1: 4 bits short");
    let wide = [Shape::Bits { length: 0 }, Shape::Number { width: 129 }];
    assert_eq!(
        read_fields(&message, 0, &wide),
        Err(ReadError::NumberWidth {
            field: 1,
            width: 129
        })
    );
    assert_eq!(read_fields(&message, 33, &[]), Err(ReadError::Outside));

    let mut room = [0; 2];
    assert_eq!(write_fields(&mut room, 0, &fields), Err(WriteError::Room));
    let large = [
        Field::Number { value: 1, width: 1 },
        Field::Number { value: 8, width: 3 },
    ];
    assert_eq!(
        write_fields(&mut room, 0, &large),
        Err(WriteError::Number { field: 1 })
    );
    let seven = [Field::Octets(Bits::new(&[0], 0, 7).unwrap())];
    assert_eq!(
        write_fields(&mut room, 0, &seven),
        Err(WriteError::Length { field: 0 })
    );
    let long = [1; 128];
    let counted = [Field::CountedInteger(Integer::from_octets(&long).unwrap())];
    assert_eq!(
        write_fields(&mut room, 0, &counted),
        Err(WriteError::OctetCount { field: 0 })
    );
    let alphabet = Alphabet::new(StringKind::Numeric, None, false).unwrap();
    let letter = [Field::Character {
        character: 97,
        alphabet,
    }];
    assert_eq!(
        write_fields(&mut room, 0, &letter),
        Err(WriteError::Character {
            field: 0,
            character: 97
        })
    );
    assert_eq!(room, [0, 0]);
    let error: Box<dyn std::error::Error> = Box::new(WriteError::Room);
    assert_eq!(error.to_string(), "the room is too small");
}
