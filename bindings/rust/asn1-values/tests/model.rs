//! Ten thousand random messages of all seven kinds, written and read by this crate and by a simple model of fields as
//! lists of bits.

use asn1_values::*;

/// Pseudorandom numbers, the same in each run (xorshift).
struct Dice(u64);

impl Dice {
    fn next(&mut self) -> u64 {
        self.0 ^= self.0 << 13;
        self.0 ^= self.0 >> 7;
        self.0 ^= self.0 << 17;
        self.0
    }

    fn below(&mut self, n: usize) -> usize {
        (self.next() % n as u64) as usize
    }

    fn octets(&mut self, n: usize) -> Vec<u8> {
        (0..n).map(|_| self.next() as u8).collect()
    }
}

type List = Vec<bool>;

fn digits(value: u128, width: usize) -> List {
    (0..width).rev().map(|k| value >> k & 1 == 1).collect()
}

fn number(list: &[bool]) -> u128 {
    list.iter().fold(0, |n, bit| n * 2 + u128::from(*bit))
}

fn bits_of(octets: &[u8]) -> List {
    octets.iter().flat_map(|o| digits((*o).into(), 8)).collect()
}

fn octets_of(list: &[bool]) -> Vec<u8> {
    list.chunks(8)
        .map(|chunk| (number(chunk) << (8 - chunk.len())) as u8)
        .collect()
}

/// Returns whether octets are the shortest: their first nine bits are not all equal.
fn are_shortest(list: &[bool]) -> bool {
    list.len() == 8 || list.len() > 8 && list[..9].iter().any(|bit| *bit != list[0])
}

/// Returns the arcs of contents, or whether they are contents of larger arcs.
fn model_arcs(octets: &[u8]) -> Result<Vec<u32>, bool> {
    let mut numbers = vec![];
    let mut one: Option<u128> = None;
    for octet in octets {
        if one.is_none() && *octet == 0x80 {
            return Err(false);
        }
        let more = one.unwrap_or(0).min(1 << 100) * 128 + u128::from(octet & 0x7F);
        one = Some(more);
        if *octet < 128 {
            numbers.push(more);
            one = None;
        }
    }
    if one.is_some() || numbers.is_empty() {
        return Err(false);
    }
    let x = (numbers[0] / 40).min(2);
    let mut arcs = vec![x, numbers[0] - 40 * x];
    arcs.extend(&numbers[1..]);
    arcs.iter()
        .map(|arc| u32::try_from(*arc).map_err(|_| true))
        .collect()
}

const LETTERS: [u32; 5] = [97, 98, 100, 120, 122];

/// A message's part as the model knows it.
#[derive(Clone, Debug)]
enum Part {
    Number(u128, usize),
    Octets(Vec<u8>, usize, usize),
    Bits(Vec<u8>, usize, usize),
    Integer(Vec<u8>),
    Counted(Vec<u8>),
    Letter(usize),
    Digit(usize),
    Identifier(Vec<u8>),
}

fn shortest_octets(dice: &mut Dice, most: usize) -> Vec<u8> {
    loop {
        let count = 1 + dice.below(most);
        let octets = dice.octets(count);
        if are_shortest(&bits_of(&octets)) {
            return octets;
        }
    }
}

fn identifier_octets(dice: &mut Dice) -> Vec<u8> {
    loop {
        let count = 1 + dice.below(6);
        let octets = dice.octets(count);
        if model_arcs(&octets).is_ok() {
            return octets;
        }
    }
}

fn part(dice: &mut Dice) -> Part {
    match dice.below(8) {
        0 => {
            let width = dice.below(129);
            let wide = u128::from(dice.next()) << 64 | u128::from(dice.next());
            let value = if width == 0 { 0 } else { wide >> (128 - width) };
            Part::Number(value, width)
        }
        1 => {
            let length = 8 * dice.below(11);
            Part::Octets(dice.octets(12), dice.below(97 - length), length)
        }
        2 => {
            let length = dice.below(81);
            Part::Bits(dice.octets(12), dice.below(97 - length), length)
        }
        3 => Part::Integer(shortest_octets(dice, 20)),
        4 => Part::Counted(shortest_octets(dice, 20)),
        5 => Part::Letter(dice.below(5)),
        6 => Part::Digit(dice.below(11)),
        _ => Part::Identifier(identifier_octets(dice)),
    }
}

fn alphabets() -> (Alphabet<'static>, Alphabet<'static>) {
    let letters = Alphabet::new(StringKind::Ia5, Some(&LETTERS), false).unwrap();
    let digits = Alphabet::new(StringKind::Numeric, None, false).unwrap();
    (letters, digits)
}

/// Returns a character of `NumericString` by its index: the space is the first.
fn digit(place: usize) -> u32 {
    if place == 0 {
        32
    } else {
        47 + place as u32
    }
}

impl Part {
    fn field(&self) -> Field<'_, 'static> {
        let (letters, digits) = alphabets();
        match self {
            Part::Number(value, width) => Field::Number {
                value: *value,
                width: *width,
            },
            Part::Octets(octets, first, length) => {
                Field::Octets(Bits::new(octets, *first, *length).unwrap())
            }
            Part::Bits(octets, first, length) => {
                Field::Bits(Bits::new(octets, *first, *length).unwrap())
            }
            Part::Integer(octets) => Field::Integer(Integer::from_octets(octets).unwrap()),
            Part::Counted(octets) => Field::CountedInteger(Integer::from_octets(octets).unwrap()),
            Part::Letter(place) => Field::Character {
                character: LETTERS[*place],
                alphabet: letters,
            },
            Part::Digit(place) => Field::Character {
                character: digit(*place),
                alphabet: digits,
            },
            Part::Identifier(octets) => Field::Identifier(Identifier::new(octets).unwrap()),
        }
    }

    fn list(&self) -> List {
        match self {
            Part::Number(value, width) => digits(*value, *width),
            Part::Octets(octets, first, length) | Part::Bits(octets, first, length) => {
                bits_of(octets)[*first..first + length].to_vec()
            }
            Part::Integer(octets) | Part::Identifier(octets) => bits_of(octets),
            Part::Counted(octets) => {
                let mut list = digits(octets.len() as u128, 8);
                list.extend(bits_of(octets));
                list
            }
            // Codes of five letters have three bits, by index, since 122 does not fit three bits; codes of eleven
            // characters have four.
            Part::Letter(place) => digits(*place as u128, 3),
            Part::Digit(place) => digits(*place as u128, 4),
        }
    }

    /// Returns how many bits the model reads for the same shape, or its error.
    fn read(&self, i: usize, left: &[bool]) -> Result<usize, ReadError> {
        let short = |need: usize| ReadError::Short {
            field: i,
            bits: (need - left.len()) as u128,
        };
        let need = match self {
            Part::Counted(_) if left.len() < 8 => 8,
            Part::Counted(_) => {
                let octet = number(&left[..8]) as u8;
                if octet == 0 || octet > 127 {
                    return Err(ReadError::OctetCount { field: i, octet });
                }
                8 + 8 * usize::from(octet)
            }
            _ => self.list().len(),
        };
        if left.len() < need {
            return Err(short(need));
        }
        let front = &left[..need];
        let code = number(&front[..need.min(32)]) as u32;
        match self {
            Part::Integer(_) if !are_shortest(front) => Err(ReadError::Integer { field: i }),
            Part::Counted(_) if !are_shortest(&front[8..]) => Err(ReadError::Integer { field: i }),
            Part::Letter(_) if code > 4 => Err(ReadError::Character { field: i, code }),
            Part::Digit(_) if code > 10 => Err(ReadError::Character { field: i, code }),
            Part::Identifier(_) => match model_arcs(&octets_of(front)) {
                Ok(_) => Ok(need),
                Err(true) => Err(ReadError::Arc { field: i }),
                Err(false) => Err(ReadError::Identifier { field: i }),
            },
            _ => Ok(need),
        }
    }
}

/// Compares a field that was read with its bits.
fn same(field: &Field<'_, '_>, cut: &[bool]) {
    let shortest = |number: &Integer<'_>| {
        let mut room = [0; 127];
        number.octets(&mut room).unwrap().to_vec()
    };
    match field {
        Field::Number { value, width } => assert_eq!((*value, *width), (number(cut), cut.len())),
        Field::Octets(bits) | Field::Bits(bits) => {
            let first = bits.first();
            assert_eq!(bits_of(bits.storage())[first..first + bits.len()], *cut);
        }
        Field::Integer(n) => {
            assert_eq!(shortest(n), octets_of(cut));
            if cut.len() <= 128 {
                let sign = if cut[0] { u128::MAX } else { 0 };
                let value = cut.iter().fold(sign, |v, b| v << 1 | u128::from(*b));
                assert_eq!(n.value(), Some(value as i128));
            } else {
                assert_eq!(n.value(), None);
            }
        }
        Field::CountedInteger(n) => assert_eq!(shortest(n), octets_of(&cut[8..])),
        Field::Character { character, .. } => {
            let place = number(cut) as usize;
            let known = if cut.len() == 3 {
                LETTERS[place]
            } else {
                digit(place)
            };
            assert_eq!(*character, known);
        }
        Field::Identifier(identifier) => {
            let arcs = model_arcs(&octets_of(cut)).unwrap();
            assert!(identifier.arcs().eq(arcs));
        }
    }
}

/// Returns whether the list was written and the rest is unchanged, or everything is unchanged.
fn written_as_the_model(dice: &mut Dice, parts: &[Part], position: usize, room: usize) -> bool {
    let fields: Vec<Field<'_, '_>> = parts.iter().map(Part::field).collect();
    let list: List = parts.iter().flat_map(Part::list).collect();
    let before = dice.octets(room);
    let mut octets = before.clone();
    let written = write_fields(&mut octets, position, &fields);
    if position + list.len() > 8 * room {
        assert_eq!(written, Err(WriteError::Room));
        assert_eq!(octets, before);
        return false;
    }
    let mut model = bits_of(&before);
    model[position..position + list.len()].copy_from_slice(&list);
    assert_eq!(written, Ok(position + list.len()));
    assert_eq!(octets, octets_of(&model));
    let shapes: Vec<Shape<'_>> = fields.iter().map(Field::shape).collect();
    let read = read_fields(&octets, position, &shapes);
    assert_eq!(read, Ok((fields, position + list.len())));
    true
}

/// Reads at any bit what the model reads, or the first invalid field.
fn read_as_the_model(message: &[u8], parts: &[Part], position: usize) -> bool {
    let all = bits_of(message);
    let fields: Vec<Field<'_, '_>> = parts.iter().map(Part::field).collect();
    let shapes: Vec<Shape<'_>> = fields.iter().map(Field::shape).collect();
    let read = read_fields(message, position, &shapes);
    if position > all.len() {
        assert_eq!(read, Err(ReadError::Outside));
        return false;
    }
    let mut at = position;
    let mut places = vec![];
    for (i, part) in parts.iter().enumerate() {
        match part.read(i, &all[at..]) {
            Ok(taken) => {
                places.push((at, at + taken));
                at += taken;
            }
            Err(error) => {
                assert_eq!(read, Err(error));
                return false;
            }
        }
    }
    let (found, end) = read.unwrap();
    assert_eq!((found.len(), end), (places.len(), at));
    for (field, (from, to)) in found.iter().zip(places) {
        same(field, &all[from..to]);
    }
    true
}

#[test]
fn ten_thousand_messages_are_as_the_model_says() {
    let mut dice = Dice(0x9E37_79B9_7F4A_7C15);
    let mut refused = [0; 3];
    for _ in 0..10_000 {
        let parts: Vec<Part> = (0..dice.below(8)).map(|_| part(&mut dice)).collect();
        let position = dice.below(40);
        let room = dice.below(120);
        refused[0] += usize::from(!written_as_the_model(&mut dice, &parts, position, room));
        let message = dice.octets(room);
        refused[1] += usize::from(!read_as_the_model(&message, &parts, position));

        // A message of the parts, of which one bit may be turned.
        let list: List = parts.iter().flat_map(Part::list).collect();
        let mut bits = vec![false; position];
        bits.extend(&list);
        if !list.is_empty() && dice.below(2) == 0 {
            let i = position + dice.below(list.len());
            bits[i] = !bits[i];
        }
        refused[2] += usize::from(!read_as_the_model(&octets_of(&bits), &parts, position));
    }
    assert!(
        refused.iter().all(|n| *n > 100 && *n < 9_000),
        "{refused:?}"
    );
}
