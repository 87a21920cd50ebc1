//! JSON (RFC 8259) as tokens.

use crate::support::{AllocError, Global, Vec};

/// A token. The text of a string has no escapes.
#[derive(Clone, Copy, Debug, PartialEq)]
pub enum Token<'a> {
    BeginObject,
    EndObject,
    BeginArray,
    EndArray,
    Key(&'a str),
    String(&'a str),
    Number(&'a str),
    Bool(bool),
    Null,
    /// From here on the text is no JSON.
    Bad,
}

/// Writes tokens as a text with a line for each member and item.
#[derive(Debug)]
pub struct Pretty {
    out: Vec<u8>,
    depth: usize,
    /// Whether the object or the array has no members yet.
    is_first: bool,
    is_after_key: bool,
}

impl Pretty {
    /// Returns what has written nothing.
    pub fn new(alloc: Global) -> Pretty {
        Pretty { out: Vec::new(alloc), depth: 0, is_first: true, is_after_key: false }
    }

    /// Returns the text.
    pub fn into_inner(self) -> Vec<u8> {
        self.out
    }

    /// Writes a token.
    pub fn token(&mut self, token: Token<'_>) -> Result<(), AllocError> {
        match token {
            Token::BeginObject => self.begin(b"{"),
            Token::BeginArray => self.begin(b"["),
            Token::EndObject => self.end(b"}"),
            Token::EndArray => self.end(b"]"),
            Token::Key(name) => {
                self.start()?;
                self.string(name)?;
                self.is_after_key = true;
                self.out.extend_from_slice(b": ")
            }
            Token::String(text) => {
                self.start()?;
                self.string(text)
            }
            Token::Number(text) => self.word(text),
            Token::Bool(true) => self.word("true"),
            Token::Bool(false) => self.word("false"),
            Token::Null => self.word("null"),
            Token::Bad => Ok(()),
        }
    }

    fn word(&mut self, text: &str) -> Result<(), AllocError> {
        self.start()?;
        self.out.extend_from_slice(text.as_bytes())
    }

    fn begin(&mut self, text: &[u8]) -> Result<(), AllocError> {
        self.start()?;
        self.depth += 1;
        self.is_first = true;
        self.out.extend_from_slice(text)
    }

    fn end(&mut self, text: &[u8]) -> Result<(), AllocError> {
        self.depth = self.depth.saturating_sub(1);
        if !self.is_first {
            self.line()?;
        }
        self.is_first = false;
        self.out.extend_from_slice(text)
    }

    /// Begins a member, an item, or the value of a member.
    fn start(&mut self) -> Result<(), AllocError> {
        if self.is_after_key {
            self.is_after_key = false;
            return Ok(());
        }
        if !self.is_first {
            self.out.push(b',')?;
        }
        self.is_first = false;
        if self.depth > 0 { self.line() } else { Ok(()) }
    }

    fn line(&mut self) -> Result<(), AllocError> {
        self.out.push(b'\n')?;
        let len = self.out.len() + 2 * self.depth;
        self.out.resize(len, b' ')
    }

    fn string(&mut self, text: &str) -> Result<(), AllocError> {
        self.out.push(b'"')?;
        let mut rest = text.as_bytes();
        while let Some(count) = rest.iter().position(|it| *it < 32 || *it == b'"' || *it == b'\\') {
            self.out.extend_from_slice(&rest[..count])?;
            self.escape(rest[count])?;
            rest = &rest[count + 1..];
        }
        self.out.extend_from_slice(rest)?;
        Ok(self.out.push(b'"')?)
    }

    fn escape(&mut self, octet: u8) -> Result<(), AllocError> {
        let letter = match octet {
            b'"' | b'\\' => octet,
            8 => b'b',
            9 => b't',
            10 => b'n',
            12 => b'f',
            13 => b'r',
            _ => {
                let digit = b"0123456789abcdef"[usize::from(octet % 16)];
                return self.out.extend_from_slice(&[b'\\', b'u', b'0', b'0', b'0' + octet / 16, digit]);
            }
        };
        self.out.extend_from_slice(&[b'\\', letter])
    }
}

/// Room for the strings of a text that have escapes.
#[derive(Debug)]
pub struct Scratch(Vec<u8>);

impl Scratch {
    /// Returns room that has nothing in it.
    pub fn new(alloc: Global) -> Scratch {
        Scratch(Vec::new(alloc))
    }
}

/// Reads tokens of a text.
#[derive(Debug)]
pub struct Reader<'a> {
    text: &'a str,
    at: usize,
    room: &'a mut [u8],
    /// Whether each object around is one; the others are arrays.
    around: Vec<bool>,
    expected: Expected,
}

/// What may be next.
#[derive(Clone, Copy, Debug, PartialEq)]
enum Expected {
    Value,
    /// A value, or the end of an array that has none.
    FirstItem,
    /// A name, or the end of an object that has none.
    FirstKey,
    /// A comma, or the end of what is around.
    More,
    /// Nothing.
    End,
}

impl<'a> Reader<'a> {
    /// Reads a text. `scratch` is room for its strings.
    pub fn new(text: &'a str, scratch: &'a mut Scratch) -> Result<Reader<'a>, AllocError> {
        scratch.0.clear();
        scratch.0.resize(text.len(), 0)?;
        let mut made = Reader { text, at: 0, room: &mut scratch.0, around: Vec::new(Global), expected: Expected::Value };
        made.skip();
        Ok(made)
    }

    /// Returns the index of the octet at which the next token begins.
    pub fn offset(&self) -> usize {
        self.at
    }

    /// Returns the next token. `None` at the end of a text.
    #[allow(clippy::should_implement_trait)]
    pub fn next(&mut self) -> Option<Token<'a>> {
        if self.expected == Expected::End && self.at == self.text.len() {
            return None;
        }
        let token = self.read().unwrap_or(Token::Bad);
        if token == Token::Bad {
            (self.expected, self.at) = (Expected::End, self.text.len());
            return Some(token);
        }
        self.skip();
        Some(token)
    }

    fn peek(&self) -> Option<u8> {
        self.text.as_bytes().get(self.at).copied()
    }

    fn skip(&mut self) {
        while matches!(self.peek(), Some(b' ' | b'\t' | b'\n' | b'\r')) {
            self.at += 1;
        }
    }

    /// Reads an octet, if it is the next one.
    fn takes(&mut self, octet: u8) -> bool {
        let is_next = self.peek() == Some(octet);
        self.at += usize::from(is_next);
        is_next
    }

    fn read(&mut self) -> Option<Token<'a>> {
        let is_object = self.around.last() == Some(&true);
        match self.expected {
            Expected::End => None,
            Expected::Value => self.value(),
            Expected::FirstItem => if self.peek() == Some(b']') { self.close() } else { self.value() },
            Expected::FirstKey => if self.peek() == Some(b'}') { self.close() } else { self.key() },
            Expected::More => {
                if !self.takes(b',') {
                    return self.close();
                }
                self.skip();
                if is_object { self.key() } else { self.value() }
            }
        }
    }

    fn close(&mut self) -> Option<Token<'a>> {
        let is_object = self.around.pop()?;
        if !self.takes(if is_object { b'}' } else { b']' }) {
            return None;
        }
        self.after();
        Some(if is_object { Token::EndObject } else { Token::EndArray })
    }

    fn after(&mut self) {
        self.expected = if self.around.is_empty() { Expected::End } else { Expected::More };
    }

    fn open(&mut self, is_object: bool) -> Option<()> {
        self.at += 1;
        self.expected = if is_object { Expected::FirstKey } else { Expected::FirstItem };
        self.around.push(is_object).ok()
    }

    fn key(&mut self) -> Option<Token<'a>> {
        let name = self.string()?;
        self.skip();
        self.expected = Expected::Value;
        if self.takes(b':') { Some(Token::Key(name)) } else { None }
    }

    fn value(&mut self) -> Option<Token<'a>> {
        match self.peek()? {
            b'{' => self.open(true).map(|()| Token::BeginObject),
            b'[' => self.open(false).map(|()| Token::BeginArray),
            b'"' => {
                let text = self.string()?;
                self.after();
                Some(Token::String(text))
            }
            b'-' | b'0'..=b'9' => {
                let end = number_end(self.text.as_bytes(), self.at)?;
                let text = &self.text[self.at..end];
                self.at = end;
                self.after();
                Some(Token::Number(text))
            }
            _ => self.literal(),
        }
    }

    fn literal(&mut self) -> Option<Token<'a>> {
        for (text, token) in [("true", Token::Bool(true)), ("false", Token::Bool(false)), ("null", Token::Null)] {
            if self.text[self.at..].starts_with(text) {
                self.at += text.len();
                self.after();
                return Some(token);
            }
        }
        None
    }

    /// Reads a string. Its text without escapes takes the beginning of the room, which is never shorter
    /// than what is left of the text.
    fn string(&mut self) -> Option<&'a str> {
        if !self.takes(b'"') {
            return None;
        }
        let room = core::mem::take(&mut self.room);
        let mut count = 0;
        loop {
            let rest = &self.text.as_bytes()[self.at..];
            let plain = rest.iter().position(|it| *it < 32 || *it == b'"' || *it == b'\\')?;
            room[count..count + plain].copy_from_slice(&rest[..plain]);
            count += plain;
            self.at += plain + 1;
            match rest[plain] {
                b'"' => break,
                b'\\' => count += self.escape()?.encode_utf8(&mut room[count..]).len(),
                _ => return None,
            }
        }
        let (text, left) = room.split_at_mut(count);
        self.room = left;
        str::from_utf8(text).ok()
    }

    fn escape(&mut self) -> Option<char> {
        let octet = self.peek()?;
        self.at += 1;
        Some(match octet {
            b'"' | b'\\' | b'/' => char::from(octet),
            b'b' => '\u{8}',
            b'f' => '\u{c}',
            b'n' => '\n',
            b'r' => '\r',
            b't' => '\t',
            b'u' => return self.unicode(),
            _ => return None,
        })
    }

    fn unicode(&mut self) -> Option<char> {
        let first = self.unit()?;
        if !(0xD800..0xDC00).contains(&first) {
            return char::from_u32(first);
        }
        if !(self.takes(b'\\') && self.takes(b'u')) {
            return None;
        }
        let second = self.unit()?;
        if !(0xDC00..0xE000).contains(&second) {
            return None;
        }
        char::from_u32(0x10000 + ((first - 0xD800) << 10) + (second - 0xDC00))
    }

    fn unit(&mut self) -> Option<u32> {
        let digits = self.text.as_bytes().get(self.at..self.at + 4)?;
        self.at += 4;
        digits.iter().try_fold(0, |sum, it| Some(16 * sum + char::from(*it).to_digit(16)?))
    }
}

/// Returns the index after the digits that begin at an index. `None` if there are none.
fn digits_end(text: &[u8], at: usize) -> Option<usize> {
    let count = text[at..].iter().take_while(|it| it.is_ascii_digit()).count();
    if count == 0 { None } else { Some(at + count) }
}

/// Returns the index after the number that begins at an index.
fn number_end(text: &[u8], at: usize) -> Option<usize> {
    let at = at + usize::from(text.get(at) == Some(&b'-'));
    let mut end = if text.get(at) == Some(&b'0') { at + 1 } else { digits_end(text, at.min(text.len()))? };
    if text.get(end) == Some(&b'.') {
        end = digits_end(text, end + 1)?;
    }
    if matches!(text.get(end), Some(b'e' | b'E')) {
        let is_signed = matches!(text.get(end + 1), Some(b'+' | b'-'));
        end = digits_end(text, (end + 1 + usize::from(is_signed)).min(text.len()))?;
    }
    Some(end)
}

/// Returns whether a text is a number.
pub fn is_number(text: &str) -> bool {
    number_end(text.as_bytes(), 0) == Some(text.len())
}
