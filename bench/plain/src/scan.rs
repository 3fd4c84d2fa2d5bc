//! Reads JSON in one pass over its bytes. What is wrong, or written in a way that is not looked for, is none.

use crate::values::{read_moment, Code, Expiry, Gtin, Standing, LOOKED_AT};
use std::borrow::Cow;

/// The bytes that are still to be read.
pub struct Scanner<'a>(&'a [u8]);

/// The bytes of a text, between its quotes: as they stand there, or behind its escapes.
type Text<'a> = Cow<'a, [u8]>;

impl<'a> Scanner<'a> {
    /// What the whole of a line is to a reader.
    pub fn read<T>(line: &'a [u8], read: impl FnOnce(&mut Self) -> Option<T>) -> Option<T> {
        let mut scanner = Scanner(line);
        let value = read(&mut scanner)?;
        scanner.pass_blanks();
        scanner.0.is_empty().then_some(value)
    }

    fn pass_blanks(&mut self) {
        while let [b' ' | b'\t' | b'\n' | b'\r', rest @ ..] = self.0 {
            self.0 = rest;
        }
    }

    /// The next byte that is no blank.
    fn mark(&mut self) -> Option<u8> {
        self.pass_blanks();
        let (mark, rest) = self.0.split_first()?;
        self.0 = rest;
        Some(*mark)
    }

    /// The next byte that is no blank has to be this one.
    fn expect(&mut self, expected: u8) -> Option<()> {
        (self.mark()? == expected).then_some(())
    }

    /// A word that stands for a value.
    fn word<T>(&mut self, word: &[u8], value: T) -> Option<T> {
        self.0 = self.0.strip_prefix(word)?;
        Some(value)
    }

    /// Whether another member stands behind one, or the end by this mark.
    fn has_more(&mut self, close: u8) -> Option<bool> {
        match self.mark()? {
            b',' => Some(true),
            mark if mark == close => Some(false),
            _ => None,
        }
    }

    /// An object that has fields, each of which is taken by its key, which has no escapes.
    pub fn object(&mut self, mut take: impl FnMut(&mut Self, &[u8]) -> Option<()>) -> Option<()> {
        self.expect(b'{')?;
        loop {
            self.expect(b'"')?;
            let length = plain_length(self.0);
            let (key, rest) = self.0.split_at(length);
            self.0 = rest.strip_prefix(b"\"")?;
            self.expect(b':')?;
            self.pass_blanks();
            take(self, key)?;
            if !self.has_more(b'}')? {
                return Some(());
            }
        }
    }

    /// A list of one to so many values.
    pub fn list<T>(&mut self, most: usize, read: impl Fn(&mut Self) -> Option<T>) -> Option<Box<[T]>> {
        self.expect(b'[')?;
        let mut list = Vec::with_capacity(most);
        loop {
            self.pass_blanks();
            if list.len() == most {
                return None;
            }
            list.push(read(self)?);
            if !self.has_more(b']')? {
                return Some(list.into_boxed_slice());
            }
        }
    }

    /// Any value, or null for none.
    pub fn or_null<T>(&mut self, read: impl FnOnce(&mut Self) -> Option<T>) -> Option<Option<T>> {
        match self.0.first() {
            Some(b'n') => self.word(b"null", None),
            _ => read(self).map(Some),
        }
    }

    /// True or false.
    pub fn truth(&mut self) -> Option<bool> {
        match self.0.first() {
            Some(b't') => self.word(b"true", true),
            _ => self.word(b"false", false),
        }
    }

    /// A whole number of at most 19 digits, as many as 64 bits take whatever they are.
    pub fn whole(&mut self) -> Option<u64> {
        let (mut number, mut count) = (0_u64, 0);
        while let Some(digit) = self.0.get(count).map(|byte| byte.wrapping_sub(b'0')).filter(|digit| *digit < 10) {
            number = number.wrapping_mul(10).wrapping_add(u64::from(digit));
            count += 1;
        }
        let (digits, rest) = self.0.split_at(count);
        if !matches!(digits, [b'0'] | [b'1'..=b'9', ..]) || count > 19 || matches!(rest, [b'.' | b'e' | b'E', ..]) {
            return None;
        }
        self.0 = rest;
        Some(number)
    }

    /// A whole number of 32 bits.
    pub fn number(&mut self) -> Option<u32> {
        self.whole()?.try_into().ok()
    }

    /// Seconds since 1970.
    pub fn moment(&mut self) -> Option<u64> {
        read_moment(self.whole()?).ok()
    }

    /// Any text. One with escapes is left to `serde_json`, and where it is not UTF-8 that is not told.
    pub fn text(&mut self) -> Option<Text<'a>> {
        let quoted = self.0;
        self.word(b"\"", ())?;
        let length = plain_length(self.0);
        let (text, rest) = self.0.split_at(length);
        if let Some(rest) = rest.strip_prefix(b"\"") {
            self.0 = rest;
            return Some(Cow::Borrowed(text));
        }
        let mut texts = serde_json::Deserializer::from_slice(quoted).into_iter::<String>();
        let text = texts.next()?.ok()?;
        self.0 = &quoted[texts.byte_offset()..];
        Some(Cow::Owned(text.into_bytes()))
    }

    /// A text of 1 to 200 bytes.
    pub fn free_text(&mut self) -> Option<Box<str>> {
        let text = self.text()?;
        if !(1..=200).contains(&text.len()) {
            return None;
        }
        std::str::from_utf8(&text).ok().map(Box::from)
    }

    /// A product code.
    pub fn gtin(&mut self) -> Option<Gtin> {
        Gtin::read(&self.text()?).ok()
    }

    /// A serial or batch number.
    pub fn code(&mut self) -> Option<Code> {
        let text = self.0.strip_prefix(b"\"")?;
        let begun = match text.first_chunk() {
            Some(window) => Code::begin(window),
            None => {
                let mut window = [0; LOOKED_AT];
                window[..text.len()].copy_from_slice(text);
                Code::begin(&window)
            }
        };
        if let Some((code, length)) = begun {
            self.0 = &text[length + 1..];
            return Some(code);
        }
        Code::read(&self.text()?).ok()
    }

    /// A date.
    pub fn expiry(&mut self) -> Option<Expiry> {
        Expiry::read(&self.text()?).ok()
    }

    /// One of the eight standings.
    pub fn standing(&mut self) -> Option<Standing> {
        Standing::read(&self.text()?)
    }
}

/// How many bytes stand before the first quote, backslash or control character; all where there is none. They are looked at eight at a time.
fn plain_length(bytes: &[u8]) -> usize {
    let mut length = 0;
    while let Some(eight) = bytes[length..].first_chunk() {
        let stops = stops_in(u64::from_le_bytes(*eight));
        if stops != 0 {
            return length + stops.trailing_zeros() as usize / 8;
        }
        length += 8;
    }
    let is_plain = |byte: &&u8| !matches!(byte, b'"' | b'\\' | ..=0x1F);
    length + bytes[length..].iter().take_while(is_plain).count()
}

/// The highest bit of the first byte that is a quote, a backslash or a control character, and some of those behind it.
fn stops_in(word: u64) -> u64 {
    const EACH: u64 = 0x0101_0101_0101_0101;
    let is_below = |word: u64, limit: u64| word.wrapping_sub(EACH * limit) & !word;
    let is = |byte: u8| is_below(word ^ (EACH * u64::from(byte)), 1);
    (is_below(word, 0x20) | is(b'"') | is(b'\\')) & (EACH * 0x80)
}
