//! The values in messages: product codes, serial and batch numbers, dates, moments, markets and standings.

use crate::fault::ValueFault;
use std::hash::{Hash, Hasher};

/// Seconds of a day.
pub const DAY: u64 = 86_400;
/// The first second of the year 2100.
const END_OF_TIME: u64 = 4_102_444_800;
/// The days from 0000-03-01 to 1970-01-01.
const EPOCH: u32 = 719_468;
/// The bytes of the longest code.
pub const CODE_BYTES: usize = 20;
/// So many bytes of a code are looked at without a branch for each; those behind its text are no characters of codes.
pub const LOOKED_AT: usize = 32;
/// A window from the place on that is as many bytes before its middle as a code is long keeps these bytes of it alone.
#[cfg(feature = "one-pass")]
const KEPT: [u8; 2 * LOOKED_AT] = {
    let mut kept = [0; 2 * LOOKED_AT];
    let mut place = 0;
    while place < LOOKED_AT {
        kept[place] = 0xFF;
        place += 1;
    }
    kept
};

/// A product code: the number that its 14 digits write.
#[derive(Clone, Copy, PartialEq, Eq, PartialOrd, Ord, Hash)]
pub struct Gtin(u64);

/// A serial, batch or national number of 1 to 20 bytes, with zeros behind it.
#[derive(Clone, Copy, PartialEq, Eq, PartialOrd, Ord)]
pub struct Code([u8; CODE_BYTES]);

/// A date: a year of this century, a month and a day.
#[derive(Clone, Copy, PartialEq, Eq, Hash)]
pub struct Expiry {
    year: u8,
    month: u8,
    day: u8,
}

/// Two capital letters.
pub type Market = [u8; 2];

/// A pack, by its product code and its serial number.
#[derive(Clone, Copy, PartialEq, Eq, PartialOrd, Ord, Hash)]
pub struct PackKey {
    pub gtin: Gtin,
    pub serial: Code,
}

/// A batch, by its product code and its number.
#[derive(Clone, Copy, PartialEq, Eq, PartialOrd, Ord, Hash)]
pub struct BatchKey {
    pub gtin: Gtin,
    pub batch: Code,
}

/// How a pack stands.
#[derive(Clone, Copy, PartialEq, Eq)]
pub enum Standing {
    Active,
    Supplied,
    Exported,
    Destruction,
    Sample,
    FreeSample,
    Stolen,
    Repackaged,
}

impl Gtin {
    /// The product code that a text of 8, 12, 13 or 14 digits writes.
    pub fn read(text: &[u8]) -> Result<Gtin, ValueFault> {
        if let Ok(digits) = text.try_into() {
            return Gtin::of_digits(digits);
        }
        if !matches!(text.len(), 8 | 12 | 13) {
            return Err(ValueFault::GtinLength);
        }
        let mut digits = [b'0'; 14];
        digits[14 - text.len()..].copy_from_slice(text);
        Gtin::of_digits(&digits)
    }

    /// The product code of 14 digits. They are looked at eight at a time; two of the last eight are among the first.
    fn of_digits(digits: &[u8; 14]) -> Result<Gtin, ValueFault> {
        let zeros = EACH * u64::from(b'0');
        let first = eight(digits, 0) ^ zeros;
        let last = (eight(digits, 6) ^ zeros) & !0xFFFF;
        let above_nine = |digits: u64| (digits.wrapping_add(EACH * 0x76) | digits) & (EACH * 0x80);
        if above_nine(first) | above_nine(last) != 0 {
            return Err(ValueFault::GtinDigit);
        }
        if (weighted(first) + weighted(last)).is_multiple_of(10) {
            Ok(Gtin(decimal(first) * 1_000_000 + decimal(last)))
        } else {
            Err(ValueFault::GtinCheck)
        }
    }

    /// Its 14 digits.
    pub fn digits(self) -> [u8; 14] {
        let (mut digits, mut number) = ([0; 14], self.0);
        for digit in digits.iter_mut().rev() {
            *digit = b'0' + (number % 10) as u8;
            number /= 10;
        }
        digits
    }
}

/// A word whose bytes are all one.
const EACH: u64 = 0x0101_0101_0101_0101;

/// The eight bytes from a place on, the first of which is the lowest of the word.
fn eight(bytes: &[u8], place: usize) -> u64 {
    let mut word = [0; 8];
    word.copy_from_slice(&bytes[place..place + 8]);
    u64::from_le_bytes(word)
}

/// The number that eight digits write.
fn decimal(digits: u64) -> u64 {
    let pairs = digits * 10 + (digits >> 8);
    let pair = 0xFF_0000_00FF;
    ((pairs & pair)
        .wrapping_mul(0xF_4240_0000_0064)
        .wrapping_add(((pairs >> 16) & pair).wrapping_mul(0x2710_0000_0001)))
        >> 32
}

/// The sum of eight digits, of which the first, the third and so on count three times.
fn weighted(digits: u64) -> u64 {
    (((digits * 3 + (digits >> 8)) & 0xFF_00FF_00FF_00FF).wrapping_mul(0x1_0001_0001_0001)) >> 48
}

/// Whether a byte is one of the 82 characters of codes, without a branch.
fn is_code_character(byte: u8) -> bool {
    let is_in = |byte: u8, first: u8, count: u8| byte.wrapping_sub(first) < count;
    is_in(byte | 0x20, b'a', 26) | is_in(byte, b'%', 27) | is_in(byte, b'!', 2) | (byte == b'_')
}

/// The highest bits of some bytes of a word, the first of which is the first quote; zero where no byte is one.
fn quotes_in(word: u64) -> u64 {
    let word = word ^ (EACH * u64::from(b'"'));
    word.wrapping_sub(EACH) & !word & (EACH * 0x80)
}

impl Code {
    /// It comes before each code.
    pub const LEAST: Code = Code([0; CODE_BYTES]);

    /// The code that a text is.
    pub fn read(text: &[u8]) -> Result<Code, ValueFault> {
        if text.is_empty() {
            return Err(ValueFault::EmptyCode);
        }
        if text.len() > CODE_BYTES {
            return Err(ValueFault::LongCode);
        }
        let mut bytes = [0; LOOKED_AT];
        bytes[..text.len()].copy_from_slice(text);
        let legal: u8 = bytes.iter().map(|byte| u8::from(is_code_character(*byte))).sum();
        if usize::from(legal) < text.len() {
            let place = text.iter().take_while(|byte| is_code_character(**byte)).count();
            return Err(ValueFault::CodeCharacter(place + 1));
        }
        let mut code = Code::LEAST;
        code.0.copy_from_slice(&bytes[..CODE_BYTES]);
        Ok(code)
    }

    /// The code that stands in front of the first quote of some bytes of JSON, and its length. Where an escape stands there it is none.
    #[cfg(feature = "one-pass")]
    pub fn begin(window: &[u8; LOOKED_AT]) -> Option<(Code, usize)> {
        let place = [0, 8, 16].into_iter().find(|place| quotes_in(eight(window, *place)) != 0)?;
        let length = place + quotes_in(eight(window, place)).trailing_zeros() as usize / 8;
        if length == 0 || length > CODE_BYTES {
            return None;
        }
        let (mut bytes, mut wrong) = ([0; LOOKED_AT], 0);
        let kept: &[u8; LOOKED_AT] = KEPT[LOOKED_AT - length..].first_chunk()?;
        for (byte, (given, kept)) in bytes.iter_mut().zip(window.iter().zip(kept)) {
            *byte = given & kept;
            wrong |= kept & u8::from(is_code_character(*given)).wrapping_sub(1);
        }
        let mut code = Code::LEAST;
        code.0.copy_from_slice(&bytes[..CODE_BYTES]);
        (wrong == 0).then_some((code, length))
    }

    /// Its bytes, with zeros behind, and how many are its characters.
    pub fn bytes(&self) -> (&[u8; CODE_BYTES], usize) {
        let low = u128::from(eight(&self.0, 8)) << 64 | u128::from(eight(&self.0, 0));
        let high = (eight(&self.0, 12) >> 32) as u32;
        let zeros = if high == 0 { 4 + low.leading_zeros() / 8 } else { high.leading_zeros() / 8 };
        (&self.0, CODE_BYTES - zeros as usize)
    }

    /// Whether a quote is among them, the one that JSON spells otherwise.
    pub fn has_quote(&self) -> bool {
        [0, 8, 12].into_iter().fold(0, |quotes, place| quotes | quotes_in(eight(&self.0, place))) != 0
    }
}

impl Hash for Code {
    /// All codes have as many bytes, so these alone are hashed.
    fn hash<H: Hasher>(&self, state: &mut H) {
        state.write(&self.0);
    }
}

impl Expiry {
    /// The date that six digits YYMMDD write, the day 00 being the last of the month.
    pub fn read(text: &[u8]) -> Result<Expiry, ValueFault> {
        let digits: &[u8; 6] = text.try_into().map_err(|_| ValueFault::Expiry)?;
        if !digits.iter().all(u8::is_ascii_digit) {
            return Err(ValueFault::Expiry);
        }
        let two = |place: usize| (digits[place] - b'0') * 10 + digits[place + 1] - b'0';
        let (year, month, day) = (two(0), two(2), two(4));
        let last = match month {
            2 if year % 4 == 0 => 29,
            2 => 28,
            4 | 6 | 9 | 11 => 30,
            1..=12 => 31,
            _ => return Err(ValueFault::Expiry),
        };
        match day {
            0 => Ok(Expiry { year, month, day: last }),
            _ if day <= last => Ok(Expiry { year, month, day }),
            _ => Err(ValueFault::Expiry),
        }
    }

    /// Its six digits, YYMMDD.
    pub fn digits(self) -> [u8; 6] {
        let Expiry { year, month, day } = self;
        [year / 10, year % 10, month / 10, month % 10, day / 10, day % 10].map(|digit| b'0' + digit)
    }

    /// Whether it lies before the day of a moment.
    pub fn is_before(self, at: u64) -> bool {
        u64::from(self.day_number()) < at / DAY
    }

    /// The days from 1970-01-01 to the date.
    fn day_number(self) -> u32 {
        let (year, month, day) = (2000 + u32::from(self.year), u32::from(self.month), u32::from(self.day));
        // The year is counted from March on, so that a leap day is its last.
        let (year, month) = if month > 2 { (year, month - 3) } else { (year - 1, month + 9) };
        year * 365 + year / 4 - year / 100 + year / 400 + (153 * month + 2) / 5 + day - 1 - EPOCH
    }
}

/// Two capital letters.
pub fn read_market(text: &[u8]) -> Result<Market, ValueFault> {
    match Market::try_from(text) {
        Ok(letters) if letters.iter().all(u8::is_ascii_uppercase) => Ok(letters),
        _ => Err(ValueFault::Market),
    }
}

/// Seconds since 1970, before the year 2100.
pub fn read_moment(seconds: u64) -> Result<u64, ValueFault> {
    if seconds < END_OF_TIME {
        Ok(seconds)
    } else {
        Err(ValueFault::Moment)
    }
}

impl Standing {
    /// The standing of a name.
    pub fn read(text: &[u8]) -> Option<Standing> {
        Some(match text {
            b"active" => Standing::Active,
            b"supplied" => Standing::Supplied,
            b"exported" => Standing::Exported,
            b"destruction" => Standing::Destruction,
            b"sample" => Standing::Sample,
            b"free_sample" => Standing::FreeSample,
            b"stolen" => Standing::Stolen,
            b"repackaged" => Standing::Repackaged,
            _ => return None,
        })
    }

    /// Its name.
    pub fn name(self) -> &'static str {
        match self {
            Standing::Active => "active",
            Standing::Supplied => "supplied",
            Standing::Exported => "exported",
            Standing::Destruction => "destruction",
            Standing::Sample => "sample",
            Standing::FreeSample => "free_sample",
            Standing::Stolen => "stolen",
            Standing::Repackaged => "repackaged",
        }
    }

    /// Whether it is never reverted.
    pub fn is_for_ever(self) -> bool {
        matches!(self, Standing::Destruction | Standing::Stolen | Standing::Repackaged)
    }
}
