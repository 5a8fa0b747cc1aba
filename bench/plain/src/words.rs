//! Words of machine texts and traces: how numbers are read and written, and what the words of ids, tags and times mean.

/// Bits 0 to 5 of a tag: how many words the message has.
pub const COUNT_MASK: u64 = 0x3f;
/// Bits 6 to 11 of a tag, which are never set.
pub const TYPED_MASK: u64 = 0xfc0;
pub const PROPAGATED: u64 = 0x1000;
pub const REDIRECTED: u64 = 0x2000;
/// The message came from another processor.
pub const ACROSS: u64 = 0x4000;
pub const ERROR: u64 = 0x8000;
pub const LABEL_SHIFT: u32 = 16;

pub const NIL: u64 = 0;
pub const ANY: u64 = u64::MAX;
pub const ANY_LOCAL: u64 = u64::MAX ^ LOCAL_MASK;
/// An id with none of these bits is no global one.
const LOCAL_MASK: u64 = 0x3f;

/// The last value of a clock.
pub const LAST_CLOCK: u64 = (1 << 62) - 1;

/// How many bits a word has, and how many of those of a global id are its version.
#[derive(Clone, Copy)]
pub struct Format {
    pub bits: u32,
    version_bits: u32,
}

impl Format {
    pub const LONG: Format = Format { bits: 64, version_bits: 32 };
    pub const SHORT: Format = Format { bits: 32, version_bits: 14 };

    pub fn mask(self) -> u64 {
        u64::MAX >> (64 - self.bits)
    }

    fn number_mask(self) -> u64 {
        self.mask() >> self.version_bits
    }

    fn version_mask(self) -> u64 {
        (1 << self.version_bits) - 1
    }

    /// The id of a text in this format, by its word of 64 bits.
    pub fn id(self, word: &str) -> Option<u64> {
        match word {
            "nil" => return Some(NIL),
            "any" => return Some(ANY),
            "anylocal" => return Some(ANY_LOCAL),
            _ => {}
        }
        let Some(digits) = word.strip_prefix('#') else {
            return self.global(word);
        };
        if digits.len() != self.bits as usize / 4 {
            return None;
        }
        let value = hexadecimal(digits.as_bytes())?;
        Some(match value {
            _ if value == self.mask() => ANY,
            _ if value == self.mask() ^ LOCAL_MASK => ANY_LOCAL,
            _ if value & LOCAL_MASK == 0 => value,
            _ => global_id(value >> self.version_bits, value & self.version_mask()),
        })
    }

    /// A global id `N.V` of this format.
    pub fn global(self, word: &str) -> Option<u64> {
        let (number, version) = word.split_once('.')?;
        let (number, version) = (decimal(number.as_bytes())?, decimal(version.as_bytes())?);
        let is_in_range = number <= self.number_mask() && version <= self.version_mask();
        let is_any = number == self.number_mask() && version == self.version_mask();
        (is_in_range && !is_any && version & LOCAL_MASK != 0).then(|| global_id(number, version))
    }
}

pub fn global_id(number: u64, version: u64) -> u64 {
    number << 32 | version
}

pub fn is_global(id: u64) -> bool {
    id != ANY && id & LOCAL_MASK != 0
}

/// How long a time of 16 bits is, in microseconds. None is for ever.
pub fn period(time: u64) -> Option<u64> {
    (time != 0).then(|| (time & 0x3ff) << (time >> 10))
}

/// A decimal number without leading zeros, below 2^64.
pub fn decimal(digits: &[u8]) -> Option<u64> {
    if digits.is_empty() || digits[0] == b'0' && digits.len() > 1 {
        return None;
    }
    let mut value = 0u64;
    for digit in digits {
        let digit = digit.wrapping_sub(b'0');
        if digit > 9 {
            return None;
        }
        value = value.checked_mul(10)?.checked_add(digit.into())?;
    }
    Some(value)
}

/// 1 to 16 hexadecimal digits in lower case.
pub fn hexadecimal(digits: &[u8]) -> Option<u64> {
    if digits.is_empty() || digits.len() > 16 {
        return None;
    }
    let mut value = 0;
    for &digit in digits {
        value = value << 4 | hexadecimal_digit(digit)?;
    }
    Some(value)
}

pub fn hexadecimal_digit(digit: u8) -> Option<u64> {
    match digit {
        b'0'..=b'9' => Some((digit - b'0').into()),
        b'a'..=b'f' => Some((digit - b'a' + 10).into()),
        _ => None,
    }
}

pub fn push_decimal(out: &mut Vec<u8>, mut value: u64) {
    let mut digits = [0; 20];
    let mut first = digits.len();
    loop {
        first -= 1;
        digits[first] = b'0' + (value % 10) as u8;
        value /= 10;
        if value == 0 {
            break;
        }
    }
    out.extend_from_slice(&digits[first..]);
}

pub fn push_hexadecimal(out: &mut Vec<u8>, mut value: u64) {
    let mut digits = [0; 16];
    let mut first = digits.len();
    loop {
        first -= 1;
        digits[first] = b"0123456789abcdef"[value as usize & 0xf];
        value >>= 4;
        if value == 0 {
            break;
        }
    }
    out.extend_from_slice(&digits[first..]);
}

/// An id as traces and reports have it.
pub fn push_id(out: &mut Vec<u8>, id: u64) {
    match id {
        NIL => out.extend_from_slice(b"nil"),
        ANY => out.extend_from_slice(b"any"),
        ANY_LOCAL => out.extend_from_slice(b"anylocal"),
        _ if is_global(id) => {
            push_decimal(out, id >> 32);
            out.push(b'.');
            push_decimal(out, id & 0xffff_ffff);
        }
        _ => {
            out.push(b'#');
            push_hexadecimal(out, id);
        }
    }
}
