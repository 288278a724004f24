//! Numbers in and out of lines. Lines are bytes: nothing here asks for valid text.

/// The most digits that a number may have.
const MOST_DIGITS: usize = 20;

/// A number of 1 to 20 digits below 2^64. Leading zeros are digits like others.
pub fn number(field: &[u8]) -> Option<u64> {
    if field.is_empty() || field.len() > MOST_DIGITS {
        return None;
    }
    let mut value: u64 = 0;
    for &byte in field {
        if !byte.is_ascii_digit() {
            return None;
        }
        value = value.checked_mul(10)?.checked_add(u64::from(byte - b'0'))?;
    }
    Some(value)
}

/// The fields of a line, read one after the other.
pub struct Fields<'a> {
    /// What is not read yet; none once the last field is read.
    rest: Option<&'a [u8]>,
}

impl<'a> Fields<'a> {
    pub const fn new(line: &'a [u8]) -> Self {
        Self { rest: Some(line) }
    }

    /// The next field, which may be empty.
    pub fn next_field(&mut self) -> Option<&'a [u8]> {
        let rest = self.rest?;
        match rest.iter().position(|&byte| byte == b',') {
            Some(at) => {
                self.rest = Some(&rest[at + 1..]);
                Some(&rest[..at])
            }
            None => {
                self.rest = None;
                Some(rest)
            }
        }
    }

    pub fn next_u64(&mut self) -> Option<u64> {
        number(self.next_field()?)
    }

    pub fn next_u32(&mut self) -> Option<u32> {
        u32::try_from(self.next_u64()?).ok()
    }

    /// A number whose value is 0 or 1.
    pub fn next_flag(&mut self) -> Option<bool> {
        match self.next_u64()? {
            0 => Some(false),
            1 => Some(true),
            _ => None,
        }
    }

    /// A number, or "-" for none.
    pub fn next_or_none(&mut self) -> Option<Option<u64>> {
        match self.next_field()? {
            b"-" => Some(None),
            field => Some(Some(number(field)?)),
        }
    }

    /// `value` if every field has been read: a line with a field too many is malformed.
    pub fn finish<T>(self, value: T) -> Option<T> {
        self.rest.is_none().then_some(value)
    }

    pub const fn is_finished(&self) -> bool {
        self.rest.is_none()
    }
}

/// Appends a number in decimal.
pub fn push_number(out: &mut Vec<u8>, mut value: u64) {
    let mut digits = [0; MOST_DIGITS];
    let mut at = MOST_DIGITS;
    loop {
        at -= 1;
        digits[at] = b'0' + (value % 10) as u8;
        value /= 10;
        if value == 0 {
            break;
        }
    }
    out.extend_from_slice(&digits[at..]);
}

/// Appends a comma and a number.
pub fn push_field(out: &mut Vec<u8>, value: u64) {
    out.push(b',');
    push_number(out, value);
}

/// Appends a comma and a number, or "-" for none.
pub fn push_optional(out: &mut Vec<u8>, value: Option<u64>) {
    match value {
        Some(value) => push_field(out, value),
        None => out.extend_from_slice(b",-"),
    }
}
