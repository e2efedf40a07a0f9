//! Lists as JSON (document 02, request 11): values written as a text of RFC 8259, and read from one.

use crate::answer::{packed, NodeRefusal};
use crate::value::{wide, EMPTY, FALSE, FRONT, LARGEST_NUMBER, LONGEST, NUMBER, PAIR, TRUE, WIDE};
use crate::{one_value, Refusal, JSON_OUT, VALUE_OUT};

/// Arrays and objects nest at most so deep.
const DEEPEST: usize = 48;

/// Writes a value as JSON, at the front of `out`, without white space.
pub fn to_json(value: &[u8], out: &mut [u8]) -> u64 {
    packed(written(value, out))
}

fn written(value: &[u8], out: &mut [u8]) -> Result<usize, NodeRefusal> {
    if out.len() < JSON_OUT {
        return Err(1.into());
    }
    one_value(value)?;
    let mut text = Vec::with_capacity(JSON_OUT);
    write(value, 0, &mut text)?;
    out[..text.len()].copy_from_slice(&text);
    Ok(text.len())
}

/// Writes the value that `bytes` begin with, within so many arrays and objects: what is behind it.
fn write<'b>(bytes: &'b [u8], depth: usize, text: &mut Vec<u8>) -> Result<&'b [u8], Refusal> {
    let (&kind, mut rest) = bytes.split_first().expect("the value was judged");
    match kind {
        FALSE => text.extend(b"false"),
        TRUE => text.extend(b"true"),
        NUMBER => {
            write_number(u16::from_be_bytes([rest[0], rest[1]]).into(), text);
            rest = &rest[2..];
        }
        WIDE => {
            write_number(wide(rest), text);
            rest = &rest[4..];
        }
        _ if depth == DEEPEST => return Err(71),
        PAIR => {
            text.extend(b"{\"a\":");
            rest = write(rest, depth + 1, text)?;
            text.extend(b",\"b\":");
            rest = write(rest, depth + 1, text)?;
            text.push(b'}');
        }
        first => {
            let mut kind = first;
            let mut before = b'[';
            while kind == FRONT {
                text.push(before);
                before = b',';
                rest = write(rest, depth + 1, text)?;
                kind = rest[0];
                rest = &rest[1..];
            }
            text.extend(if first == EMPTY { &b"[]"[..] } else { b"]" });
        }
    }
    Ok(rest)
}

fn write_number(number: u32, text: &mut Vec<u8>) {
    // From the last digit to the first.
    let mut digits = [0; 10];
    let mut start = digits.len();
    let mut left = number;
    loop {
        start -= 1;
        digits[start] = b'0' + (left % 10) as u8;
        left /= 10;
        if left == 0 {
            break;
        }
    }
    text.extend(&digits[start..]);
}

/// Reads a value from JSON, at the front of `out`.
pub fn from_json(text: &[u8], out: &mut [u8]) -> u64 {
    packed(read(text, out))
}

fn read(text: &[u8], out: &mut [u8]) -> Result<usize, NodeRefusal> {
    if out.len() < VALUE_OUT {
        return Err(1.into());
    }
    let mut reader = Reader { text, at: 0, value: [0; LONGEST], length: 0 };
    reader.value(0)?;
    reader.skip_white_space();
    if reader.at < text.len() {
        return Err(70.into());
    }
    if reader.length > LONGEST {
        return Err(72.into());
    }
    out[..reader.length].copy_from_slice(&reader.value[..reader.length]);
    Ok(reader.length)
}

struct Reader<'t> {
    text: &'t [u8],
    /// What of the text was read.
    at: usize,
    /// The first bytes of the value.
    value: [u8; LONGEST],
    /// All its bytes, also those that are over 256.
    length: usize,
}

impl Reader<'_> {
    fn next(&self) -> Option<u8> {
        self.text.get(self.at).copied()
    }

    fn skip_white_space(&mut self) {
        while let Some(b' ' | b'\t' | b'\n' | b'\r') = self.next() {
            self.at += 1;
        }
    }

    /// Goes past these bytes, which are to stand here.
    fn expect(&mut self, bytes: &[u8]) -> Result<(), Refusal> {
        if !self.text[self.at..].starts_with(bytes) {
            return Err(70);
        }
        self.at += bytes.len();
        Ok(())
    }

    /// Goes past a token behind white space.
    fn token(&mut self, token: &[u8]) -> Result<(), Refusal> {
        self.skip_white_space();
        self.expect(token)
    }

    fn give(&mut self, bytes: &[u8]) {
        for &byte in bytes {
            if let Some(place) = self.value.get_mut(self.length) {
                *place = byte;
            }
            self.length += 1;
        }
    }

    /// Reads a value within so many arrays and objects.
    fn value(&mut self, depth: usize) -> Result<(), Refusal> {
        self.skip_white_space();
        match self.next().ok_or(70)? {
            b'f' => {
                self.expect(b"false")?;
                self.give(&[FALSE]);
            }
            b't' => {
                self.expect(b"true")?;
                self.give(&[TRUE]);
            }
            b'0'..=b'9' => self.number()?,
            b'[' | b'{' if depth == DEEPEST => return Err(71),
            b'[' => self.array(depth + 1)?,
            b'{' => self.object(depth + 1)?,
            _ => return Err(70),
        }
        Ok(())
    }

    fn number(&mut self) -> Result<(), Refusal> {
        let start = self.at;
        let mut number: u32 = 0;
        while let Some(digit @ b'0'..=b'9') = self.next() {
            // A digit behind a leading zero shows the fault, and one that makes the number too large.
            if number == 0 && self.at > start {
                return Err(70);
            }
            number = number.checked_mul(10).and_then(|tens| tens.checked_add((digit - b'0').into())).ok_or(70)?;
            self.at += 1;
        }
        let [a, b, c, d] = number.to_be_bytes();
        if number > LARGEST_NUMBER {
            self.give(&[WIDE, a, b, c, d]);
        } else {
            self.give(&[NUMBER, c, d]);
        }
        Ok(())
    }

    fn array(&mut self, depth: usize) -> Result<(), Refusal> {
        self.expect(b"[")?;
        self.skip_white_space();
        if self.next() == Some(b']') {
            self.at += 1;
            self.give(&[EMPTY]);
            return Ok(());
        }
        loop {
            self.give(&[FRONT]);
            self.value(depth)?;
            self.skip_white_space();
            match self.next().ok_or(70)? {
                b',' => self.at += 1,
                b']' => break,
                _ => return Err(70),
            }
        }
        self.at += 1;
        self.give(&[EMPTY]);
        Ok(())
    }

    fn object(&mut self, depth: usize) -> Result<(), Refusal> {
        self.expect(b"{")?;
        self.give(&[PAIR]);
        self.token(b"\"a\"")?;
        self.token(b":")?;
        self.value(depth)?;
        self.token(b",")?;
        self.token(b"\"b\"")?;
        self.token(b":")?;
        self.value(depth)?;
        self.token(b"}")
    }
}
