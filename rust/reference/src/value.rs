//! Values and their bytes.

pub const FALSE: u8 = 0x00;
pub const TRUE: u8 = 0x01;
pub const EMPTY: u8 = 0x02;
pub const FRONT: u8 = 0x03;
pub const NUMBER: u8 = 0x04;
pub const PAIR: u8 = 0x05;
/// A number of four bytes.
pub const WIDE: u8 = 0x06;

/// The largest number of two bytes. A number of four is larger.
pub const LARGEST_NUMBER: u32 = 65_535;

/// The most bytes of a value.
pub const LONGEST: usize = 256;

/// Why bytes are no value.
pub enum Flaw {
    Malformed,
    TooLong,
}

/// The length of the value that `bytes` begin with.
pub fn read(bytes: &[u8]) -> Result<usize, Flaw> {
    // A stack of the values still to come; true where only a list will do. Each byte adds one at most.
    let mut owed = [false; LONGEST + 2];
    let mut owing = 1;
    let mut kind = FALSE;
    let mut body = 0;
    let mut at = 0;
    while owing > 0 || body > 0 {
        if at == bytes.len() {
            return Err(Flaw::Malformed);
        }
        if at == LONGEST {
            return Err(Flaw::TooLong);
        }
        let byte = bytes[at];
        at += 1;
        if body > 0 {
            body -= 1;
            if body == 0 && kind == WIDE && wide(&bytes[at - 4..]) <= LARGEST_NUMBER {
                return Err(Flaw::Malformed);
            }
            continue;
        }
        kind = byte;
        owing -= 1;
        let list_only = owed[owing];
        match kind {
            EMPTY => {}
            FRONT => {
                owed[owing] = true;
                owed[owing + 1] = false;
                owing += 2;
            }
            _ if list_only => return Err(Flaw::Malformed),
            FALSE | TRUE => {}
            NUMBER => body = 2,
            WIDE => body = 4,
            PAIR => {
                owed[owing] = false;
                owed[owing + 1] = false;
                owing += 2;
            }
            _ => return Err(Flaw::Malformed),
        }
    }
    Ok(at)
}

/// The length of the value that `bytes` begin with, where one is known to stand there.
pub fn skip(bytes: &[u8]) -> usize {
    let mut owing = 1;
    let mut at = 0;
    while owing > 0 {
        match bytes[at] {
            FRONT | PAIR => {
                owing += 1;
                at += 1;
            }
            NUMBER => {
                owing -= 1;
                at += 3;
            }
            WIDE => {
                owing -= 1;
                at += 5;
            }
            _ => {
                owing -= 1;
                at += 1;
            }
        }
    }
    at
}

/// The number of four bytes that `bytes` begin with.
pub fn wide(bytes: &[u8]) -> u32 {
    u32::from_be_bytes([bytes[0], bytes[1], bytes[2], bytes[3]])
}

pub fn is_list(bytes: &[u8]) -> bool {
    matches!(bytes[0], EMPTY | FRONT)
}

/// Whether test (exit condition) `test` says yes to a value.
pub fn passes(test: u8, value: &[u8]) -> bool {
    match test {
        0 => true,
        1 => value[0] == EMPTY,
        2 => value[0] == FRONT,
        3 => value[0] == FALSE,
        4 => value[0] == TRUE,
        5 => value[0] == FRONT && value[1 + skip(&value[1..])] == EMPTY,
        6 => value[0] == FRONT && value[1 + skip(&value[1..])] == FRONT,
        _ => unreachable!("the sheet's tests were judged"),
    }
}
