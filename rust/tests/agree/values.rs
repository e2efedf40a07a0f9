//! Random values, and edits of values.

use crate::random::Random;

/// What a variable or node is meant to be. Nothing holds a sheet to it; it only lets walks go far.
#[derive(Clone, PartialEq, Debug)]
pub enum Type {
    Truth,
    /// A number that may be added to.
    Number,
    /// A number over 65,535.
    Price,
    List(Box<Type>),
    Pair(Box<Type>, Box<Type>),
}

impl Type {
    pub fn random(random: &mut Random, depth: usize) -> Type {
        match random.below(if depth == 0 { 4 } else { 8 }) {
            0 => Type::Truth,
            1 | 2 => Type::Number,
            3 => Type::Price,
            4..=6 => Type::List(Box::new(Type::random(random, depth - 1))),
            _ => Type::Pair(Box::new(Type::random(random, depth - 1)), Box::new(Type::random(random, depth - 1))),
        }
    }
}

/// A value as a tree.
#[derive(Clone, Debug)]
pub enum Value {
    Truth(bool),
    /// Of two bytes, or of four where it is over 65,535.
    Number(u32),
    List(Vec<Value>),
    Pair(Box<Value>, Box<Value>),
}

impl Value {
    pub fn random(random: &mut Random, ty: &Type) -> Value {
        match ty {
            Type::Truth => Value::Truth(random.percent(50)),
            Type::Number if random.percent(2) => Value::price(random),
            Type::Price if random.percent(96) => Value::price(random),
            Type::Number | Type::Price => Value::number(random),
            Type::List(member) => {
                let length = match random.below(40) {
                    0 => random.below(70),
                    1..=4 => random.below(16),
                    _ => random.below(5),
                };
                Value::List((0..length).map(|_| Value::random(random, member)).collect())
            }
            Type::Pair(left, right) => Value::Pair(Box::new(Value::random(random, left)), Box::new(Value::random(random, right))),
        }
    }

    /// A number of two bytes.
    pub fn number(random: &mut Random) -> Value {
        Value::Number(number(random).into())
    }

    /// A number of four bytes.
    pub fn price(random: &mut Random) -> Value {
        Value::Number(price(random))
    }

    /// A value of about 256 bytes, where the type has any.
    pub fn long(random: &mut Random, ty: &Type) -> Value {
        match ty {
            Type::List(member) => {
                let room = random.pick(&[60, 120, 200, 250, 255, 257]);
                let mut members = Vec::new();
                let mut length = 1;
                while length < room {
                    let member = Value::random(random, member);
                    length += 1 + member.bytes().len();
                    members.push(member);
                }
                if length > 256 && random.percent(80) {
                    members.pop();
                }
                Value::List(members)
            }
            _ => Value::random(random, ty),
        }
    }

    /// A value of any type.
    pub fn any(random: &mut Random) -> Value {
        let ty = Type::random(random, 2);
        Value::random(random, &ty)
    }

    /// The value that bytes known to be one encode.
    pub fn decode(bytes: &[u8]) -> Value {
        Value::take(&mut bytes.iter().copied())
    }

    /// The values that bytes known to be some encode, read from the front.
    pub fn decode_all(bytes: &[u8]) -> Vec<Value> {
        let mut bytes = bytes.iter().copied().peekable();
        std::iter::from_fn(|| bytes.peek().is_some().then(|| Value::take(&mut bytes))).collect()
    }

    fn take(bytes: &mut impl Iterator<Item = u8>) -> Value {
        match bytes.next().unwrap() {
            0x00 => Value::Truth(false),
            0x01 => Value::Truth(true),
            0x02 => Value::List(Vec::new()),
            0x03 => {
                let mut members = vec![Value::take(bytes)];
                while bytes.next().unwrap() == 0x03 {
                    members.push(Value::take(bytes));
                }
                Value::List(members)
            }
            0x04 => Value::Number(take_number(bytes, 2)),
            0x06 => Value::Number(take_number(bytes, 4)),
            _ => Value::Pair(Box::new(Value::take(bytes)), Box::new(Value::take(bytes))),
        }
    }

    pub fn encode(&self, bytes: &mut Vec<u8>) {
        match self {
            Value::Truth(truth) => bytes.push(u8::from(*truth)),
            Value::Number(number) => match u16::try_from(*number) {
                Ok(small) => {
                    bytes.push(0x04);
                    bytes.extend(small.to_be_bytes());
                }
                Err(_) => {
                    bytes.push(0x06);
                    bytes.extend(number.to_be_bytes());
                }
            },
            Value::List(members) => {
                for member in members {
                    bytes.push(0x03);
                    member.encode(bytes);
                }
                bytes.push(0x02);
            }
            Value::Pair(left, right) => {
                bytes.push(0x05);
                left.encode(bytes);
                right.encode(bytes);
            }
        }
    }

    pub fn bytes(&self) -> Vec<u8> {
        let mut bytes = Vec::new();
        self.encode(&mut bytes);
        bytes
    }

    /// Edits the value somewhere.
    pub fn edit(&mut self, random: &mut Random) {
        if random.percent(3) {
            *self = Value::any(random);
            return;
        }
        match self {
            Value::Truth(truth) => *truth = !*truth,
            Value::Number(number) => {
                *number = match random.below(3) {
                    0 => number.wrapping_add(1),
                    1 => number.wrapping_sub(1),
                    _ if *number > 65_535 => price(random),
                    _ => self::number(random).into(),
                }
            }
            Value::List(members) => edit_members(members, random),
            Value::Pair(left, right) => {
                if random.percent(50) {
                    left.edit(random);
                } else {
                    right.edit(random);
                }
            }
        }
    }
}

fn edit_members(members: &mut Vec<Value>, random: &mut Random) {
    if members.is_empty() {
        let make = if random.percent(20) { Value::price } else { Value::number };
        for _ in 0..random.of(1..4) {
            members.push(make(random));
        }
        return;
    }
    let at = random.below(members.len());
    match random.below(8) {
        0 => {
            members.pop();
        }
        1 => {
            members.remove(at);
        }
        2 => members.truncate(at),
        3 => members.push(members[at].clone()),
        4 => {
            let copy = random.below(members.len());
            members.insert(at, members[copy].clone());
        }
        _ => members[at].edit(random),
    }
}

/// A number of two bytes.
pub fn number(random: &mut Random) -> u16 {
    match random.below(8) {
        0 => random.next() as u16,
        1 => 65_535 - random.below(200) as u16,
        _ => random.below(12) as u16,
    }
}

/// A number over 65,535.
pub fn price(random: &mut Random) -> u32 {
    match random.below(8) {
        0 => 65_536.max(random.next() as u32),
        1 => u32::MAX - random.below(3) as u32,
        2 => 1 << random.of(16..32),
        3..=5 => 65_536 + random.below(4) as u32,
        _ => 100_000 * random.of(1..5) as u32,
    }
}

/// The bytes of a number read as its kind says, which are known to be there.
fn take_number(bytes: &mut impl Iterator<Item = u8>, width: usize) -> u32 {
    (0..width).fold(0, |number, _| number << 8 | u32::from(bytes.next().unwrap()))
}

/// Whether values, or what is left of some, have a number of four bytes.
pub fn has_price(bytes: &[u8]) -> bool {
    let mut left = bytes;
    while let Some((&kind, rest)) = left.split_first() {
        match kind {
            0x06 => return true,
            0x04 => left = rest.get(2..).unwrap_or(&[]),
            _ => left = rest,
        }
    }
    false
}

/// Damages bytes in one place.
pub fn damage(bytes: &mut Vec<u8>, random: &mut Random) {
    if bytes.is_empty() {
        bytes.push(random.byte() % 8);
        return;
    }
    let at = random.below(bytes.len());
    match random.below(14) {
        0 => bytes.truncate(at),
        1 => {
            bytes.pop();
        }
        2 => {
            bytes.remove(at);
        }
        3 => bytes.push(random.byte()),
        4 => bytes.insert(at, random.byte() % 8),
        5 => bytes[at] = random.byte(),
        6 => bytes[at] = random.byte() % 0x22,
        7 => bytes[at] = bytes[at].wrapping_add(1),
        8 => bytes[at] = bytes[at].wrapping_sub(1),
        9 => {
            let other = random.below(bytes.len());
            bytes.swap(at, other);
        }
        10 => {
            let end = bytes.len().min(at + random.of(1..9));
            let copy = bytes[at..end].to_vec();
            bytes.splice(at..at, copy);
        }
        11 => bytes[at] = random.byte() % 8,
        _ => damage_number(bytes, at, random),
    }
}

/// Damages the first number from a place on: one of two bytes gets two more, which are 0; one of four is cut, made small or of the other
/// kind.
fn damage_number(bytes: &mut Vec<u8>, at: usize, random: &mut Random) {
    let Some(own) = (at..bytes.len()).chain(0..at).find(|&own| matches!(bytes[own], 0x04 | 0x06)) else { return };
    if bytes[own] == 0x04 {
        bytes.splice(own..own + 1, [0x06, 0, 0]);
        return;
    }
    match random.below(4) {
        0 => bytes.truncate(own + random.of(1..5)),
        1 => bytes[own] = 0x04,
        _ => bytes.iter_mut().skip(own + 1).take(2).for_each(|byte| *byte = 0),
    }
}
