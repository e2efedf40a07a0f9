//! Lists as JSON (request 11): archive and reference write and read alike, what is written reads back to the same value, and white space
//! between tokens changes nothing.

use crate::random::Random;
use crate::tools::{check_cases, out_len, Both};
use crate::values::{damage, number, price, Type, Value};
use lens::raw::{self, JSON_OUT, VALUE_OUT};

fn write(value: &[u8], out_len: usize, both: &mut Both) -> (u8, Vec<u8>) {
    let (answer, text) = both.call(out_len, |out| raw::to_json(value, out), |out| reference::to_json(value, out));
    (answer.number(), text)
}

fn read(text: &[u8], out_len: usize, both: &mut Both) -> (u8, Vec<u8>) {
    let (answer, value) = both.call(out_len, |out| raw::from_json(text, out), |out| reference::from_json(text, out));
    (answer.number(), value)
}

/// A value: any, a long one, or one that nests about as deep as it may.
fn value(random: &mut Random) -> Value {
    match random.below(10) {
        0..=2 => {
            let depth = random.of(44..51);
            let end = Value::any(random);
            (0..depth).fold(end, |inner, _| match random.below(3) {
                0 => Value::Pair(Box::new(inner), Box::new(Value::Truth(true))),
                1 => Value::Pair(Box::new(Value::number(random)), Box::new(inner)),
                _ => Value::List(vec![inner]),
            })
        }
        3 => {
            let member = Type::random(random, 1);
            Value::long(random, &Type::List(Box::new(member)))
        }
        _ => {
            let ty = Type::random(random, 3);
            Value::random(random, &ty)
        }
    }
}

#[derive(Debug)]
struct Written {
    value: Vec<u8>,
    out_len: usize,
}

fn to_be_written(random: &mut Random) -> Written {
    let mut value = value(random).bytes();
    if random.percent(25) {
        damage(&mut value, random);
    }
    Written { value, out_len: out_len(random, JSON_OUT) }
}

#[test]
fn values_written_as_json() {
    check_cases(&[0, 1, 30, 31, 32, 71], to_be_written, |Written { value, out_len }, both| {
        let (refusal, text) = write(value, *out_len, both);
        if refusal > 0 {
            return;
        }
        assert_eq!(read(&text, VALUE_OUT, both), (0, value.clone()));
        // White space between any two tokens, and at both ends.
        let in_token = |byte: u8| byte.is_ascii_alphanumeric() || byte == b'"';
        let spaced = |at: usize| [&text[..at], &b" \t\n\r"[at % 4..=at % 4], &text[at..]].concat();
        for at in 0..=text.len() {
            let between = at == 0 || at == text.len() || !in_token(text[at - 1]) || !in_token(text[at]);
            let (refusal, again) = read(&spaced(at), VALUE_OUT, both);
            assert!(if between { again == *value } else { refusal == 70 }, "white space at {at}");
        }
    });
}

/// Every prefix and a change of every byte is tried of a text with fewer bytes.
const SHORT: usize = 120;

#[derive(Debug)]
struct Read {
    text: Vec<u8>,
    /// The same with another byte in one place, one more, or none: of a short text in each place, of a long one in some and at its end.
    changed: Vec<Vec<u8>>,
    out_len: usize,
}

fn to_be_read(random: &mut Random) -> Read {
    let (value, mut text) = (value(random), Vec::new());
    tell(random, &value, &mut text);
    white_space(random, &mut text);
    let mut changed = Vec::new();
    if text.len() < SHORT {
        changed.extend((0..text.len()).map(|at| change(random, &text, at)));
    } else {
        for at in [text.len() - 1, random.below(text.len()), random.below(text.len()), random.below(text.len())] {
            changed.extend([text[..at].to_vec(), change(random, &text, at)]);
        }
        changed.push([&text[..], &[random.pick(b"],}[ 1\0")]].concat());
    }
    Read { text, changed, out_len: out_len(random, VALUE_OUT) }
}

/// Writes a value as a text with white space here and there, and numbers that are now and then no such numbers.
fn tell(random: &mut Random, value: &Value, text: &mut Vec<u8>) {
    white_space(random, text);
    match value {
        Value::Truth(truth) => text.extend(truth.to_string().as_bytes()),
        Value::Number(_) if random.percent(2) => text.extend(odd_number(random).as_bytes()),
        Value::Number(number) => text.extend(number.to_string().as_bytes()),
        Value::List(members) => {
            text.push(b'[');
            for (at, member) in members.iter().enumerate() {
                if at > 0 {
                    token(random, b",", text);
                }
                tell(random, member, text);
            }
            token(random, b"]", text);
        }
        Value::Pair(left, right) => {
            for (before, name, value) in [("{", "\"a\"", left), (",", "\"b\"", right)] {
                token(random, before.as_bytes(), text);
                token(random, name.as_bytes(), text);
                token(random, b":", text);
                tell(random, value, text);
            }
            token(random, b"}", text);
        }
    }
}

fn token(random: &mut Random, token: &[u8], text: &mut Vec<u8>) {
    white_space(random, text);
    text.extend(token);
}

fn white_space(random: &mut Random, text: &mut Vec<u8>) {
    while random.percent(8) {
        text.push(random.pick(b" \t\n\r"));
    }
}

/// A number about the limits, or written in another way.
fn odd_number(random: &mut Random) -> String {
    let number = if random.percent(50) { number(random).into() } else { price(random) };
    match random.below(6) {
        0 => format!("{}", 65_534 + random.below(4)),
        1 => format!("{}", 4_294_967_294 + random.below(4)),
        2 => format!("{number}{number}"),
        3 => format!("0{number}"),
        4 => format!("{}{number}", random.pick(&["-", "+", "0.", "1e", "."])),
        _ => format!("{number}{}", random.pick(&[".", ".0", "e1", "E", "x"])),
    }
}

/// A text with one byte changed, added or left out.
fn change(random: &mut Random, text: &[u8], at: usize) -> Vec<u8> {
    let byte = if random.percent(70) { random.pick(b"[]{},:\"ab019tfe- \x0C\0") } else { random.byte() };
    let mut changed = text.to_vec();
    match random.below(4) {
        0 => changed.insert(at, byte),
        1 => {
            changed.remove(at);
        }
        _ => changed[at] = byte,
    }
    changed
}

#[test]
fn values_read_from_json() {
    check_cases(&[0, 1, 70, 71, 72], to_be_read, |Read { text, changed, out_len }, both| {
        let (refusal, value) = read(text, *out_len, both);
        if refusal == 0 {
            let (refusal, written) = write(&value, JSON_OUT, both);
            assert_eq!((refusal, read(&written, VALUE_OUT, both)), (0, (0, value)));
        }
        let prefixes = if text.len() < SHORT { text.len() } else { 0 };
        for end in 0..prefixes {
            read(&text[..end], VALUE_OUT, both);
        }
        for text in changed {
            read(text, VALUE_OUT, both);
        }
    });
}
