//! Sheets as text: the tokens of a text.

/// What a token is. Bytes that begin no token are signs that nothing expects.
#[derive(Clone, Copy, Debug, PartialEq, Eq)]
pub enum Kind {
    /// A letter or `_`, then letters, digits and `_`.
    Word,
    Digits,
    /// `->`
    Arrow,
    Sign(u8),
    /// Behind the last token.
    End,
}

#[derive(Clone, Copy, Debug)]
pub struct Token<'t> {
    pub kind: Kind,
    /// How many bytes of the text stand before it.
    pub place: usize,
    pub bytes: &'t [u8],
}

impl Token<'_> {
    pub fn end(&self) -> usize {
        self.place + self.bytes.len()
    }
}

/// Words of the language, which are no names.
const WORDS: [&[u8]; 13] =
    [b"plan", b"list", b"section", b"case", b"of", b"with", b"default", b"end", b"let", b"in", b"each", b"true", b"false"];

/// Whether a word may stand for a variable or a section.
pub fn is_name(word: &[u8]) -> bool {
    word != b"_" && !WORDS.contains(&word)
}

/// The tokens of a text, and one for its end.
pub fn tokens(text: &[u8]) -> Vec<Token<'_>> {
    let mut tokens = Vec::new();
    let mut place = 0;
    while let Some(&byte) = text.get(place) {
        let behind = &text[place..];
        let length_of = |within: fn(&u8) -> bool| behind.iter().take_while(|byte| within(byte)).count();
        let (kind, length) = match byte {
            b' ' | b'\t' | b'\n' | b'\r' => (None, 1),
            b'-' if behind.starts_with(b"--") => (None, length_of(|&byte| byte != b'\n')),
            b'-' if behind.starts_with(b"->") => (Some(Kind::Arrow), 2),
            b'0'..=b'9' => (Some(Kind::Digits), length_of(u8::is_ascii_digit)),
            _ if begins_word(byte) => (Some(Kind::Word), length_of(|&byte| begins_word(byte) || byte.is_ascii_digit())),
            _ => (Some(Kind::Sign(byte)), 1),
        };
        if let Some(kind) = kind {
            tokens.push(Token { kind, place, bytes: &behind[..length] });
        }
        place += length;
    }
    tokens.push(Token { kind: Kind::End, place, bytes: &[] });
    tokens
}

pub fn begins_word(byte: u8) -> bool {
    byte.is_ascii_alphabetic() || byte == b'_'
}
