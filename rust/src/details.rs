//! What is said about the faults of a text: the sentences of `tables/details.txt`, and the hints of `tables/hints.txt`.

macro_rules! details {
    ($($number:literal $sentence:literal)*) => {
        /// What was expected, or what is wrong.
        pub fn sentence(detail: u16) -> &'static str {
            match detail {
                $($number => $sentence,)*
                _ => "the archive gives a detail that this crate does not know: build both from one version",
            }
        }
    };
}

details! {
    // make-tables: details
    1 "expected the word `plan`, which begins a sheet"
    2 "expected a name (or `_` for a value that is not used)"
    3 "expected `,` and another name, or the word `list`"
    4 "expected `=`"
    5 "expected an expression"
    6 "expected the word `section`, or the end of the text"
    7 "expected the name of a section"
    8 "expected `(`"
    9 "expected `,`"
    10 "expected `)`"
    11 "expected a variable: its name, or `#` and its number"
    12 "expected the number of a variable right behind `#`"
    13 "expected `,`, `|` or `]`"
    14 "expected `]`"
    15 "expected the word `in`"
    16 "expected the word `of`"
    17 "expected the first branch of the case: `[]` for a list, `false` for a truth value"
    18 "expected `]`: the branch for the empty list, `[]`, stands first"
    19 "expected `->`"
    20 "expected `with` and a test, or the branch for a list with members, `[first | rest]`"
    21 "expected the branch for a list with members, `[first | rest]`"
    22 "expected `|`"
    23 "expected a test: any, empty, members, false, true, one or many"
    24 "expected `with` and a test, or the word `default`"
    25 "expected the word `default`"
    26 "expected the name of the first member once more, as the branch has it"
    27 "expected the name of the rest once more, as the branch has it"
    28 "expected `with` and a test, or the branch `true`"
    29 "expected the branch `true`"
    30 "expected `with` and a test, or the word `end`"
    31 "expected the word `end`"
    40 "there is no variable of this name here"
    41 "there is no variable of this name here: in a default of a case there is `sent` alone, what is put into the case"
    42 "there is no variable of this name here: the default of an `each` has none"
    43 "there is no section of this name in the text"
    50 "this name already stands for a variable here"
    51 "there is a section of this name already"
    60 "a number is at most 4294967295"
    61 "a number has no 0 in front"
    62 "a number ends before a letter"
    63 "an amount that is added is at most 65535"
    64 "the number of a variable is at most 255"
    70 "a plan has at most 16 values"
    71 "a sheet has at most 8 sections"
    72 "a sheet has at most 200 nodes"
    // make-tables: end
}

macro_rules! words {
    ($($word:literal)*) => {
        /// The words of the language, which are no names.
        const WORDS: &[&str] = &[$($word),*];
    };
}

words! {
    // make-tables: words
    "plan" "list" "section" "case" "of" "with" "default" "end" "let" "in" "each" "true" "false"
    // make-tables: end
}

/// A further sentence for a fault that a habit is likely to have made.
struct Hint {
    refusal: u8,
    /// Given for all details but these, and not for these alone.
    others: bool,
    details: &'static [u16],
    /// What stands at the place of the fault, one of these; none for anything.
    found: &'static [&'static str],
    sentence: &'static str,
}

macro_rules! hints {
    ($($refusal:literal $others:literal [$($detail:literal)*] [$($found:literal)*] $sentence:literal)*) => {
        const HINTS: &[Hint] = &[$(
            Hint { refusal: $refusal, others: $others, details: &[$($detail),*], found: &[$($found),*], sentence: $sentence },
        )*];
    };
}

hints! {
    // make-tables: hints
    90 true [] ["+"] "the amount stands in front: write 100 + seat for seat + 100"
    90 true [3] [":"] "a member in front of a list is written [first | rest]"
    90 true [] ["\"" "'"] "there is no text in a sheet: write a name as a list of numbers, \"AB\" as [65, 66]"
    90 true [19] ["-"] "nothing is subtracted in a sheet; an amount is added in front: 100 + seat"
    90 false [5 11] ["("] "a section is called with variables: take a pair apart with let, a list with case"
    90 false [9] [")"] "brackets make pairs: (a, b); an expression needs none around it"
    90 false [19] ["-->"] "`-->` begins a comment: write `->`"
    90 true [] ["if"] "write case .. of false -> .. true -> .. end"
    90 false [17] ["true"] "the branch for false stands first"
    90 false [2 7] ["<word>"] "`<word>` is a word of the language and no name"
    90 false [31] ["with"] "a branch has one test"
    91 true [] ["<WORD>"] "words of the language have small letters: `<word>`"
    91 true [] ["if"] "write case .. of false -> .. true -> .. end"
    93 false [61 62] [] "numbers are decimal: 100, and not 0064 or 0x64"
    // make-tables: end
}

/// The hint for a fault of the text at this place, where there is one.
pub fn hint(text: &[u8], place: usize, refusal: u8, detail: u16) -> Option<String> {
    let word = word(text, place);
    let small = word.to_ascii_lowercase();
    let is_word = |word: &[u8]| WORDS.iter().any(|known| known.as_bytes() == word);
    let stands = |found: &&str| match *found {
        "<word>" => is_word(word),
        "<WORD>" => is_word(&small),
        "-->" => behind_arrow(&text[..place]),
        _ if word.is_empty() => text[place..].starts_with(found.as_bytes()),
        _ => word == found.as_bytes(),
    };
    let goes_with = |hint: &&Hint| {
        hint.refusal == refusal
            && hint.details.contains(&detail) != hint.others
            && (hint.found.is_empty() || hint.found.iter().any(stands))
    };
    HINTS.iter().find(goes_with).map(|hint| hint.sentence.replace("<word>", &String::from_utf8_lossy(&small)))
}

/// What stands at a place of the text, in words.
pub fn found(text: &[u8], place: usize) -> String {
    let behind = &text[place..];
    let digits = behind.iter().take_while(|byte| byte.is_ascii_digit()).count();
    let length = match behind {
        [] => return "the end of the text".to_string(),
        [b'-', b'>', ..] => 2,
        _ => word(text, place).len().max(digits).max(1),
    };
    match behind[..length] {
        [byte] if !byte.is_ascii_graphic() => format!("the byte {byte:02X}"),
        _ => format!("`{}`", String::from_utf8_lossy(&behind[..length])),
    }
}

/// The word that stands at a place of the text; empty where there is none.
fn word(text: &[u8], place: usize) -> &[u8] {
    let behind = &text[place..];
    let letter = |byte: &u8| byte.is_ascii_alphabetic() || *byte == b'_';
    if !behind.first().is_some_and(letter) {
        return &[];
    }
    let length = behind.iter().take_while(|byte| letter(byte) || byte.is_ascii_digit()).count();
    &behind[..length]
}

/// Whether a text ends with a comment that begins with an arrow and, where it is not the text's last line, with white space behind it.
fn behind_arrow(text: &[u8]) -> bool {
    let Some(start) = text.windows(2).rposition(|two| two == b"--") else { return false };
    let comment = &text[start..];
    comment.starts_with(b"-->") && comment.iter().skip_while(|&&byte| byte != b'\n').all(|byte| b" \t\n\r".contains(byte))
}
