//! Values as JSON (RFC 8259), both ways: false, true, a decimal number, an array for a list, an object with the members "a" and "b" for a
//! pair. What [`write`] writes, [`read`] reads back to the same value.
//!
//! ```
//! use lens::json;
//!
//! let value = [0x03, 0x05, 0x04, 0x00, 0x07, 0x01, 0x02]; // a list of the pair of 7 and True
//! assert_eq!(json::write(&value)?, r#"[{"a":7,"b":true}]"#);
//! assert_eq!(json::read(r#" [ {"a": 7, "b": true} ] "#)?, value);
//! # Ok::<(), lens::Refusal>(())
//! ```

use crate::raw;
use crate::Refusal;

/// A value as JSON, without white space.
///
/// Refused are bytes that are no value, as a list sent back is, and then a value whose lists and pairs nest over 48 deep
/// ([`Refusal::JSON_DEPTH`]).
///
/// ```
/// use lens::{json, Refusal};
///
/// assert_eq!(json::write(&[0x06, 0x00, 0x01, 0x86, 0xA0])?, "100000");
/// assert_eq!(json::write(&[0x03, 0x01]), Err(Refusal::VIEW_MALFORMED));
/// # Ok::<(), lens::Refusal>(())
/// ```
pub fn write(value: &[u8]) -> Result<String, Refusal> {
    let mut out = vec![0; raw::JSON_OUT];
    let answer = raw::to_json(value, &mut out);
    Refusal::check(answer.number())?;
    Ok(out[..answer.length()].iter().copied().map(char::from).collect())
}

/// The value of a text, a string or its bytes. White space may stand before, between and after tokens; the members of an object are "a" and
/// "b" in that order; a number has no sign, fraction, exponent or leading zero and is at most 4,294,967,295.
///
/// Any other text is refused ([`Refusal::JSON_MALFORMED`]), one that nests over 48 deep ([`Refusal::JSON_DEPTH`]), and then one whose
/// value has over 256 bytes ([`Refusal::JSON_LONG`]).
///
/// ```
/// use lens::{json, Refusal};
///
/// assert_eq!(json::read("[1, 70000]")?, [0x03, 0x04, 0x00, 0x01, 0x03, 0x06, 0x00, 0x01, 0x11, 0x70, 0x02]);
/// assert_eq!(json::read(b"[1, 2,]"), Err(Refusal::JSON_MALFORMED));
/// assert_eq!(json::read("[".repeat(49)), Err(Refusal::JSON_DEPTH));
/// # Ok::<(), lens::Refusal>(())
/// ```
pub fn read(text: impl AsRef<[u8]>) -> Result<Vec<u8>, Refusal> {
    let mut out = vec![0; raw::VALUE_OUT];
    let answer = raw::from_json(text.as_ref(), &mut out);
    Refusal::check(answer.number())?;
    out.truncate(answer.length());
    Ok(out)
}
