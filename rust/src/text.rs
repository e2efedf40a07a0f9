//! Sheets as text.

use crate::details::{found, hint, sentence};
use crate::raw::{self, SHEET_OUT, TEXT_OUT};
use crate::{NodeRefusal, Refusal, Sheet};
use std::error::Error;
use std::fmt::{self, Write};

/// Why a text is no sheet: the first fault from the left.
///
/// As text it is what a person needs: line and column, what was expected and what was found, and the line itself with a mark below the place.
///
/// ```
/// use lens::{Refusal, Sheet};
///
/// let refused = Sheet::parse("plan seat\nlist = seat + 100\n").unwrap_err();
/// assert_eq!((refused.refusal, refused.detail, refused.place), (Refusal::TEXT_TOKEN, 6, 22));
/// assert_eq!((refused.line, refused.column), (2, 13));
/// assert_eq!(
///     refused.to_string(),
///     "line 2, column 13: expected the word `section`, or the end of the text, found `+` \
///      (the amount stands in front: write 100 + seat for seat + 100) [90]\n  list = seat + 100\n              ^"
/// );
/// ```
#[derive(Clone, Debug, PartialEq, Eq)]
pub struct TextRefusal {
    pub refusal: Refusal,
    /// How many bytes of the text stand before the fault.
    pub place: usize,
    /// What was expected, or what is wrong: a number of the table of details in `docs/TOOLS.md`.
    pub detail: u16,
    /// The line of the fault, from 1.
    pub line: usize,
    /// The column of the fault, from 1; each byte is one.
    pub column: usize,
    /// What is said behind line and column.
    said: String,
    /// The line as it is shown.
    row: String,
}

impl TextRefusal {
    fn new(refusal: Refusal, place: usize, detail: u16, text: &[u8]) -> TextRefusal {
        let (before, behind) = text.split_at(place.min(text.len()));
        let line = 1 + before.iter().filter(|&&byte| byte == b'\n').count();
        let start = before.iter().rposition(|&byte| byte == b'\n').map_or(0, |feed| feed + 1);
        let end = before.len() + behind.iter().position(|&byte| byte == b'\n').unwrap_or(behind.len());
        let row: String = text[start..end].iter().copied().map(|byte| if byte == b'\t' { ' ' } else { char::from(byte) }).collect();
        let mut said = sentence(detail).to_string();
        if refusal == Refusal::TEXT_TOKEN {
            said += ", found ";
            said += &found(text, before.len());
        }
        if let Some(hint) = hint(text, before.len(), refusal.number(), detail) {
            said += &format!(" ({hint})");
        }
        let row = row.trim_end_matches('\r').to_string();
        TextRefusal { refusal, place, detail, line, column: before.len() - start + 1, said, row }
    }

    /// The refusal's number, 90 to 94.
    pub fn number(&self) -> u8 {
        self.refusal.number()
    }

    /// The sentence of the detail: what was expected, or what is wrong.
    pub fn sentence(&self) -> &'static str {
        sentence(self.detail)
    }
}

impl fmt::Display for TextRefusal {
    fn fmt(&self, f: &mut fmt::Formatter) -> fmt::Result {
        writeln!(f, "line {}, column {}: {} [{}]", self.line, self.column, self.said, self.number())?;
        write!(f, "  {}\n  {:2$}^", self.row, "", self.column - 1)
    }
}

impl Error for TextRefusal {}

impl Sheet<'_> {
    /// The bytes of the sheet that a text says, a string or its bytes: `docs/SHEETS.md`, "Sheets as text", has the language. Nodes are numbered
    /// as [`Sheet::numbered`] does it.
    ///
    /// ```
    /// let bytes = lens::Sheet::parse("plan entry\nlist = let (name, number) = entry in (number, name)\n")?;
    /// assert_eq!(bytes, [0x01, 0x01, 0x00, 0x19, 0x01, 0x02, 0x10, 0x00, 0x16, 0x03, 0x04, 0x10, 0x02, 0x10, 0x01]);
    /// # Ok::<(), lens::TextRefusal>(())
    /// ```
    pub fn parse(text: impl AsRef<[u8]>) -> Result<Vec<u8>, TextRefusal> {
        let (text, mut out, mut place) = (text.as_ref(), vec![0; SHEET_OUT], 0);
        let answer = raw::read_sheet(text, &mut out, &mut place);
        Refusal::check(answer.number())
            .map_err(|refusal| TextRefusal::new(refusal, place, answer.detail().unwrap_or_default(), text))?;
        out.truncate(answer.length());
        Ok(out)
    }

    /// The text of the sheet, with names of its own: [`Sheet::parse`] reads it back to the bytes that [`Sheet::numbered`] gives.
    ///
    /// Refused are the sheet's own refusals, and then a node that is used twice ([`Refusal::NODE_TWICE`]), which no text can say. Where it has no
    /// text, the sheet as a string is its bytes in hexadecimal.
    ///
    /// ```
    /// use lens::{Refusal, Sheet};
    ///
    /// let sheet = Sheet::new(&[0x01, 0x01, 0x00, 0x1B, 0x01, 0x00, 0x64, 0x10, 0x00]);
    /// assert_eq!(sheet.text()?, "plan a\nlist = 100 + a\n");
    /// assert_eq!(sheet.to_string(), sheet.text()?);
    ///
    /// let twice = Sheet::new(&[0x01, 0x01, 0x00, 0x16, 0x01, 0x01, 0x10, 0x00]);
    /// assert_eq!(twice.text().unwrap_err().refusal, Refusal::NODE_TWICE);
    /// assert_eq!(twice.to_string(), "0101001601011000");
    /// # Ok::<(), lens::NodeRefusal>(())
    /// ```
    pub fn text(self) -> Result<String, NodeRefusal> {
        let mut out = vec![0; TEXT_OUT];
        let answer = raw::print_sheet(self.bytes(), &mut out);
        NodeRefusal::check(answer)?;
        Ok(out[..answer.length()].iter().copied().map(char::from).collect())
    }
}

/// The sheet's [text](Sheet::text); its bytes in hexadecimal where it has none.
impl fmt::Display for Sheet<'_> {
    fn fmt(&self, f: &mut fmt::Formatter) -> fmt::Result {
        let text = self.text().unwrap_or_else(|_| {
            self.bytes().iter().fold(String::new(), |mut hex, byte| {
                let _ = write!(hex, "{byte:02X}");
                hex
            })
        });
        f.write_str(&text)
    }
}
