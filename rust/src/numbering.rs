//! One numbering for a sheet file.

use crate::raw;
use crate::{NodeRefusal, Sheet};

impl Sheet<'_> {
    /// The sheet written anew, with its nodes numbered as first met: from the main root downwards, a node before its children, each child
    /// with all below it before the next; then from each section's root in turn. Nodes that are never met are dropped.
    ///
    /// The new sheet reads out and back as this one does, steps and refusals included. Two files of one sheet become the same bytes, and
    /// a sheet so numbered stays as it is.
    ///
    /// ```
    /// use lens::Sheet;
    ///
    /// // The pair of variable 0 and the empty list in two files: the other has them in turned order, and a node that nobody uses.
    /// let one = [0x01, 0x01, 0x00, 0x16, 0x01, 0x02, 0x10, 0x00, 0x13];
    /// let other = [0x01, 0x01, 0x00, 0x16, 0x03, 0x02, 0x12, 0x13, 0x10, 0x00];
    /// assert_eq!(Sheet::new(&one).numbered()?, one);
    /// assert_eq!(Sheet::new(&other).numbered()?, one);
    /// # Ok::<(), lens::NodeRefusal>(())
    /// ```
    pub fn numbered(self) -> Result<Vec<u8>, NodeRefusal> {
        let mut out = vec![0; raw::SHEET_OUT];
        let answer = raw::number(self.bytes(), &mut out);
        NodeRefusal::check(answer)?;
        out.truncate(answer.length());
        Ok(out)
    }
}
