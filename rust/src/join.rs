//! Two sheets joined into one.

use crate::raw;
use crate::{Refusal, Sheet};

impl Sheet<'_> {
    /// A sheet whose list is the pair of this one's and the other's, both of one plan: node 0 is the pair, this sheet's nodes and sections
    /// follow, then the other's.
    ///
    /// A pair is read back through this sheet, then through the other, one variable still taking one value.
    ///
    /// ```
    /// use lens::{Refusal, Sheet};
    ///
    /// let stalls = Sheet::new(&[0x01, 0x02, 0x00, 0x10, 0x00]); // variable 0
    /// let circle = Sheet::new(&[0x01, 0x02, 0x00, 0x15, 0x01, 0x02, 0x10, 0x01, 0x13]); // a list of variable 1
    /// let both = stalls.join(circle)?;
    /// let both = Sheet::new(&both);
    /// assert_eq!(both.get(&[0x00, 0x01], 1000)?.view, [0x05, 0x00, 0x03, 0x01, 0x02]);
    /// assert_eq!(both.put(&[0x00, 0x01], &[0x05, 0x02, 0x03, 0x01, 0x02], 1000)?.plan, [0x02, 0x01]);
    ///
    /// let one_variable = Sheet::new(&[0x01, 0x01, 0x00, 0x10, 0x00]);
    /// assert_eq!(stalls.join(one_variable), Err(Refusal::SHEETS_DIFFER));
    /// # Ok::<(), lens::Refusal>(())
    /// ```
    pub fn join(self, other: Sheet) -> Result<Vec<u8>, Refusal> {
        let mut out = vec![0; raw::SHEET_OUT];
        let answer = raw::join(self.bytes(), other.bytes(), &mut out);
        Refusal::check(answer.number())?;
        out.truncate(answer.length());
        Ok(out)
    }
}
