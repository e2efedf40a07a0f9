//! How much longer the list can get.

use crate::raw;
use crate::{Refusal, Sheet};

impl Sheet<'_> {
    /// How often a variable's length counts in the list's, 0 to 256: where its value becomes d bytes longer, and both plans read out, the
    /// list becomes so many times d bytes longer.
    ///
    /// Only of a sheet of the kinds 10 to 16, 1B and 1D.
    ///
    /// ```
    /// use lens::{Refusal, Sheet};
    ///
    /// let sheet = Sheet::new(&[0x01, 0x02, 0x00, 0x16, 0x01, 0x01, 0x16, 0x02, 0x03, 0x10, 0x00, 0x13]); // ((x, []), (x, []))
    /// assert_eq!(sheet.growth(0)?, 2);
    /// assert_eq!(sheet.growth(1)?, 0);
    /// assert_eq!(sheet.growth(2), Err(Refusal::VARIABLE));
    ///
    /// let [short, long] = [&[0x00, 0x00][..], &[0x04, 0x00, 0x07, 0x00]].map(|plan| sheet.get(plan, 1000).unwrap().view.len());
    /// assert_eq!(long, short + 2 * 2); // False takes 1 byte, the number 7 takes 3
    /// # Ok::<(), lens::Refusal>(())
    /// ```
    pub fn growth(self, variable: usize) -> Result<usize, Refusal> {
        let answer = raw::growth(self.bytes(), variable);
        Refusal::check(answer.number())?;
        Ok(answer.growth())
    }
}
