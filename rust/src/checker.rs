//! Plans made by a venue's own system, judged.

use crate::raw;
use crate::{Buffers, Refusal, Sheet};

impl Sheet<'_> {
    /// Whether the plan `new`, made elsewhere, goes with the list `view` and the plan `old`: it reads out to that list in at most `allowance`
    /// steps, and every variable whose number stands in no record 10, 1A or 1C of the sheet has its old bytes.
    ///
    /// The new plan of a [`put`](Sheet::put) gets a yes under the put's own allowance. A new plan that is none is refused
    /// ([`Refusal::NEW_PLAN`]), and one that does not read out with the refusal of its get.
    ///
    /// ```
    /// use lens::{Refusal, Sheet};
    ///
    /// let sheet = Sheet::new(&[0x01, 0x02, 0x00, 0x10, 0x00]); // the list is variable 0 of two
    /// let old = [0x00, 0x00];
    /// assert!(sheet.accepts(&old, &[0x01], &[0x01, 0x00], 1000)?);
    /// assert!(!sheet.accepts(&old, &[0x01], &[0x02, 0x00], 1000)?); // another list
    /// assert!(!sheet.accepts(&old, &[0x01], &[0x01, 0x01], 1000)?); // a variable that the list does not show
    /// assert_eq!(sheet.accepts(&old, &[0x01], &[0x01], 1000), Err(Refusal::NEW_PLAN));
    /// # Ok::<(), lens::Refusal>(())
    /// ```
    pub fn accepts(self, old: &[u8], view: &[u8], new: &[u8], allowance: u32) -> Result<bool, Refusal> {
        Buffers::new().accepts(self, old, view, new, allowance)
    }
}

impl Buffers {
    /// [`Sheet::accepts`] in these buffers.
    pub fn accepts(&mut self, sheet: Sheet, old: &[u8], view: &[u8], new: &[u8], allowance: u32) -> Result<bool, Refusal> {
        let answer = raw::check_plan(sheet.bytes, old, view, new, allowance, &mut self.scratch);
        Refusal::check(answer.number())?;
        Ok(answer.yes())
    }
}
