//! Taking back an edit.

use crate::{Buffers, Refusal, Sheet};

impl Sheet<'_> {
    /// Whether an edit can be taken back: reads the list of `plan`, puts the edited `list`, and puts the first list into the new plan, each in
    /// at most `allowance` steps. True where that gives `plan` again, in as many steps as the edit took. The refusal is that of the first
    /// of the three that is refused.
    ///
    /// Of a sheet without records 17, 18 and 1C this is proved to be true of every list that it takes, and the third step is not refused.
    ///
    /// ```
    /// use lens::{Refusal, Sheet};
    ///
    /// // The number of a pair, shown with 100 added; the other part is kept by every edit.
    /// let sheet = Sheet::new(&[0x01, 0x01, 0x00, 0x19, 0x01, 0x02, 0x10, 0x00, 0x1B, 0x03, 0x00, 0x64, 0x10, 0x02]);
    /// let plan = [0x05, 0x01, 0x04, 0x00, 0x07]; // (True, 7), shown as 107
    /// assert!(sheet.undoes(&plan, &[0x04, 0x00, 0x6E], 1000)?); // 110
    /// assert_eq!(sheet.undoes(&plan, &[0x04, 0x00, 0x63], 1000), Err(Refusal::VIEW_BELOW)); // 99
    ///
    /// // A list case: of each pair of a row the first part is shown. A row that is emptied forgets the second parts.
    /// let row = Sheet::new(&[
    ///     0x01, 0x01, 0x00, // one variable, root node 0
    ///     0x17, 0x01, 0x02, 0x01, 0x03, 0x02, 0x07, 0x08, // node 0: is the row empty?
    ///     0x10, 0x00, // node 1: the row
    ///     0x13, // node 2: then [ ]
    ///     0x15, 0x04, 0x08, // node 3: otherwise the list of node 4 alone
    ///     0x19, 0x05, 0x06, // node 4: split the first pair
    ///     0x10, 0x01, // node 5
    ///     0x10, 0x03, // node 6: its first part
    ///     0x16, 0x08, 0x08, // node 7: the default pair, ([ ], [ ])
    ///     0x13, // node 8: [ ]
    /// ]);
    /// let plan = [0x03, 0x05, 0x01, 0x04, 0x00, 0x07, 0x02]; // [(True, 7)], shown as [True]
    /// assert!(row.undoes(&plan, &[0x03, 0x00, 0x02], 1000)?); // [False]: the branch is kept, and so is 7
    /// assert!(!row.undoes(&plan, &[0x02], 1000)?); // [ ]: then [True] makes [(True, [ ])]
    /// # Ok::<(), Refusal>(())
    /// ```
    pub fn undoes(self, plan: &[u8], list: &[u8], allowance: u32) -> Result<bool, Refusal> {
        let mut buffers = Buffers::new();
        let first = buffers.get(self, plan, allowance)?.view.to_vec();
        let put = buffers.put(self, plan, list, allowance)?;
        let (new, steps) = (put.plan.bytes().to_vec(), put.steps);
        let back = buffers.put(self, &new, &first, allowance)?;
        Ok(back.plan.bytes() == plan && back.steps == steps)
    }
}
