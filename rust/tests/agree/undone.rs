//! Taking back an edit: the list of the old plan is put into the new one, under the edit's allowance. A sheet without records that choose gives
//! the old plan, in as many steps; of other sheets it is only counted.

use crate::sheets;
use lens::raw::{self, PUT_OUT};
use lens::{Sheet, ALLOWANCE_MAX};
use reference::job::Job;
use reference::vectors::hex;

/// An edit whose old plan reads out.
pub struct Undone {
    /// The sheet has no record 17, 18 or 1C.
    pub straight: bool,
    /// The edit changed the plan.
    pub changed: bool,
    /// The old plan came back, in as many steps.
    pub back: bool,
}

/// A put of `job` gave `new` in so many steps. None where the old plan does not read out.
pub fn check_undone(job: &Job, new: &[u8], steps: u32, scratch: &mut [u8]) -> Result<Option<Undone>, String> {
    let Some(edited) = job.view.as_deref() else { return Ok(None) };
    let (mut list, mut out) = ([0; PUT_OUT], [0; PUT_OUT]);
    let got = raw::get(&job.sheet, &job.plan, ALLOWANCE_MAX, &mut list, scratch);
    if got.number() != 0 {
        return Ok(None);
    }
    let list = &list[..got.length()];
    let put = raw::put(&job.sheet, new, list, job.allowance, &mut out, scratch);
    let back = put.number() == 0 && out[..put.length()] == job.plan && put.steps() == steps;
    let straight = ![0x17, 0x18, 0x1C].iter().any(|&kind| sheets::has(&job.sheet, kind));
    let told = Sheet::new(&job.sheet).undoes(&job.plan, edited, job.allowance);
    if straight && !(back && told == Ok(true)) {
        let what = match put.number() {
            0 => format!("{} in {} steps", hex(&out[..put.length()]), put.steps()),
            number => format!("no {number}"),
        };
        let (list, new) = (hex(list), hex(new));
        return Err(format!("after a put of {steps} steps the old list {list} put into {new} gives {what}; undoes says {told:?}"));
    }
    if !back && told == Ok(true) {
        return Err(format!("undoes says yes of {}, which the old list {} does not make the old plan", hex(new), hex(list)));
    }
    Ok(Some(Undone { straight, changed: new != job.plan, back }))
}
