//! The starts of a plan's values: archive and reference agree on them, and a value found by them is the one that a reading from the
//! front gives.

use crate::lookups::Lookup;
use crate::values::Value;
use lens::raw::{self, Answer, STARTS_MAX};
use reference::vectors::hex;

/// What stands in the lent starts before a call. No start is as large.
pub const BEFORE: [u16; STARTS_MAX] = [0xBEEF; STARTS_MAX];

/// Starts as they were lent, and how many of them were given.
pub struct Given {
    pub lent: [u16; STARTS_MAX],
    pub count: usize,
}

impl Given {
    pub fn numbers(&self) -> &[u16] {
        &self.lent[..self.count]
    }
}

/// Loads a plan on both sides and looks its values up: the starts, or the number of the refusal.
pub fn check_load(sheet: &[u8], plan: &[u8]) -> Result<Result<Given, u8>, String> {
    let (mut lent, mut wanted_lent) = (BEFORE, BEFORE);
    let answer = raw::load(sheet, plan, &mut lent);
    let wanted = Answer(reference::load(sheet, plan, &mut wanted_lent));
    if (answer, lent) != (wanted, wanted_lent) {
        return Err(format!(
            "loading {}, the archive answers {:016X}, the reference {:016X}; the starts are {lent:?} and {wanted_lent:?}",
            hex(plan),
            answer.0,
            wanted.0
        ));
    }
    check_behind(&lent, answer)?;
    if answer.number() > 0 {
        return Ok(Err(answer.number()));
    }
    let given = Given { lent, count: answer.count() };
    check_values(&given, plan)?;
    Ok(Ok(given))
}

/// Starts behind those given are as before; with a refusal, all.
pub fn check_behind(lent: &[u16; STARTS_MAX], answer: Answer) -> Result<(), String> {
    if lent[answer.count()..] == BEFORE[answer.count()..] {
        Ok(())
    } else {
        Err(format!("starts behind those given changed: {lent:?}"))
    }
}

/// With its starts, each value of a plan is the one that a reading from the front gives.
pub fn check_values(given: &Given, plan: &[u8]) -> Result<(), String> {
    let values = Value::decode_all(plan);
    if values.len() != given.count {
        return Err(format!("the plan {} has {} values, and the starts {:?}", hex(plan), values.len(), given.numbers()));
    }
    for (variable, value) in values.iter().enumerate() {
        let lookup = Lookup { starts: given.lent, count: given.count, plan_len: plan.len(), variable };
        let found = lookup.check()?.ok().and_then(|place| plan.get(place));
        if found != Some(&value.bytes()[..]) {
            return Err(format!("variable {variable} of {} is {found:02X?} by the starts {:?}", hex(plan), given.numbers()));
        }
    }
    Ok(())
}
