//! The variables that a put wrote: a variable that it did not write has its old bytes, behind one put and behind two in a row.

use crate::values::Value;
use lens::raw::{self, PUT_OUT, STARTS_MAX};
use reference::job::Job;
use reference::vectors::hex;

/// Whether a put wrote a variable with its old value.
pub fn wrote_old(plan: &[u8], new: &[u8], written: u16) -> bool {
    let (old_values, new_values) = (Value::decode_all(plan), Value::decode_all(new));
    let mut variables = old_values.iter().zip(&new_values).enumerate();
    variables.any(|(variable, (old, new))| written >> variable & 1 == 1 && old.bytes() == new.bytes())
}

/// No bit stands for a variable that the plan does not have, and a variable whose bit is clear has its old bytes in the new plan.
pub fn check_bits(plan: &[u8], new: &[u8], written: u16) -> Result<(), String> {
    let (old_values, new_values) = (Value::decode_all(plan), Value::decode_all(new));
    if u32::from(written) >> old_values.len() != 0 {
        return Err(format!("the bits {written:04X} of a plan of {} values", old_values.len()));
    }
    for (variable, (old, new)) in old_values.iter().zip(&new_values).enumerate() {
        if written >> variable & 1 == 0 && old.bytes() != new.bytes() {
            return Err(format!("variable {variable} changed, but the bits are {written:04X}"));
        }
    }
    Ok(())
}

/// A second put, into the new plan, of the same list or of a pair with its parts in each other's place: what neither put wrote has its bytes
/// of the first plan.
pub fn check_union(job: &Job, new: &[u8], written: u16, scratch: &mut [u8]) -> Result<(), String> {
    let Some(view) = job.view.as_deref().map(second_view) else { return Ok(()) };
    let (mut out, mut starts, mut then) = ([0; PUT_OUT], [0; STARTS_MAX], 0);
    let answer = raw::put_written(&job.sheet, new, &view, job.allowance, &mut out, scratch, &mut starts, &mut then);
    if answer.number() != 0 {
        return Ok(());
    }
    let newest = &out[..answer.length()];
    check_bits(new, newest, then).map_err(|fault| format!("a second put of {}: {fault}", hex(&view)))?;
    check_bits(&job.plan, newest, written | then).map_err(|fault| format!("both puts, the second of {}: {fault}", hex(&view)))
}

/// A pair with its parts in each other's place; any other list as it is.
fn second_view(view: &[u8]) -> Vec<u8> {
    match view.split_first() {
        Some((0x05, parts)) => {
            let values = Value::decode_all(parts);
            [vec![0x05], values[1].bytes(), values[0].bytes()].concat()
        }
        _ => view.to_vec(),
    }
}
