//! Plans made by a venue's own system, judged (document 02, request 10).

use crate::answer::packed;
use crate::sheet::{Each, Node, Sheet};
use crate::walk::Walk;
use crate::{door, one_value, plan, Refusal, SCRATCH, STARTS_MAX};
use std::ops::Range;

/// Whether the new plan reads out to the list `view`, and has the old bytes in every variable that the sheet does not name.
pub fn check_plan(sheet: &[u8], old: &[u8], view: &[u8], new: &[u8], allowance: u32, scratch: &mut [u8]) -> u64 {
    packed(judged(sheet, old, view, new, allowance, scratch).map(usize::from).map_err(Into::into))
}

fn judged(sheet: &[u8], old: &[u8], view: &[u8], new: &[u8], allowance: u32, scratch: &mut [u8]) -> Result<bool, Refusal> {
    let arena = scratch.first_chunk_mut::<SCRATCH>().ok_or(2)?;
    door(true, allowance)?;
    let verdict = judged_past_door(sheet, old, view, new, allowance, arena);
    arena.fill(0);
    verdict
}

fn judged_past_door(
    sheet: &[u8],
    old: &[u8],
    view: &[u8],
    new: &[u8],
    allowance: u32,
    arena: &mut [u8; SCRATCH],
) -> Result<bool, Refusal> {
    let sheet = Sheet::read(sheet)?;
    let old_places = places(sheet.k, old)?;
    one_value(view)?;
    let new_places = places(sheet.k, new).map_err(|_| 85)?;
    let count = usize::from(sheet.k);
    let mut walk = Walk::new(&sheet, arena, allowance);
    new_places[..count].iter().for_each(|place| walk.add_to_plan(&new[place.clone()]));
    let list = walk.get_root()?;
    if walk.bytes(list) != view {
        return Ok(false);
    }
    let named = named(&sheet);
    let kept = |variable: usize| old[old_places[variable].clone()] == new[new_places[variable].clone()];
    Ok((0..count).all(|variable| named[variable] || kept(variable)))
}

/// Where the k values of a plan stand.
fn places(k: u8, plan: &[u8]) -> Result<[Range<usize>; STARTS_MAX], Refusal> {
    let mut places = [const { 0..0 }; STARTS_MAX];
    let mut count = 0;
    plan::read(k, plan, |start, value| {
        places[count] = start..start + value.len();
        count += 1;
    })?;
    Ok(places)
}

/// The numbers that stand as a variable in a record 10, 1A or 1C, whatever its scope, met or not.
fn named(sheet: &Sheet) -> [bool; 256] {
    let mut named = [false; 256];
    for node in sheet.nodes() {
        match *node {
            Node::Variable(variable) | Node::Each(Each { variable, .. }) => named[usize::from(variable)] = true,
            Node::Call { left, right, .. } => {
                named[usize::from(left)] = true;
                named[usize::from(right)] = true;
            }
            _ => {}
        }
    }
    named
}
