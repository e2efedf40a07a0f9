//! Document 01, "House sheets, plans and venue lists", in plain safe Rust, with these requests of document 02, "Requests after the base
//! version": 1 (the node 1C), 2 (the starts of a plan's values), 4 (numbers over 65,535: the kind of value 06 and the node 1D), 5 (defaults of
//! a list case that take after the list sent), 6 (the check of a sheet by types), 7 (two sheets joined), 8 (which variables a put wrote),
//! 9 (why a call is refused), 10 (plans made by a venue's own system), 11 (lists as JSON), 12 (one numbering for a sheet file) and 14 (how
//! much longer the list can get); and sheets as text, written from the manual of that language.
//!
//! It was written from the papers and shares no line with the Rattle code, so that where the two agree on a job, two readings of the
//! papers agree. Its tests and the benchmark's baseline are its only uses: programs use the crate `lens`.
//!
//! [`get`], [`put`], [`load`], [`put_starts`], [`put_written`] and the tools ([`number`], [`join`], [`growth`], [`check_plan`], [`to_json`],
//! [`from_json`], [`check_types`], [`read_sheet`], [`print_sheet`]) work in the caller's buffers exactly as the archive's functions do, and answer in the same form, which
//! [`answer`] takes apart.

#![forbid(unsafe_code)]

pub mod answer;
mod checker;
mod growth;
pub mod job;
mod join;
mod json;
mod numbering;
mod plan;
mod printed;
mod read;
mod record;
mod sheet;
mod tokens;
pub mod tool;
mod types;
mod value;
pub mod vectors;
mod walk;
pub mod why;

pub use checker::check_plan;
pub use growth::growth;
pub use join::join;
pub use json::{from_json, to_json};
pub use numbering::number;
pub use plan::{find, from_front, part};
pub use printed::print_sheet;
pub use read::read_sheet;
pub use types::check_types;

use answer::{made, Success};
use sheet::Sheet;
use value::Flaw;
use walk::Walk;
use why::Explanation;

/// Bytes of output that a get asks for.
pub const GET_OUT: usize = 256;
/// Bytes of output that a put asks for.
pub const PUT_OUT: usize = 4096;
/// Bytes of output that a tool asks for that writes a sheet.
pub const SHEET_OUT: usize = 2048;
/// Bytes of output that a sheet asks for that is printed as text.
pub const TEXT_OUT: usize = 16_384;
/// Bytes of output that a value asks for that is written as JSON.
pub const JSON_OUT: usize = 2048;
/// Bytes of output that a text asks for that is read as a value.
pub const VALUE_OUT: usize = 256;
/// Bytes of scratch that get and put ask for, and the checker of plans.
pub const SCRATCH: usize = 65_536;
/// The largest allowance.
pub const ALLOWANCE: u32 = 1_000_000;
/// The most values of a plan, and so the most starts.
pub const STARTS_MAX: usize = 16;

/// The number of a refusal in documents 01 and 02.
pub type Refusal = u8;

/// Reads a plan out: the list that `sheet` makes of `plan`, at the front of `out`.
pub fn get(sheet: &[u8], plan: &[u8], allowance: u32, out: &mut [u8], scratch: &mut [u8]) -> u64 {
    let Some(arena) = scratch.first_chunk_mut::<SCRATCH>() else {
        return made(Err(if out.len() < GET_OUT { 1 } else { 2 }));
    };
    if let Err(refusal) = door(out.len() >= GET_OUT, allowance) {
        return made(Err(refusal));
    }
    let result = get_past_door(sheet, plan, allowance, out, arena);
    arena.fill(0);
    made(result)
}

/// Reads a list back: the plan that `view` makes of the old `plan`, at the front of `out`.
pub fn put(sheet: &[u8], plan: &[u8], view: &[u8], allowance: u32, out: &mut [u8], scratch: &mut [u8]) -> u64 {
    let result = put_from_door(sheet, plan, view, allowance, out, scratch);
    made(result.map(|new| Success { count: 0, ..new.success() }))
}

/// Reads a list back as [`put`] does, and gives the starts of the new plan's values.
pub fn put_starts(
    sheet: &[u8],
    plan: &[u8],
    view: &[u8],
    allowance: u32,
    out: &mut [u8],
    scratch: &mut [u8],
    starts: &mut [u16; STARTS_MAX],
) -> u64 {
    made(put_from_door(sheet, plan, view, allowance, out, scratch).map(|new| new.hand_out(starts)))
}

/// Reads a list back as [`put_starts`] does, and gives which variables took a view: bit i of `written` for variable i.
#[allow(clippy::too_many_arguments)] // those of the archive's function
pub fn put_written(
    sheet: &[u8],
    plan: &[u8],
    view: &[u8],
    allowance: u32,
    out: &mut [u8],
    scratch: &mut [u8],
    starts: &mut [u16; STARTS_MAX],
    written: &mut u16,
) -> u64 {
    made(put_from_door(sheet, plan, view, allowance, out, scratch).map(|new| {
        *written = new.written;
        new.hand_out(starts)
    }))
}

/// What a put gives beside the bytes of the new plan.
#[derive(Default)]
struct New {
    length: usize,
    count: usize,
    starts: [u16; STARTS_MAX],
    written: u16,
    steps: u32,
}

impl New {
    fn success(&self) -> Success {
        Success { length: self.length, count: self.count, steps: self.steps }
    }

    fn hand_out(&self, starts: &mut [u16; STARTS_MAX]) -> Success {
        starts[..self.count].copy_from_slice(&self.starts[..self.count]);
        self.success()
    }
}

/// Reads the plan of a sheet for the starts of its values.
pub fn load(sheet: &[u8], plan: &[u8], starts: &mut [u16; STARTS_MAX]) -> u64 {
    made(load_starts(sheet, plan, starts))
}

/// Why the [`get`] of a plan is refused, if it is: no output is asked for.
pub fn why_get(sheet: &[u8], plan: &[u8], allowance: u32, scratch: &mut [u8]) -> Result<(), Explanation> {
    why(sheet, plan, None, allowance, scratch)
}

/// Why the [`put`] of a list is refused, if it is.
pub fn why_put(sheet: &[u8], plan: &[u8], view: &[u8], allowance: u32, scratch: &mut [u8]) -> Result<(), Explanation> {
    why(sheet, plan, Some(view), allowance, scratch)
}

fn why(sheet: &[u8], plan: &[u8], view: Option<&[u8]>, allowance: u32, scratch: &mut [u8]) -> Result<(), Explanation> {
    let arena = scratch.first_chunk_mut::<SCRATCH>().ok_or(Explanation::early(2))?;
    door(true, allowance).map_err(Explanation::early)?;
    let result = why::explain(sheet, plan, view, allowance);
    arena.fill(0);
    result
}

fn load_starts(sheet: &[u8], plan: &[u8], starts: &mut [u16; STARTS_MAX]) -> Result<Success, Refusal> {
    let sheet = Sheet::read(sheet)?;
    let mut found = [0; STARTS_MAX];
    let mut count = 0;
    plan::read(sheet.k, plan, |start, _| {
        found[count] = start as u16;
        count += 1;
    })?;
    starts[..count].copy_from_slice(&found[..count]);
    Ok(Success { count, ..Success::default() })
}

fn put_from_door(
    sheet: &[u8],
    plan: &[u8],
    view: &[u8],
    allowance: u32,
    out: &mut [u8],
    scratch: &mut [u8],
) -> Result<New, Refusal> {
    let Some(arena) = scratch.first_chunk_mut::<SCRATCH>() else {
        return Err(if out.len() < PUT_OUT { 1 } else { 2 });
    };
    door(out.len() >= PUT_OUT, allowance)?;
    let result = put_past_door(sheet, plan, view, allowance, out, arena);
    arena.fill(0);
    result
}

fn door(room: bool, allowance: u32) -> Result<(), Refusal> {
    if !room {
        return Err(1);
    }
    if allowance == 0 || allowance > ALLOWANCE {
        return Err(3);
    }
    Ok(())
}

/// Judges the list sent: it is one value.
fn one_value(view: &[u8]) -> Result<(), Refusal> {
    if view.is_empty() {
        return Err(32);
    }
    let length = value::read(view).map_err(|flaw| match flaw {
        Flaw::Malformed => 30,
        Flaw::TooLong => 31,
    })?;
    if length < view.len() {
        return Err(32);
    }
    Ok(())
}

fn get_past_door(sheet: &[u8], plan: &[u8], allowance: u32, out: &mut [u8], arena: &mut [u8; SCRATCH]) -> Result<Success, Refusal> {
    let sheet = Sheet::read(sheet)?;
    let mut walk = Walk::new(&sheet, arena, allowance);
    plan::read(sheet.k, plan, |_, value| walk.add_to_plan(value))?;
    let list = walk.get_root()?;
    let bytes = walk.bytes(list);
    out[..bytes.len()].copy_from_slice(bytes);
    Ok(Success { length: bytes.len(), count: 0, steps: walk.steps() })
}

fn put_past_door(
    sheet: &[u8],
    plan: &[u8],
    view: &[u8],
    allowance: u32,
    out: &mut [u8],
    arena: &mut [u8; SCRATCH],
) -> Result<New, Refusal> {
    let sheet = Sheet::read(sheet)?;
    let mut walk = Walk::new(&sheet, arena, allowance);
    plan::read(sheet.k, plan, |_, value| walk.add_to_plan(value))?;
    one_value(view)?;
    walk.put_root(view)?;
    let mut new = New { steps: walk.steps(), ..New::default() };
    for variable in 0..sheet.k {
        new.starts[new.count] = new.length as u16;
        if walk.took_view(variable) {
            new.written |= 1 << variable;
        }
        let bytes = walk.bytes(walk.new_value(variable));
        out[new.length..new.length + bytes.len()].copy_from_slice(bytes);
        new.length += bytes.len();
        new.count += 1;
    }
    Ok(new)
}
