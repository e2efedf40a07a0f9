//! The archive's functions on lent buffers, as `include/lens.h` has them, but safe to call.
//!
//! Buffers of any size may be lent: what is too small is refused.

use std::sync::atomic::{AtomicBool, Ordering};

/// The version of the archive that this crate is written for: 10,000 times its first number, 100 times the second, and the third.
pub const VERSION: u64 = 100;

/// Bytes of output that a get asks for.
pub const GET_OUT: usize = 256;
/// Bytes of output that a put asks for.
pub const PUT_OUT: usize = 4096;
/// Bytes of output that a tool asks for that writes a sheet.
pub const SHEET_OUT: usize = 2048;
/// Bytes of output that a sheet asks for that is printed as text.
pub const TEXT_OUT: usize = 16_384;
/// Bytes of output that a value asks for that is written as JSON.
pub const JSON_OUT: usize = 2048;
/// Bytes of output that a text asks for that is read as a value.
pub const VALUE_OUT: usize = 256;
/// Bytes of scratch that get and put ask for, those that tell why they refuse, and the checker of plans.
pub const SCRATCH: usize = 65_536;
/// The most values of a plan: starts are an array of so many numbers.
pub const STARTS_MAX: usize = 16;
/// The most nodes of a chain: 48 that a walk can be in, and one that it could not enter.
pub const CHAIN_MAX: usize = 49;
/// The most bytes of stack that a call takes, measured on the deepest jobs (`tests/stack`) and rounded up.
pub const STACK: usize = 192_512;

/// The archive's answer. What a function does not give is 0, and with a refusal all but the number and the node or the detail that it names.
#[derive(Clone, Copy, Debug, PartialEq, Eq)]
pub struct Answer(pub u64);

impl Answer {
    /// The refusal's number; 0 is success.
    pub fn number(self) -> u8 {
        self.0 as u8
    }

    /// How many bytes at the front of the output are what is given.
    pub fn length(self) -> usize {
        (self.0 >> 8 & 0xFFFF) as usize
    }

    /// How many starts were given.
    pub fn count(self) -> usize {
        (self.0 >> 24 & 0xFF) as usize
    }

    /// The nodes entered.
    pub fn steps(self) -> u32 {
        (self.0 >> 32) as u32
    }

    /// How often a variable's length counts in the list's.
    pub fn growth(self) -> usize {
        (self.0 >> 8 & 0xFFFF) as usize
    }

    /// Whether the new plan goes with the list.
    pub fn yes(self) -> bool {
        self.0 >> 8 & 1 == 1
    }

    /// The node that a tool's refusal names, of 81 and 82.
    pub fn node(self) -> Option<u8> {
        matches!(self.number(), 81 | 82).then_some((self.0 >> 8) as u8)
    }

    /// What was expected in a text, or what is wrong with it, of 90 to 94.
    pub fn detail(self) -> Option<u16> {
        matches!(self.number(), 90..=94).then_some((self.0 >> 8) as u16)
    }
}

/// The archive's answer to why a get or a put is refused. What there is not is 0.
#[derive(Clone, Copy, Debug, PartialEq, Eq)]
pub struct WhyAnswer(pub u64);

impl WhyAnswer {
    /// The refusal's number; 0 where nothing is refused.
    pub fn number(self) -> u8 {
        self.0 as u8
    }

    /// How many nodes at the front of the chain lead from the root to the one where it was met.
    pub fn depth(self) -> usize {
        (self.0 >> 8 & 0xFF) as usize
    }

    /// The node that wrote the variable first, of 54.
    pub fn first(self) -> Option<u8> {
        ((self.0 >> 16) as u16).checked_sub(1).map(|node| node as u8)
    }
}

mod archive {
    extern "C" {
        pub fn lens_version() -> u64;

        pub fn lens_get(
            sheet: *const u8,
            sheet_len: usize,
            plan: *const u8,
            plan_len: usize,
            allowance: u32,
            out: *mut u8,
            out_len: usize,
            scratch: *mut u8,
            scratch_len: usize,
        ) -> u64;

        pub fn lens_put(
            sheet: *const u8,
            sheet_len: usize,
            plan: *const u8,
            plan_len: usize,
            view: *const u8,
            view_len: usize,
            allowance: u32,
            out: *mut u8,
            out_len: usize,
            scratch: *mut u8,
            scratch_len: usize,
        ) -> u64;

        pub fn lens_put_starts(
            sheet: *const u8,
            sheet_len: usize,
            plan: *const u8,
            plan_len: usize,
            view: *const u8,
            view_len: usize,
            allowance: u32,
            out: *mut u8,
            out_len: usize,
            scratch: *mut u8,
            scratch_len: usize,
            starts: *mut u16,
        ) -> u64;

        pub fn lens_put_written(
            sheet: *const u8,
            sheet_len: usize,
            plan: *const u8,
            plan_len: usize,
            view: *const u8,
            view_len: usize,
            allowance: u32,
            out: *mut u8,
            out_len: usize,
            scratch: *mut u8,
            scratch_len: usize,
            starts: *mut u16,
            written: *mut u16,
        ) -> u64;

        pub fn lens_why_get(
            sheet: *const u8,
            sheet_len: usize,
            plan: *const u8,
            plan_len: usize,
            allowance: u32,
            scratch: *mut u8,
            scratch_len: usize,
            chain: *mut u8,
        ) -> u64;

        pub fn lens_why_put(
            sheet: *const u8,
            sheet_len: usize,
            plan: *const u8,
            plan_len: usize,
            view: *const u8,
            view_len: usize,
            allowance: u32,
            scratch: *mut u8,
            scratch_len: usize,
            chain: *mut u8,
        ) -> u64;

        pub fn lens_load(sheet: *const u8, sheet_len: usize, plan: *const u8, plan_len: usize, starts: *mut u16) -> u64;

        pub fn lens_find(
            starts: *const u16,
            count: usize,
            plan_len: usize,
            variable: usize,
            start: *mut usize,
            end: *mut usize,
        ) -> u8;

        pub fn lens_number(sheet: *const u8, sheet_len: usize, out: *mut u8, out_len: usize) -> u64;

        pub fn lens_join(
            first: *const u8,
            first_len: usize,
            second: *const u8,
            second_len: usize,
            out: *mut u8,
            out_len: usize,
        ) -> u64;

        pub fn lens_growth(sheet: *const u8, sheet_len: usize, variable: usize) -> u64;

        pub fn lens_to_json(value: *const u8, value_len: usize, out: *mut u8, out_len: usize) -> u64;

        pub fn lens_from_json(text: *const u8, text_len: usize, out: *mut u8, out_len: usize) -> u64;

        pub fn lens_check_types(sheet: *const u8, sheet_len: usize, types: *const u8, types_len: usize) -> u64;

        pub fn lens_read_sheet(text: *const u8, text_len: usize, out: *mut u8, out_len: usize, place: *mut usize) -> u64;

        pub fn lens_print_sheet(sheet: *const u8, sheet_len: usize, out: *mut u8, out_len: usize) -> u64;

        pub fn lens_check_plan(
            sheet: *const u8,
            sheet_len: usize,
            old_plan: *const u8,
            old_len: usize,
            view: *const u8,
            view_len: usize,
            new_plan: *const u8,
            new_len: usize,
            allowance: u32,
            scratch: *mut u8,
            scratch_len: usize,
        ) -> u64;
    }
}

/// The archive's version, as [`VERSION`] has it.
pub fn version() -> u64 {
    // Safety: it takes nothing.
    unsafe { archive::lens_version() }
}

/// Panics where the archive has another version than this crate is written for: asked before every call, answered once.
fn same_version() {
    static SAME: AtomicBool = AtomicBool::new(false);
    if !SAME.load(Ordering::Relaxed) {
        let found = version();
        let [of_archive, of_crate] = [found, VERSION].map(|n| format!("{}.{}.{}", n / 10_000, n / 100 % 100, n % 100));
        assert!(found == VERSION, "the archive has version {of_archive}, and this crate {of_crate}: build both from one version");
        SAME.store(true, Ordering::Relaxed);
    }
}

/// Reads a plan out into `out`.
pub fn get(sheet: &[u8], plan: &[u8], allowance: u32, out: &mut [u8], scratch: &mut [u8]) -> Answer {
    same_version();
    // Safety: each pointer and length are those of a live slice, the mutable ones are exclusive, and the archive keeps none.
    Answer(unsafe {
        archive::lens_get(
            sheet.as_ptr(),
            sheet.len(),
            plan.as_ptr(),
            plan.len(),
            allowance,
            out.as_mut_ptr(),
            out.len(),
            scratch.as_mut_ptr(),
            scratch.len(),
        )
    })
}

/// Reads a list back into `out`.
pub fn put(sheet: &[u8], plan: &[u8], view: &[u8], allowance: u32, out: &mut [u8], scratch: &mut [u8]) -> Answer {
    same_version();
    // Safety: as in `get`.
    Answer(unsafe {
        archive::lens_put(
            sheet.as_ptr(),
            sheet.len(),
            plan.as_ptr(),
            plan.len(),
            view.as_ptr(),
            view.len(),
            allowance,
            out.as_mut_ptr(),
            out.len(),
            scratch.as_mut_ptr(),
            scratch.len(),
        )
    })
}

/// Reads a list back into `out`, and gives where the values of the new plan start.
pub fn put_starts(
    sheet: &[u8],
    plan: &[u8],
    view: &[u8],
    allowance: u32,
    out: &mut [u8],
    scratch: &mut [u8],
    starts: &mut [u16; STARTS_MAX],
) -> Answer {
    same_version();
    // Safety: as in `get`; the starts are as many numbers as the archive may write.
    Answer(unsafe {
        archive::lens_put_starts(
            sheet.as_ptr(),
            sheet.len(),
            plan.as_ptr(),
            plan.len(),
            view.as_ptr(),
            view.len(),
            allowance,
            out.as_mut_ptr(),
            out.len(),
            scratch.as_mut_ptr(),
            scratch.len(),
            starts.as_mut_ptr(),
        )
    })
}

/// Reads a list back into `out`, and gives where the values of the new plan start and which variables took a view: bit i of
/// `written` for variable i. With a refusal `written` stays what it was.
#[allow(clippy::too_many_arguments)] // those of the archive's function
pub fn put_written(
    sheet: &[u8],
    plan: &[u8],
    view: &[u8],
    allowance: u32,
    out: &mut [u8],
    scratch: &mut [u8],
    starts: &mut [u16; STARTS_MAX],
    written: &mut u16,
) -> Answer {
    same_version();
    // Safety: as in `put_starts`; the last pointer is that of an exclusive reference.
    Answer(unsafe {
        archive::lens_put_written(
            sheet.as_ptr(),
            sheet.len(),
            plan.as_ptr(),
            plan.len(),
            view.as_ptr(),
            view.len(),
            allowance,
            out.as_mut_ptr(),
            out.len(),
            scratch.as_mut_ptr(),
            scratch.len(),
            starts.as_mut_ptr(),
            written,
        )
    })
}

/// Tells why [`get`] refuses: the nodes down to the one where it was met are at the front of `chain`. No other byte of it is written.
pub fn why_get(sheet: &[u8], plan: &[u8], allowance: u32, scratch: &mut [u8], chain: &mut [u8; CHAIN_MAX]) -> WhyAnswer {
    same_version();
    // Safety: as in `get`; the chain is as many bytes as the archive may write.
    WhyAnswer(unsafe {
        archive::lens_why_get(
            sheet.as_ptr(),
            sheet.len(),
            plan.as_ptr(),
            plan.len(),
            allowance,
            scratch.as_mut_ptr(),
            scratch.len(),
            chain.as_mut_ptr(),
        )
    })
}

/// Tells why [`put`] refuses, likewise.
pub fn why_put(
    sheet: &[u8],
    plan: &[u8],
    view: &[u8],
    allowance: u32,
    scratch: &mut [u8],
    chain: &mut [u8; CHAIN_MAX],
) -> WhyAnswer {
    same_version();
    // Safety: as in `why_get`.
    WhyAnswer(unsafe {
        archive::lens_why_put(
            sheet.as_ptr(),
            sheet.len(),
            plan.as_ptr(),
            plan.len(),
            view.as_ptr(),
            view.len(),
            allowance,
            scratch.as_mut_ptr(),
            scratch.len(),
            chain.as_mut_ptr(),
        )
    })
}

/// Gives where the values of a plan start.
pub fn load(sheet: &[u8], plan: &[u8], starts: &mut [u16; STARTS_MAX]) -> Answer {
    same_version();
    // Safety: as in `put_starts`.
    Answer(unsafe { archive::lens_load(sheet.as_ptr(), sheet.len(), plan.as_ptr(), plan.len(), starts.as_mut_ptr()) })
}

/// Gives where the value of a variable stands, by the first `count` starts: the refusal's number, 0 for success.
pub fn find(starts: &[u16; STARTS_MAX], count: usize, plan_len: usize, variable: usize, start: &mut usize, end: &mut usize) -> u8 {
    same_version();
    // Safety: the starts are as many numbers as the archive may read; the other pointers are those of exclusive references.
    unsafe { archive::lens_find(starts.as_ptr(), count, plan_len, variable, start, end) }
}

/// Writes a sheet anew into `out`, with its nodes numbered as first met.
pub fn number(sheet: &[u8], out: &mut [u8]) -> Answer {
    same_version();
    // Safety: as in `get`.
    Answer(unsafe { archive::lens_number(sheet.as_ptr(), sheet.len(), out.as_mut_ptr(), out.len()) })
}

/// Joins two sheets into `out`.
pub fn join(first: &[u8], second: &[u8], out: &mut [u8]) -> Answer {
    same_version();
    // Safety: as in `get`.
    Answer(unsafe { archive::lens_join(first.as_ptr(), first.len(), second.as_ptr(), second.len(), out.as_mut_ptr(), out.len()) })
}

/// Tells how often a variable's length counts in the list's.
pub fn growth(sheet: &[u8], variable: usize) -> Answer {
    same_version();
    // Safety: as in `get`.
    Answer(unsafe { archive::lens_growth(sheet.as_ptr(), sheet.len(), variable) })
}

/// Judges a new plan beside the old one and the list.
pub fn check_plan(sheet: &[u8], old: &[u8], view: &[u8], new: &[u8], allowance: u32, scratch: &mut [u8]) -> Answer {
    same_version();
    // Safety: as in `get`.
    Answer(unsafe {
        archive::lens_check_plan(
            sheet.as_ptr(),
            sheet.len(),
            old.as_ptr(),
            old.len(),
            view.as_ptr(),
            view.len(),
            new.as_ptr(),
            new.len(),
            allowance,
            scratch.as_mut_ptr(),
            scratch.len(),
        )
    })
}

/// Writes a value as JSON into `out`.
pub fn to_json(value: &[u8], out: &mut [u8]) -> Answer {
    same_version();
    // Safety: as in `get`.
    Answer(unsafe { archive::lens_to_json(value.as_ptr(), value.len(), out.as_mut_ptr(), out.len()) })
}

/// Reads a value from JSON into `out`.
pub fn from_json(text: &[u8], out: &mut [u8]) -> Answer {
    same_version();
    // Safety: as in `get`.
    Answer(unsafe { archive::lens_from_json(text.as_ptr(), text.len(), out.as_mut_ptr(), out.len()) })
}

/// Checks a sheet by the types lent beside it.
pub fn check_types(sheet: &[u8], types: &[u8]) -> Answer {
    same_version();
    // Safety: as in `get`.
    Answer(unsafe { archive::lens_check_types(sheet.as_ptr(), sheet.len(), types.as_ptr(), types.len()) })
}

/// Reads the sheet of a text into `out`. With a refusal of the text (90 to 94) `place` becomes how many of its bytes stand before the fault;
/// otherwise it stays what it was.
pub fn read_sheet(text: &[u8], out: &mut [u8], place: &mut usize) -> Answer {
    same_version();
    // Safety: as in `get`; the last pointer is that of an exclusive reference.
    Answer(unsafe { archive::lens_read_sheet(text.as_ptr(), text.len(), out.as_mut_ptr(), out.len(), place) })
}

/// Prints a sheet as text into `out`.
pub fn print_sheet(sheet: &[u8], out: &mut [u8]) -> Answer {
    same_version();
    // Safety: as in `get`.
    Answer(unsafe { archive::lens_print_sheet(sheet.as_ptr(), sheet.len(), out.as_mut_ptr(), out.len()) })
}
