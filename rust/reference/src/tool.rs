//! The inputs of the program `tools`, and what it prints.

use crate::answer::{taken, unpacked, Fault, NodeRefusal};
use crate::job::{counted, Job, LONGEST_INPUT};
use crate::vectors::hex;
use crate::why::Explanation;
use crate::{Refusal, JSON_OUT, PUT_OUT, SCRATCH, SHEET_OUT, STARTS_MAX, TEXT_OUT, VALUE_OUT};

/// One call.
#[derive(Clone, Debug, PartialEq, Eq)]
pub enum Tool {
    /// 4C: the starts of a plan's values.
    Load { sheet: Vec<u8>, plan: Vec<u8> },
    /// 56: a value by its number and the plan's starts.
    Value { variable: usize, starts: Vec<u16>, plan: Vec<u8> },
    /// 53: a put, with the starts of its new plan; 57 (`bits`): with the variables that took a view.
    Put { bits: bool, sheet: Vec<u8>, plan: Vec<u8>, view: Vec<u8>, allowance: u32 },
    /// 59: why a job of document 01's program is refused.
    Why(Job),
    /// 4E: a sheet numbered anew.
    Number { sheet: Vec<u8> },
    /// 4A: two sheets joined.
    Join { first: Vec<u8>, second: Vec<u8> },
    /// 52: how often a variable's length counts in the list's.
    Growth { sheet: Vec<u8>, variable: usize },
    /// 43: whether a new plan is one that the list may have made of the old one.
    Check { sheet: Vec<u8>, old: Vec<u8>, view: Vec<u8>, new: Vec<u8>, allowance: u32 },
    /// 44: a value written as JSON.
    ToJson { value: Vec<u8> },
    /// 45: a value read from JSON.
    FromJson { text: Vec<u8> },
    /// 54: a sheet checked by types.
    Types { sheet: Vec<u8>, types: Vec<u8> },
    /// 41: a text read to its sheet.
    Read { text: Vec<u8> },
    /// 55: a sheet printed as text.
    Print { sheet: Vec<u8> },
}

/// What a call gives.
#[derive(Clone, Debug, PartialEq, Eq)]
pub enum Given {
    Starts(Vec<u16>),
    /// A value, a sheet, or the text of a sheet, in hexadecimal.
    Bytes(Vec<u8>),
    /// The sheet of a text.
    Read(Result<Vec<u8>, Fault>),
    Put {
        steps: u32,
        plan: Vec<u8>,
        starts: Vec<u16>,
    },
    Written {
        steps: u32,
        plan: Vec<u8>,
        written: u16,
    },
    Why(Result<(), Explanation>),
    Growth(usize),
    Verdict(bool),
    Text(String),
    /// Nothing: the sheet passed.
    Passed,
}

impl Tool {
    /// A program's input taken apart, or the refusal 60 or 61.
    pub fn from_input(input: &[u8]) -> Result<Tool, Refusal> {
        if input.len() > LONGEST_INPUT {
            return Err(61);
        }
        Tool::take_apart(input).ok_or(60)
    }

    fn take_apart(input: &[u8]) -> Option<Tool> {
        let (&letter, fields) = input.split_first()?;
        match letter {
            0x4C => {
                let (sheet, plan) = counted(fields)?;
                Some(Tool::Load { sheet: sheet.to_vec(), plan: plan.to_vec() })
            }
            0x56 => {
                let (&[variable, count], rest) = fields.split_first_chunk()?;
                let (starts, plan) = rest.split_at_checked(2 * usize::from(count))?;
                let starts = starts.chunks(2).map(|start| u16::from_be_bytes([start[0], start[1]])).collect();
                Some(Tool::Value { variable: variable.into(), starts, plan: plan.to_vec() })
            }
            0x53 | 0x57 => {
                let Job { sheet, plan, view, allowance } = Job::put(fields)?;
                Some(Tool::Put { bits: letter == 0x57, sheet, plan, view: view?, allowance })
            }
            0x59 => Job::take_apart(fields).map(Tool::Why),
            0x4E => Some(Tool::Number { sheet: fields.to_vec() }),
            0x4A => {
                let (first, second) = counted(fields)?;
                Some(Tool::Join { first: first.to_vec(), second: second.to_vec() })
            }
            0x52 => {
                let (&variable, sheet) = fields.split_first()?;
                Some(Tool::Growth { sheet: sheet.to_vec(), variable: variable.into() })
            }
            0x44 => Some(Tool::ToJson { value: fields.to_vec() }),
            0x45 => Some(Tool::FromJson { text: fields.to_vec() }),
            0x54 => {
                let (sheet, types) = counted(fields)?;
                Some(Tool::Types { sheet: sheet.to_vec(), types: types.to_vec() })
            }
            0x41 => Some(Tool::Read { text: fields.to_vec() }),
            0x55 => Some(Tool::Print { sheet: fields.to_vec() }),
            0x43 => {
                let Job { sheet, plan, view, allowance } = Job::put(fields)?;
                let fields = view?;
                let (view, new) = counted(&fields)?;
                Some(Tool::Check { sheet, old: plan, view: view.to_vec(), new: new.to_vec(), allowance })
            }
            _ => None,
        }
    }

    /// Runs the call on the reference.
    pub fn run(&self) -> Result<Given, NodeRefusal> {
        let mut starts = [0; STARTS_MAX];
        match self {
            Tool::Load { sheet, plan } => {
                let answer = taken(crate::load(sheet, plan, &mut starts))?;
                Ok(Given::Starts(starts[..answer.count].to_vec()))
            }
            Tool::Value { variable, starts, plan } => {
                crate::find(starts, plan.len(), *variable)?;
                Ok(Given::Bytes(crate::part(starts, plan, *variable).to_vec()))
            }
            Tool::Put { bits, sheet, plan, view, allowance } => {
                let (mut out, mut scratch, mut written) = ([0; PUT_OUT], [0; SCRATCH], 0);
                let answer = crate::put_written(sheet, plan, view, *allowance, &mut out, &mut scratch, &mut starts, &mut written);
                let answer = taken(answer)?;
                let (steps, plan) = (answer.steps, out[..answer.length].to_vec());
                if *bits {
                    return Ok(Given::Written { steps, plan, written });
                }
                Ok(Given::Put { steps, plan, starts: starts[..answer.count].to_vec() })
            }
            Tool::Why(Job { sheet, plan, view, allowance }) => {
                let scratch = &mut [0; SCRATCH];
                Ok(Given::Why(match view {
                    None => crate::why_get(sheet, plan, *allowance, scratch),
                    Some(view) => crate::why_put(sheet, plan, view, *allowance, scratch),
                }))
            }
            Tool::Number { sheet } => {
                let mut out = [0; SHEET_OUT];
                let length = unpacked(crate::number(sheet, &mut out))?;
                Ok(Given::Bytes(out[..length].to_vec()))
            }
            Tool::Join { first, second } => {
                let mut out = [0; SHEET_OUT];
                let length = unpacked(crate::join(first, second, &mut out))?;
                Ok(Given::Bytes(out[..length].to_vec()))
            }
            Tool::Check { sheet, old, view, new, allowance } => {
                let answer = crate::check_plan(sheet, old, view, new, *allowance, &mut [0; SCRATCH]);
                Ok(Given::Verdict(unpacked(answer)? == 1))
            }
            Tool::ToJson { value } => {
                let mut out = [0; JSON_OUT];
                let length = unpacked(crate::to_json(value, &mut out))?;
                Ok(Given::Text(out[..length].iter().copied().map(char::from).collect()))
            }
            Tool::FromJson { text } => {
                let mut out = [0; VALUE_OUT];
                let length = unpacked(crate::from_json(text, &mut out))?;
                Ok(Given::Bytes(out[..length].to_vec()))
            }
            Tool::Types { sheet, types } => {
                unpacked(crate::check_types(sheet, types))?;
                Ok(Given::Passed)
            }
            Tool::Growth { sheet, variable } => Ok(Given::Growth(unpacked(crate::growth(sheet, *variable))?)),
            Tool::Read { text } => {
                let (mut out, mut place) = ([0; SHEET_OUT], 0);
                let answer = crate::read_sheet(text, &mut out, &mut place);
                Ok(Given::Read(match answer as u8 {
                    0 => Ok(out[..(answer >> 8) as usize].to_vec()),
                    refusal => Err(Fault { refusal, place, detail: (answer >> 8) as u8 }),
                }))
            }
            Tool::Print { sheet } => {
                let mut out = [0; TEXT_OUT];
                let length = unpacked(crate::print_sheet(sheet, &mut out))?;
                Ok(Given::Bytes(out[..length].to_vec()))
            }
        }
    }
}

/// What the program prints for an input, without the line feed, where `run` does the call.
pub fn printed(input: &[u8], run: impl Fn(&Tool) -> Result<Given, NodeRefusal>) -> String {
    match Tool::from_input(input).map_err(NodeRefusal::from).and_then(|tool| run(&tool)) {
        Ok(Given::Starts(starts)) => format!("ok {}", decimal(&starts)),
        Ok(Given::Bytes(bytes) | Given::Read(Ok(bytes))) => format!("ok {}", hex(&bytes)),
        Ok(Given::Read(Err(Fault { refusal, place, detail }))) => format!("no {refusal} {place} {detail}"),
        Ok(Given::Put { steps, plan, starts }) => format!("ok {steps} {} {}", hex(&plan), decimal(&starts)),
        Ok(Given::Written { steps, plan, written }) => format!("ok {steps} {} {written:04X}", hex(&plan)),
        Ok(Given::Growth(growth)) => format!("ok {growth}"),
        Ok(Given::Verdict(yes)) => format!("ok {}", if yes { "yes" } else { "no" }),
        Ok(Given::Text(text)) => format!("ok {text}"),
        Ok(Given::Passed | Given::Why(Ok(()))) => "ok".to_string(),
        Ok(Given::Why(Err(explanation))) => explanation.line(),
        Err(NodeRefusal { refusal, node: None }) => format!("no {refusal}"),
        Err(NodeRefusal { refusal, node: Some(node) }) => format!("no {refusal} {node}"),
    }
}

/// Numbers in decimal, with single spaces between them.
fn decimal(numbers: &[u16]) -> String {
    numbers.iter().map(u16::to_string).collect::<Vec<_>>().join(" ")
}
