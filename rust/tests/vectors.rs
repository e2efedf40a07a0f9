//! Files of test vectors, done by the archive: a line is an input of a program in hexadecimal (`-` for no byte), and what the program
//! prints. `LENS_VECTORS` names a file for document 01's program, `LENS_TOOL_VECTORS` one for `tools` (`check_jobs` and `check_tools` have
//! those that are taken where they are not set).

use lens::{json, raw, NodeRefusal, Plan, Sheet, Starts};
use reference::answer::{self, Fault};
use reference::job::{self, Job};
use reference::tool::{self, Given, Tool};
use reference::vectors::{check_jobs, check_tools};
use reference::why::Explanation;

#[test]
fn jobs_of_a_file() {
    let run = |job: &Job, out: &mut [u8], scratch: &mut [u8]| match &job.view {
        None => raw::get(&job.sheet, &job.plan, job.allowance, out, scratch).0,
        Some(view) => raw::put(&job.sheet, &job.plan, view, job.allowance, out, scratch).0,
    };
    check_jobs(|input| job::printed(input, run));
}

fn run_tool(tool: &Tool) -> Result<Given, NodeRefusal> {
    match tool {
        Tool::Load { sheet, plan } => {
            let plan = Sheet::new(sheet).load(plan)?;
            Ok(Given::Starts(plan.starts().numbers().to_vec()))
        }
        Tool::Value { variable, starts, plan } => {
            let starts = Starts::new(starts);
            starts.find(plan.len(), *variable)?;
            Ok(Given::Bytes(Plan::with_starts(plan, starts).value(*variable).to_vec()))
        }
        Tool::Put { bits, sheet, plan, view, allowance } => {
            let put = Sheet::new(sheet).put(plan, view, *allowance)?;
            if *bits {
                return Ok(Given::Written { steps: put.steps, written: put.bits, plan: put.plan });
            }
            Ok(Given::Put { steps: put.steps, starts: put.starts.numbers().to_vec(), plan: put.plan })
        }
        Tool::Why(Job { sheet, plan, view, allowance }) => {
            let sheet = Sheet::new(sheet);
            let explanation = match view {
                None => sheet.why_get(plan, *allowance),
                Some(view) => sheet.why_put(plan, view, *allowance),
            };
            Ok(Given::Why(
                explanation
                    .map_or(Ok(()), |why| Err(Explanation { refusal: why.refusal.number(), chain: why.chain, first: why.first })),
            ))
        }
        Tool::Number { sheet } => Ok(Given::Bytes(Sheet::new(sheet).numbered()?)),
        Tool::Growth { sheet, variable } => Ok(Given::Growth(Sheet::new(sheet).growth(*variable)?)),
        Tool::Check { sheet, old, view, new, allowance } => {
            Ok(Given::Verdict(Sheet::new(sheet).accepts(old, view, new, *allowance)?))
        }
        Tool::ToJson { value } => Ok(Given::Text(json::write(value)?)),
        Tool::FromJson { text } => Ok(Given::Bytes(json::read(text)?)),
        Tool::Types { sheet, types } => {
            Sheet::new(sheet).check_types(types)?;
            Ok(Given::Passed)
        }
        Tool::Join { first, second } => Ok(Given::Bytes(Sheet::new(first).join(Sheet::new(second))?)),
        Tool::Read { text } => Ok(Given::Read(Sheet::parse(text).map_err(|refused| Fault {
            refusal: refused.number(),
            place: refused.place,
            detail: refused.detail as u8,
        }))),
        Tool::Print { sheet } => Ok(Given::Bytes(Sheet::new(sheet).text()?.into_bytes())),
    }
}

#[test]
fn tools_of_a_file() {
    let refused = |refused: NodeRefusal| answer::NodeRefusal { refusal: refused.refusal.number(), node: refused.node };
    check_tools(|input| tool::printed(input, |tool| run_tool(tool).map_err(refused)));
}
