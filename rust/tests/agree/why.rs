//! Why a job is refused: archive and reference say the same, and the refusal is that of the get or put.

use crate::cases::Case;
use crate::ROOM;
use lens::raw::{self, WhyAnswer, CHAIN_MAX, SCRATCH};
use reference::why::Explanation;

/// What stands in the lent chain before a call. No node has this number.
const BEFORE: [u8; CHAIN_MAX] = [0xFF; CHAIN_MAX];

/// Asks both sides why the case's job is refused, in the scratch that the case lends: the number, 0 for a success.
pub fn check_why(case: &Case, noise: &[u8], scratch: &mut [u8]) -> Result<u8, String> {
    let job = &case.job;
    let mut chain = BEFORE;
    scratch.copy_from_slice(&noise[..ROOM]);
    let lent = &mut scratch[..case.scratch_len];
    let answer = match &job.view {
        None => raw::why_get(&job.sheet, &job.plan, job.allowance, lent, &mut chain),
        Some(view) => raw::why_put(&job.sheet, &job.plan, view, job.allowance, lent, &mut chain),
    };
    let cleared = if matches!(answer.number(), 2 | 3) { 0 } else { SCRATCH };
    if scratch[..cleared] != [0; SCRATCH][..cleared] || scratch[cleared..] != noise[cleared..ROOM] {
        return Err(format!("after the refusal {} was explained, scratch is not as it is to be", answer.number()));
    }
    let wanted = match &job.view {
        None => reference::why_get(&job.sheet, &job.plan, job.allowance, &mut scratch[..case.scratch_len]),
        Some(view) => reference::why_put(&job.sheet, &job.plan, view, job.allowance, &mut scratch[..case.scratch_len]),
    };
    let (wanted_answer, wanted_chain) = packed(wanted.as_ref().err());
    if (answer, chain) != (wanted_answer, wanted_chain) {
        let told = wanted.map_or_else(|explanation| explanation.line(), |()| "ok".to_string());
        return Err(format!("asked why, the archive answers {:016X} and the nodes {chain:?}, the reference {told}", answer.0));
    }
    Ok(answer.number())
}

/// The archive's answer and the lent chain for an explanation; 0 and as before for a success. Behind the chain's nodes it is as before.
fn packed(explanation: Option<&Explanation>) -> (WhyAnswer, [u8; CHAIN_MAX]) {
    let mut nodes = BEFORE;
    let Some(Explanation { refusal, chain, first }) = explanation else { return (WhyAnswer(0), nodes) };
    nodes[..chain.len()].copy_from_slice(chain);
    let by = first.map_or(0, |first| 1 + u64::from(first));
    (WhyAnswer(u64::from(*refusal) | (chain.len() as u64) << 8 | by << 16), nodes)
}
