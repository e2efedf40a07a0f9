//! New plans judged (request 10): archive and reference agree, whatever put gives gets a yes, and a yes means that the plan reads out so.

use crate::cases;
use crate::random::Random;
use crate::tools::check_cases;
use crate::values::{damage, Value};
use lens::raw::{self, SCRATCH};
use lens::{Sheet, ALLOWANCE_MAX};
use reference::job::Job;

#[derive(Debug)]
struct Case {
    job: Job,
    view: Vec<u8>,
    new: Vec<u8>,
    scratch_len: usize,
    /// The new plan is the one that put gives.
    of_put: bool,
}

fn case(random: &mut Random) -> Case {
    let job = cases::case(random.next(), &mut [0; SCRATCH]).job;
    let sheet = Sheet::new(&job.sheet);
    let view = match &job.view {
        Some(view) => view.clone(),
        None => sheet.get(&job.plan, job.allowance.clamp(1, ALLOWANCE_MAX)).map_or(vec![0x02], |got| got.view),
    };
    let put = sheet.put(&job.plan, &view, job.allowance);
    let of_put = put.is_ok() && random.percent(50);
    let mut new = put.map_or_else(|_| job.plan.clone(), |put| put.plan);
    if !of_put {
        match random.below(6) {
            0 => damage(&mut new, random),
            1 => new = job.plan.clone(),
            2 => {}
            _ => change(random, &mut new),
        }
    }
    let scratch_len = match random.below(60) {
        0 => SCRATCH - 1,
        1 => random.below(SCRATCH),
        _ => SCRATCH + random.below(65),
    };
    Case { job, view, new, scratch_len, of_put }
}

/// Changes one value of a plan, where it is one.
fn change(random: &mut Random, plan: &mut Vec<u8>) {
    if reference::from_front(plan, 0).is_none() {
        return;
    }
    let mut values: Vec<Vec<u8>> = (0..).map_while(|variable| reference::from_front(plan, variable)).map(<[u8]>::to_vec).collect();
    let at = random.below(values.len());
    values[at] = if random.percent(50) {
        Value::any(random).bytes()
    } else {
        let mut value = Value::decode(&values[at]);
        value.edit(random);
        value.bytes()
    };
    *plan = values.concat();
}

#[test]
fn new_plans_judged() {
    let refusals = [0, 2, 3, 10, 11, 13, 20, 21, 22, 30, 31, 32, 40, 41, 42, 43, 44, 45, 46, 85];
    check_cases(&refusals, case, |Case { job, view, new, scratch_len, of_put }, both| {
        let Job { sheet, plan, allowance, .. } = job;
        let archive = |scratch: &mut [u8]| raw::check_plan(sheet, plan, view, new, *allowance, scratch);
        let reference = |scratch: &mut [u8]| reference::check_plan(sheet, plan, view, new, *allowance, scratch);
        let answer = both.call_in_scratch(*scratch_len, archive, reference);
        if *scratch_len < SCRATCH {
            return;
        }
        let yes = answer.number() == 0 && answer.yes();
        assert!(yes || !of_put, "put's own plan gets no yes");
        if yes {
            assert_eq!(Sheet::new(sheet).get(new, *allowance).map(|got| got.view).as_ref(), Ok(view));
        }
    });
}
