//! Random jobs with buffer sizes, each from its number alone.

use crate::edges::edge;
use crate::random::Random;
use crate::sheets::{by_record, by_type};
use crate::values::{damage, Type, Value};
use reference::answer::taken;
use reference::job::Job;
use reference::{ALLOWANCE, PUT_OUT, SCRATCH};

pub struct Case {
    pub job: Job,
    pub out_len: usize,
    pub scratch_len: usize,
}

/// Bytes that a buffer may have beyond what its call asks for.
pub const MORE: usize = 64;

/// Case `number`. `scratch` is lent to the reference, which tells what the plan's list is.
pub fn case(number: u64, scratch: &mut [u8]) -> Case {
    let random = &mut Random::new(number);
    let mut job = if random.percent(18) { edge_job(random, scratch) } else { job(random, scratch) };
    if random.percent(6) {
        damage(&mut job.plan, random);
    }
    if random.percent(6) {
        if let Some(view) = &mut job.view {
            damage(view, random);
        }
    }
    if random.percent(1) {
        return small(random, job);
    }
    let out_len = size(random, job.out_size());
    Case { job, out_len, scratch_len: size(random, SCRATCH) }
}

/// A case that one or more of the first three refusals meet.
fn small(random: &mut Random, mut job: Job) -> Case {
    let mut less = |asked: usize| match random.below(4) {
        0 => asked - 1,
        1 => random.below(asked),
        _ => asked,
    };
    let (out_len, scratch_len) = (less(job.out_size()), less(SCRATCH));
    if random.percent(50) {
        job.allowance = random.pick(&[0, ALLOWANCE + 1]);
    }
    Case { job, out_len, scratch_len }
}

fn edge_job(random: &mut Random, scratch: &mut [u8]) -> Job {
    let mut job = edge(random);
    if job.view.is_none() && random.percent(50) {
        let allowance = std::mem::replace(&mut job.allowance, 1000);
        let (list, _) = answer(&job, scratch);
        job.view = Some(view(random, list, None));
        job.allowance = if random.percent(50) { allowance } else { 2 * allowance };
    }
    job
}

fn job(random: &mut Random, scratch: &mut [u8]) -> Job {
    let source = source(random);
    let mut job = Job { sheet: source.sheet, plan: source.plan, view: None, allowance: 1000 };
    let (list, get_steps) = answer(&job, scratch);
    if random.percent(55) {
        let other = Job { plan: source.other_plan, ..job.clone() };
        let start = if random.percent(50) { answer(&other, scratch).0 } else { list };
        job.view = Some(view(random, start, source.view));
    }
    job.allowance = allowance(random, &job, get_steps, scratch);
    job
}

struct Source {
    sheet: Vec<u8>,
    plan: Vec<u8>,
    /// Another plan for the same sheet: its list is one that the sheet can give.
    other_plan: Vec<u8>,
    view: Option<Type>,
}

fn source(random: &mut Random) -> Source {
    match random.below(100) {
        0..=2 => Source { sheet: junk(random), plan: junk(random), other_plan: Vec::new(), view: None },
        3..=17 => {
            let mut sheet = by_record(random);
            if random.percent(10) {
                damage(&mut sheet, random);
            }
            let k = usize::from(sheet.get(1).copied().unwrap_or(1)).min(20);
            let [plan, other_plan] = [(); 2].map(|()| (0..k).flat_map(|_| Value::any(random).bytes()).collect());
            Source { sheet, plan, other_plan, view: None }
        }
        choice => {
            let built = by_type(random);
            let mut sheet = built.bytes;
            if choice < 33 {
                for _ in 0..random.of(1..4) {
                    damage(&mut sheet, random);
                }
            }
            let mut plan = plan(random, &built.plan);
            if built.plan.len() == 16 && random.percent(30) {
                plan = full_plan(random);
            }
            Source { sheet, plan, other_plan: self::plan(random, &built.plan), view: Some(built.view) }
        }
    }
}

/// A plan of these types, now and then with a value of another.
fn plan(random: &mut Random, types: &[Type]) -> Vec<u8> {
    let long = random.percent(4);
    let mut plan = Vec::new();
    for ty in types {
        let value = match random.below(50) {
            0 => Value::any(random),
            _ if long => Value::long(random, ty),
            _ => Value::random(random, ty),
        };
        value.encode(&mut plan);
    }
    plan
}

/// Sixteen values of 255 bytes, the longest there are (the length of a value is odd): a list of numbers within pairs.
fn full_plan(random: &mut Random) -> Vec<u8> {
    let mut plan = Vec::new();
    for _ in 0..16 {
        let members: Vec<Value> = if random.percent(30) {
            (0..random.of(0..43)).map(|_| Value::price(random)).collect()
        } else {
            (0..random.of(0..64)).map(|_| Value::Number(random.below(9) as u32)).collect()
        };
        let list = Value::List(members).bytes();
        plan.extend([0x05, 0x01].repeat((255 - list.len()) / 2));
        plan.extend(list);
    }
    plan
}

fn junk(random: &mut Random) -> Vec<u8> {
    let length = if random.percent(20) { random.below(400) } else { random.below(12) };
    let small = random.percent(70);
    (0..length).map(|_| if small { random.byte() % 8 } else { random.byte() }).collect()
}

/// The reference's output and steps; no byte and 0 with a refusal.
fn answer(job: &Job, scratch: &mut [u8]) -> (Vec<u8>, u32) {
    let mut out = [0; PUT_OUT];
    let success = taken(job.run(&mut out, scratch)).unwrap_or_default();
    (out[..success.length].to_vec(), success.steps)
}

/// A list to put: the plan's own, edited or not, or another.
fn view(random: &mut Random, list: Vec<u8>, ty: Option<Type>) -> Vec<u8> {
    if random.percent(2) {
        return junk(random);
    }
    if !list.is_empty() && random.percent(90) {
        let mut value = Value::decode(&list);
        for _ in 0..random.pick(&[0, 0, 1, 1, 2, 3]) {
            value.edit(random);
        }
        return value.bytes();
    }
    match ty {
        Some(ty) if random.percent(80) => Value::random(random, &ty).bytes(),
        _ => Value::any(random).bytes(),
    }
}

fn allowance(random: &mut Random, job: &Job, get_steps: u32, scratch: &mut [u8]) -> u32 {
    match random.below(100) {
        0 => random.pick(&[0, ALLOWANCE + 1, u32::MAX, 1 << 24]),
        1 => ALLOWANCE + 1 + random.next() as u32 % 100_000_000,
        2..=5 => ALLOWANCE,
        6..=13 => random.of(1..40) as u32,
        14..=27 => {
            // About the steps that the job takes.
            match if job.view.is_some() { answer(job, scratch).1 } else { get_steps } {
                0 => 1000,
                1 => random.of(1..3) as u32,
                steps => steps - 1 + random.below(3) as u32,
            }
        }
        28..=32 if get_steps > 0 => (get_steps * 48).min(ALLOWANCE),
        33..=40 => random.of(40..5000) as u32,
        _ => 1000,
    }
}

fn size(random: &mut Random, asked: usize) -> usize {
    match random.below(200) {
        0 => random.below(asked),
        1 => asked - 1,
        2..=60 => asked + random.below(MORE + 1),
        _ => asked,
    }
}
