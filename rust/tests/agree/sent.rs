//! Jobs in which a list case somewhere in a sheet switches to its branch with members, with defaults that take after what is put into it.

use crate::edges::{numbers, sized};
use crate::random::Random;
use crate::values::Value;
use reference::job::Job;

/// Where the case stands.
#[derive(Clone, Copy, PartialEq)]
enum Place {
    Root,
    Left,
    Right,
    Rest,
    Sum,
    Section,
    /// In a section, whose variables are the plan's in the other order.
    Turned,
    Members,
    /// In the branch of another case, which adds variables 2 and 3.
    Branch,
    SubjectOfCase,
    SubjectOfEach,
}

use Place::*;
const PLACES: [Place; 12] = [Root, Left, Right, Rest, Sum, Section, Turned, Members, Branch, Branch, SubjectOfCase, SubjectOfEach];

/// Nodes by their place behind the case. From 4 to 16 they are made of the view, where they are a default.
const SUBJECT: u8 = 1;
const EMPTY_BRANCH: u8 = 2;
const BRANCH: u8 = 3;
const PAIR: u8 = 17;
const VIEW: u8 = 18;
/// Variable 1, which no default has.
const OTHER: u8 = 19;
const NOTHING: u8 = 20;
const NINE: u8 = 21;
const FIRST: u8 = 22;
const REST: u8 = 23;
const VARIABLE_2: u8 = 24;

const DEFAULT_FIRSTS: [u8; 22] = [VIEW, VIEW, VIEW, VIEW, 4, 5, 6, 6, 6, 6, 7, 8, 9, 10, 11, 12, 13, 14, 15, OTHER, NOTHING, NINE];
const DEFAULT_RESTS: [u8; 22] =
    [VIEW, VIEW, VIEW, VIEW, 4, 4, 6, 7, 7, 7, 7, 10, 11, 12, 12, 13, 15, 16, OTHER, NOTHING, NOTHING, NINE];

pub fn sent(random: &mut Random) -> Job {
    let place = random.pick(&PLACES);
    let branch = random.below(9);
    let sheet = sheet(random, place, branch);
    let plan = plan(random, place);
    let view = Some(list(random, place, branch));
    let allowance = if random.percent(20) { random.of(1..30) as u32 } else { 1000 };
    Job { sheet, plan, view, allowance }
}

fn sheet(random: &mut Random, place: Place, branch: usize) -> Vec<u8> {
    let case = u8::from(place != Root);
    let node = |at: u8| case + at;
    let defaults = |random: &mut Random| [random.pick(&DEFAULT_FIRSTS), random.pick(&DEFAULT_RESTS)].map(node);
    let mut sheet = vec![0x01, 0x02, 0x00, 0x20, case, 0x20, node(PAIR)];
    let others = defaults(random);
    let head: &[u8] = match place {
        Root => &[],
        Left => &[0x16, case, node(OTHER)],
        Right => &[0x16, node(OTHER), case],
        Rest => &[0x15, node(NINE), case],
        Sum => &[0x1B, case, 0, 1],
        Section => &[0x1A, 0, 0, 1],
        Turned => &[0x1A, 0, 1, 0],
        Members => &[0x1C, node(VIEW), 0, 1, node(NOTHING)],
        Branch => &[0x17, node(OTHER), node(NOTHING), 1, case, 2, others[0], others[1]],
        SubjectOfCase => &[0x17, case, node(NOTHING), 1, node(BRANCH), 2, others[0], others[1]],
        SubjectOfEach => &[0x1C, case, 1, 1, node(NOTHING)],
    };
    sheet.extend(head);
    let tests = random.pick(&[[1, 2], [1, 2], [1, 2], [1, 0], [1, 0], [1, 0], [1, 5], [1, 6], [3, 0], [4, 2]]);
    let [first, rest] = defaults(random);
    sheet.extend([0x17, node(SUBJECT), node(EMPTY_BRANCH), tests[0], node(BRANCH), tests[1], first, rest]);
    sheet.extend([0x10, if place == Branch && random.percent(50) { 3 } else { 0 }]);
    sheet.push(match tests[0] {
        3 => 0x11,
        4 => 0x12,
        _ => 0x13,
    });
    let [first_variable, rest_variable] = if place == Branch { [4, 5] } else { [2, 3] };
    let members: &[u8] = match branch {
        0 | 1 => &[0x10, 1], // both keep their defaults
        2 => &[0x15, node(FIRST), node(NOTHING)],
        3 => &[0x15, node(NINE), node(REST)],
        4 => &[0x16, node(FIRST), node(OTHER)],
        5 => &[0x15, node(FIRST), node(REST)],
        6 => &[0x15, node(OTHER), node(REST)],
        7 => &[0x10, rest_variable],
        _ => &[0x1C, node(OTHER), 1, 0, node(VIEW)], // the default of a 1C sees nothing
    };
    sheet.extend(members);
    let records: [&[u8]; 21] = [
        &[0x15, node(VIEW), node(NOTHING)],
        &[0x16, node(VIEW), node(VIEW)],
        &[0x17, node(VIEW), node(NOTHING), 0, node(OTHER), 0, node(NOTHING), node(NOTHING)], // the view's first member
        &[0x17, node(VIEW), node(NOTHING), 0, node(VARIABLE_2), 0, node(NOTHING), node(NOTHING)], // its rest
        &[0x19, node(VIEW), node(OTHER)],
        &[0x18, node(VIEW), node(NOTHING), 0, node(VIEW), 0],
        &[0x1A, 1, 0, 0],
        &[0x1A, 1, 0, 1],
        &[0x1C, node(VIEW), 1, 0, node(NOTHING)],
        &[0x1C, node(VIEW), 1, 1, node(NOTHING)],
        &[0x1B, node(VIEW), 0xFF, 0],
        &[0x1A, 0, 0, 0],
        &[0x15, node(NOTHING), node(VIEW)],
        &[0x16, node(VIEW), node(OTHER)],
        &[0x10, 0],
        &[0x10, 1],
        &[0x13],
        &[0x14, 0, 9],
        &[0x10, first_variable],
        &[0x10, rest_variable],
        &[0x10, 2],
    ];
    sheet.extend(records.concat());
    sheet
}

/// A plan whose list, the subject, is mostly empty.
fn plan(random: &mut Random, place: Place) -> Vec<u8> {
    let own = if place == Members { rows(random, row) } else { row(random) };
    let other = if place == Branch || random.percent(20) { row(random) } else { number(random) };
    if place == Turned { [other, own] } else { [own, other] }.concat()
}

/// A list that the sheet takes, mostly.
fn list(random: &mut Random, place: Place, branch: usize) -> Vec<u8> {
    let pair = |random: &mut Random| [vec![0x05], number(random), number(random)].concat();
    let taken = |random: &mut Random| match branch {
        _ if random.percent(10) => row(random),
        _ if random.percent(10) => long(random),
        2 => numbers(random, 1, 2),
        3 => [vec![0x03, 0x04, 0, 9], numbers(random, 0, 3)].concat(),
        4 => pair(random),
        _ => numbers(random, 1, 4),
    };
    match place {
        Left => [vec![0x05], taken(random), number(random)].concat(),
        Right => [vec![0x05], number(random), taken(random)].concat(),
        Rest => [vec![0x03, 0x04, 0, 9], taken(random)].concat(),
        Sum => number(random),
        Members => rows(random, taken),
        SubjectOfEach => rows(random, pair),
        _ => taken(random),
    }
}

fn number(random: &mut Random) -> Vec<u8> {
    if random.percent(90) {
        Value::number(random).bytes()
    } else {
        row(random)
    }
}

fn row(random: &mut Random) -> Vec<u8> {
    match random.below(30) {
        0 => Value::any(random).bytes(),
        1 => long(random),
        2..=23 => vec![0x02],
        _ => numbers(random, 1, 4),
    }
}

fn rows(random: &mut Random, member: impl Fn(&mut Random) -> Vec<u8>) -> Vec<u8> {
    let members: Vec<u8> = (0..random.below(4)).flat_map(|_| [vec![0x03], member(random)].concat()).collect();
    [members, vec![0x02]].concat()
}

/// A value that is too long, or nearly so, where a default has it more than once or beside others.
fn long(random: &mut Random) -> Vec<u8> {
    let length = random.pick(&[60, 84, 125, 127, 129, 250, 253, 255]);
    sized(random, length)
}
