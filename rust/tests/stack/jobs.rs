//! Jobs as deep as a walk goes: chains of one kind of node down to depth 48, and to depth 49, which is refused with 40; each with
//! small values, and with values in which lists stand within lists, as many as fit, since the reader of values recurses on them.

use reference::job::Job;

pub struct Deep {
    pub name: String,
    pub job: Job,
    /// The number of the answer, where the chain alone decides it.
    pub number: Option<u8>,
}

/// The nodes of a chain whose end stands at depth 48.
const DEEPEST: u8 = 47;

/// The nodes behind a chain of n: its end is node n.
const EMPTY: u8 = 1;
const SEVEN: u8 = 2;
const FALSE: u8 = 3;
/// The plan's variable, and behind it every second one that splits add.
const PLAN: u8 = 4;

/// A chain of nodes of one kind, each of which enters the next.
struct Chain {
    name: &'static str,
    /// The record of node `own` of a chain of n nodes.
    record: fn(own: u8, n: u8) -> Vec<u8>,
    /// The variable at the chain's end.
    end: fn(n: u8) -> u8,
    plan: fn(n: u8) -> Vec<u8>,
    view: fn(n: u8) -> Vec<u8>,
    /// Whether the view is what a get of the plan gives; otherwise each case of the chain switches.
    unedited: bool,
}

const PAIR: [u8; 3] = [0x05, 0x00, 0x01];
const LIST: [u8; 5] = [0x03, 0x04, 0x00, 0x07, 0x02];

const CHAINS: [Chain; 18] = [
    Chain { record: |own, n| vec![0x15, own + 1, n + EMPTY], view: |n| nested(&[0x03], n, &[0x02]), ..same("first members", 0x00) },
    Chain { record: |own, n| vec![0x15, n + SEVEN, own + 1], view: |n| before(&LIST[..4], n, 0x02), ..same("rests", 0x02) },
    Chain { record: |own, n| vec![0x16, own + 1, n + FALSE], view: |n| nested(&[0x05], n, &[0x00]), ..same("left of pairs", 0x00) },
    Chain {
        record: |own, n| vec![0x16, n + FALSE, own + 1],
        view: |n| before(&[0x05, 0x00], n, 0x00),
        ..same("right of pairs", 0x00)
    },
    Chain { record: |own, n| case(own + 1, n + PLAN, 0, n + PLAN, 0, n), ..list("subjects of list cases") },
    Chain { record: |own, n| case(n + PLAN, own + 1, 0, n + PLAN, 0, n), ..same("empty branches", 0x02) },
    Chain { record: |own, n| case(n + PLAN, n + PLAN, 0, own + 1, 5, n), ..list("branches with members") },
    Chain {
        record: |own, n| case(n + PLAN, own + 1, 1, n + PLAN, 2, n),
        view: |_| vec![0x02],
        unedited: false,
        ..list("switches to empty")
    },
    Chain {
        record: |own, n| case(n + PLAN, n + PLAN, 1, own + 1, 5, n),
        view: |_| LIST.to_vec(),
        unedited: false,
        ..same("switches to members", 0x02)
    },
    Chain { record: |own, n| vec![0x18, own + 1, n + PLAN, 0, n + PLAN, 0], ..same("subjects of truth cases", 0x00) },
    Chain { record: |own, n| vec![0x18, n + PLAN, own + 1, 0, n + PLAN, 0], ..same("branches of truth cases", 0x00) },
    Chain {
        record: |own, n| vec![0x19, own + 1, n + PLAN],
        plan: |_| PAIR.to_vec(),
        view: |_| PAIR.to_vec(),
        ..same("subjects of splits", 0)
    },
    Chain { record: |own, n| vec![0x19, n + PLAN, own + 1], plan: |_| PAIR.to_vec(), view: |_| PAIR.to_vec(), ..same("splits", 0) },
    Chain {
        record: |own, n| vec![0x19, n + PLAN + own, own + 1],
        end: |n| 2 * n,
        plan: |n| before(&[0x05, 0x01], n, 0x00),
        ..same("splits of what was split", 0x00)
    },
    Chain {
        record: |own, _| vec![0x1B, own + 1, 0, 1],
        plan: |_| vec![0x04, 0, 7],
        view: |n| vec![0x04, 0, 7 + n],
        ..same("sums", 0x00)
    },
    Chain { record: |own, n| vec![0x1C, own + 1, 1, 0, n + SEVEN], ..list("subjects of eaches") },
    Chain { view: within, ..each("eaches within one another", within) },
    Chain { view: within, unedited: false, ..each("eaches past the old end", |_| vec![0x02]) },
];

/// A chain whose plan and list are one value of one byte, until it says otherwise.
const fn same(name: &'static str, byte: u8) -> Chain {
    let value: fn(u8) -> Vec<u8> = match byte {
        0x00 => |_| vec![0x00],
        _ => |_| vec![0x02],
    };
    Chain { name, record: |_, _| Vec::new(), end: |_| 0, plan: value, view: value, unedited: true }
}

/// A chain whose plan and list are [7].
const fn list(name: &'static str) -> Chain {
    Chain { plan: |_| LIST.to_vec(), view: |_| LIST.to_vec(), ..same(name, 0x02) }
}

/// A chain of one node that enters itself for each member of a list.
const fn each(name: &'static str, plan: fn(n: u8) -> Vec<u8>) -> Chain {
    Chain { record: |_, n| vec![0x1C, n + PLAN, 0, 0, n + EMPTY], plan, ..same(name, 0x02) }
}

/// n lists within one another.
fn within(n: u8) -> Vec<u8> {
    lists(usize::from(n) - 1)
}

/// A list case with the defaults 7 and the empty list.
fn case(subject: u8, empty: u8, empty_test: u8, members: u8, members_test: u8, n: u8) -> Vec<u8> {
    vec![0x17, subject, empty, empty_test, members, members_test, n + SEVEN, n + EMPTY]
}

/// n times `front`, then the last byte.
fn before(front: &[u8], n: u8, last: u8) -> Vec<u8> {
    [&front.repeat(usize::from(n))[..], &[last]].concat()
}

/// n times `front`, a False, n times `behind`.
fn nested(front: &[u8], n: u8, behind: &[u8]) -> Vec<u8> {
    [&front.repeat(usize::from(n))[..], &[0x00], &behind.repeat(usize::from(n))].concat()
}

/// A record, given its node.
type Record = fn(n: u8) -> Vec<u8>;

/// What may stand at the end of a chain in place of a variable: it enters nodes at depth 49, or is a constant.
const ENDS: [(&str, Record); 9] = [
    ("a front", |n| vec![0x15, n + FALSE, n + EMPTY]),
    ("a pair", |n| vec![0x16, n + FALSE, n + FALSE]),
    ("a list case", |n| case(n + EMPTY, n + EMPTY, 0, n + EMPTY, 0, n)),
    ("a truth case", |n| vec![0x18, n + FALSE, n + FALSE, 0, n + FALSE, 0]),
    ("a split", |n| vec![0x19, n + FALSE, n + FALSE]),
    ("a call", |_| vec![0x1A, 0, 0, 0]),
    ("a sum", |n| vec![0x1B, n + SEVEN, 0, 0]),
    ("an each", |n| vec![0x1C, n + EMPTY, 0, 0, n + EMPTY]),
    ("a number over 65,535", |_| vec![0x1D, 0, 1, 0, 0]),
];

/// A value of 255 bytes whose kind is that of `like`: as many lists within lists as fit.
fn full(like: &[u8]) -> Vec<u8> {
    match like[0] {
        0x05 => [vec![0x05], lists(126), vec![0x00]].concat(),
        _ => lists(127),
    }
}

/// A list of a list of a list ..., the last one empty.
fn lists(n: usize) -> Vec<u8> {
    [vec![0x03; n], vec![0x02; n + 1]].concat()
}

impl Chain {
    /// The chain, and two sections: from its first node and from its end.
    fn sheet(&self, n: u8, end: &[u8]) -> Vec<u8> {
        let mut sheet = vec![0x01, 0x01, 0x00, 0x20, 0x00, 0x20, n];
        sheet.extend((0..n).flat_map(|own| (self.record)(own, n)));
        sheet.extend(end);
        sheet.extend([0x13, 0x14, 0x00, 0x07, 0x11]);
        sheet.extend((0..=n).flat_map(|own| [0x10, 2 * own]));
        sheet
    }

    fn job(&self, n: u8, end: &[u8], plan: Vec<u8>, view: Option<Vec<u8>>) -> Job {
        Job { sheet: self.sheet(n, end), plan, view, allowance: 1_000_000 }
    }

    /// Both ways, or the put alone where the list is edited.
    fn small(&self, n: u8, number: u8) -> Vec<Deep> {
        let end = [0x10, (self.end)(n)];
        let get = self.unedited.then_some(("get", None));
        let ways = get.into_iter().chain([("put", Some((self.view)(n)))]);
        ways.map(|(way, view)| Deep {
            name: format!("{n} {}, {way}", self.name),
            job: self.job(n, &end, (self.plan)(n), view),
            number: Some(number),
        })
        .collect()
    }

    /// Plans and lists small and full, with one more node at the chain's end.
    fn ended(&self, ended: &str, end: &[u8]) -> Vec<Deep> {
        let n = DEEPEST;
        let plan = (self.plan)(n);
        let view = (self.view)(n);
        let plans = [("", plan.clone()), (" of a full plan", full(&plan))];
        let ways = [
            ("get", None),
            ("put", Some(view.clone())),
            ("put of a full list", Some(full(&view))),
            ("put of lists", Some(lists(127))),
        ];
        let mut all = Vec::new();
        for (of, plan) in &plans {
            for (way, view) in &ways {
                let name = format!("{n} {} and {ended}{of}, {way}", self.name);
                all.push(Deep { name, job: self.job(n, end, plan.clone(), view.clone()), number: None });
            }
        }
        all
    }

    fn all(&self) -> Vec<Deep> {
        let mut all = self.small(DEEPEST, 0);
        all.extend(self.small(DEEPEST + 1, 40));
        for (name, end) in ENDS {
            all.extend(self.ended(name, &end(DEEPEST)));
        }
        all.extend(self.ended("a variable", &[0x10, (self.end)(DEEPEST)]));
        all
    }
}

/// Every chain with each end, and a section that calls itself.
pub fn deepest() -> Vec<Deep> {
    let calls = Chain { record: |_, _| vec![0x1A, 0, 0, 0], ..same("calls", 0x00) };
    CHAINS.iter().flat_map(Chain::all).chain(calls.small(DEEPEST + 1, 40)).collect()
}
