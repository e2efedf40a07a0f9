//! Random sheets: built by type so that walks go far, or out of random records.

use crate::random::Random;
use crate::values::{number, price, Type};
use std::sync::LazyLock;

/// A sheet's bytes, and what its plan and its list are meant to be.
pub struct Built {
    pub bytes: Vec<u8>,
    pub plan: Vec<Type>,
    pub view: Type,
}

/// Beyond so many nodes only leaves are added.
const ENOUGH: usize = 120;

/// The most sections of a sheet.
const SECTIONS: usize = 8;

#[derive(Clone)]
struct Variable {
    ty: Type,
    uses: usize,
}

struct Section {
    left: Type,
    right: Type,
    result: Type,
    root: u8,
}

/// A section that may still be called on the rest of its own first list.
type Recursion = Option<usize>;

struct Builder<'r> {
    random: &'r mut Random,
    nodes: Vec<Vec<u8>>,
    sections: Vec<Section>,
    /// So many sections are there from the start; the others go through the members of a list.
    declared: usize,
    /// Sections below this one may be called.
    callable: usize,
}

/// A sheet whose parts fit, mostly.
pub fn by_type(random: &mut Random) -> Built {
    let k = if random.percent(4) { 16 } else { random.of(1..5) };
    let plan: Vec<Type> = (0..k).map(|_| Type::random(random, 2)).collect();
    let view = if random.percent(40) { random_type(random, &plan) } else { Type::random(random, 2) };
    let mut builder = Builder { random, nodes: Vec::new(), sections: Vec::new(), declared: 0, callable: 0 };
    builder.declare_sections(&plan, &view);
    let sections_first = builder.random.percent(50);
    if sections_first {
        builder.fill_sections();
    }
    builder.callable = builder.declared;
    let mut scope: Vec<Variable> = plan.iter().map(|ty| Variable { ty: ty.clone(), uses: 0 }).collect();
    let fuel = builder.fuel();
    let root = builder.node(&view, &mut scope, fuel, &mut None);
    if !sections_first {
        builder.fill_sections();
    }
    let mut bytes = vec![0x01, k as u8, root];
    for section in &builder.sections {
        bytes.extend([0x20, section.root]);
    }
    bytes.extend(builder.nodes.concat());
    Built { bytes, plan, view }
}

fn random_type(random: &mut Random, types: &[Type]) -> Type {
    types[random.below(types.len())].clone()
}

impl Builder<'_> {
    fn fuel(&mut self) -> usize {
        if self.random.percent(5) {
            self.random.of(8..30)
        } else {
            self.random.below(6)
        }
    }

    fn declare_sections(&mut self, plan: &[Type], view: &Type) {
        for _ in 0..self.random.pick(&[0, 0, 1, 1, 1, 2, 3]) {
            let result = if self.random.percent(60) { view.clone() } else { Type::random(self.random, 1) };
            let left = random_type(self.random, plan);
            let right = random_type(self.random, plan);
            self.sections.push(Section { left, right, result, root: 0 });
        }
        self.declared = self.sections.len();
    }

    fn fill_sections(&mut self) {
        for number in 0..self.declared {
            self.callable = if self.random.percent(4) { self.declared } else { number };
            let section = &self.sections[number];
            let (left, right, result) = (section.left.clone(), section.right.clone(), section.result.clone());
            let mut scope = [&left, &right].map(|ty| Variable { ty: ty.clone(), uses: 0 }).to_vec();
            let fuel = self.fuel();
            let root = match &left {
                Type::List(member) if self.random.percent(80) => self.recursive(number, member, &result, &mut scope, fuel),
                _ => self.node(&result, &mut scope, fuel, &mut None),
            };
            self.sections[number].root = root;
        }
    }

    /// A list case on the section's first list, whose other branch may call the section on the rest.
    fn recursive(&mut self, section: usize, member: &Type, result: &Type, scope: &mut [Variable], fuel: usize) -> u8 {
        let own = self.reserve();
        let subject = self.leaf(&[0x10, 0]);
        scope[0].uses += 1;
        self.list_case(own, subject, member, result, scope, fuel, &mut Some(section));
        own
    }

    fn reserve(&mut self) -> u8 {
        self.nodes.push(Vec::new());
        (self.nodes.len() - 1) as u8
    }

    fn leaf(&mut self, record: &[u8]) -> u8 {
        self.nodes.push(record.to_vec());
        (self.nodes.len() - 1) as u8
    }

    /// A node that gives a value of type `ty`.
    fn node(&mut self, ty: &Type, scope: &mut Vec<Variable>, fuel: usize, recursion: &mut Recursion) -> u8 {
        if let Some(node) = self.try_recursion(ty, scope, recursion) {
            return node;
        }
        if fuel == 0 || self.nodes.len() > ENOUGH {
            return self.small(ty, scope, fuel);
        }
        match self.random.below(12) {
            0..=2 => self.own_kind(ty, scope, fuel, recursion),
            3 => self.small(ty, scope, fuel),
            4 | 5 => {
                let member = self.list_member(scope);
                let own = self.reserve();
                let subject = self.node(&Type::List(Box::new(member.clone())), scope, fuel / 2, &mut None);
                self.list_case(own, subject, &member, ty, scope, fuel, recursion);
                own
            }
            6 => self.truth_case(ty, scope, fuel, recursion),
            7 => self.split(ty, scope, fuel, recursion),
            8 | 9 => self.each(ty, scope, fuel).unwrap_or_else(|| self.own_kind(ty, scope, fuel, recursion)),
            _ => self.call(ty, scope).unwrap_or_else(|| self.own_kind(ty, scope, fuel, recursion)),
        }
    }

    fn try_recursion(&mut self, ty: &Type, scope: &[Variable], recursion: &mut Recursion) -> Option<u8> {
        let section = (*recursion)?;
        if self.sections[section].result != *ty || !self.random.percent(60) {
            return None;
        }
        let right = self.variable(&self.sections[section].right.clone(), scope)?;
        *recursion = None;
        // In a recursive section the rest is variable 3.
        Some(self.leaf(&[0x1A, section as u8, 3, right]))
    }

    /// A variable of type `ty`, rather one that is not used yet.
    fn variable(&mut self, ty: &Type, scope: &[Variable]) -> Option<u8> {
        let fitting: Vec<usize> = (0..scope.len()).filter(|&v| scope[v].ty == *ty).collect();
        let unused: Vec<usize> = fitting.iter().copied().filter(|&v| scope[v].uses == 0).collect();
        let among = if unused.is_empty() || self.random.percent(10) { &fitting } else { &unused };
        (!among.is_empty()).then(|| self.random.pick(among) as u8)
    }

    fn small(&mut self, ty: &Type, scope: &mut Vec<Variable>, fuel: usize) -> u8 {
        if self.random.percent(85) {
            if let Some(variable) = self.variable(ty, scope) {
                scope[usize::from(variable)].uses += 1;
                return self.leaf(&[0x10, variable]);
            }
        }
        if fuel > 0 && self.nodes.len() <= ENOUGH {
            return self.own_kind(ty, scope, fuel, &mut None);
        }
        if self.random.percent(1) {
            return self.leaf(&[0x10, 200]);
        }
        self.constant(ty)
    }

    fn constant(&mut self, ty: &Type) -> u8 {
        match ty {
            Type::Truth => {
                let kind = self.random.pick(&[0x11, 0x12]);
                self.leaf(&[kind])
            }
            Type::Number if self.random.percent(3) => self.constant(&Type::Price),
            Type::Number => {
                let [high, low] = number(self.random).to_be_bytes();
                self.leaf(&[0x14, high, low])
            }
            Type::Price => {
                let record = price_record(self.random);
                self.leaf(&record)
            }
            Type::List(member) => {
                if self.nodes.len() > ENOUGH || self.random.percent(70) {
                    return self.leaf(&[0x13]);
                }
                let own = self.reserve();
                let first = self.constant(member);
                let rest = self.constant(ty);
                self.nodes[usize::from(own)] = vec![0x15, first, rest];
                own
            }
            Type::Pair(left, right) => {
                let own = self.reserve();
                let left = self.constant(left);
                let right = self.constant(right);
                self.nodes[usize::from(own)] = vec![0x16, left, right];
                own
            }
        }
    }

    /// The node kind that belongs to a type: front, pair, add, or a constant. (Nothing can be added to a price.)
    fn own_kind(&mut self, ty: &Type, scope: &mut Vec<Variable>, fuel: usize, recursion: &mut Recursion) -> u8 {
        let own = self.reserve();
        let record = match ty {
            Type::Truth => vec![self.random.pick(&[0x11, 0x12])],
            Type::Number => {
                let inner = self.node(ty, scope, fuel - 1, recursion);
                let [high, low] = number(self.random).to_be_bytes();
                vec![0x1B, inner, high, low]
            }
            Type::Price if self.random.percent(5) => {
                let inner = self.node(ty, scope, fuel - 1, recursion);
                vec![0x1B, inner, 0, 1]
            }
            Type::Price => price_record(self.random).to_vec(),
            Type::List(_) if self.random.percent(15) => vec![0x13],
            Type::List(member) => {
                let first = self.node(member, scope, fuel - 1, recursion);
                let rest = self.node(ty, scope, fuel - 1, recursion);
                vec![0x15, first, rest]
            }
            Type::Pair(left, right) => {
                let left = self.node(left, scope, fuel - 1, recursion);
                let right = self.node(right, scope, fuel - 1, recursion);
                vec![0x16, left, right]
            }
        };
        self.nodes[usize::from(own)] = record;
        own
    }

    /// The member type of a list in scope, or else any type.
    fn list_member(&mut self, scope: &[Variable]) -> Type {
        let members: Vec<&Type> =
            scope.iter().filter_map(|v| if let Type::List(member) = &v.ty { Some(&**member) } else { None }).collect();
        if members.is_empty() {
            Type::random(self.random, 1)
        } else {
            members[self.random.below(members.len())].clone()
        }
    }

    #[allow(clippy::too_many_arguments)]
    fn list_case(
        &mut self,
        own: u8,
        subject: u8,
        member: &Type,
        ty: &Type,
        scope: &[Variable],
        fuel: usize,
        recursion: &mut Recursion,
    ) {
        let fuel = fuel.max(1) - 1;
        let list = Type::List(Box::new(member.clone()));
        let empty = self.node(ty, &mut scope.to_vec(), fuel, &mut None);
        let empty_test = self.test(empty, ty);
        let mut inner = scope.to_vec();
        inner.push(Variable { ty: member.clone(), uses: 0 });
        inner.push(Variable { ty: list.clone(), uses: 0 });
        let front = self.node(ty, &mut inner, fuel, recursion);
        let front_test = self.test(front, ty);
        let wrong = self.random.percent(2);
        let default_first = self.default(member, ty, fuel);
        let default_rest = self.default(if wrong { &Type::Price } else { &list }, ty, fuel);
        self.nodes[usize::from(own)] = vec![0x17, subject, empty, empty_test, front, front_test, default_first, default_rest];
    }

    /// A default of a list case, whose one variable is the view, of type `view`; seldom it names another.
    fn default(&mut self, ty: &Type, view: &Type, fuel: usize) -> u8 {
        let mut scope = vec![Variable { ty: view.clone(), uses: 0 }];
        match self.random.below(20) {
            0 => self.leaf(&[0x10, 1]),
            1 => self.leaf(&[0x10, 0]),
            2..=6 if view == ty => self.leaf(&[0x10, 0]),
            2..=6 if *view == Type::List(Box::new(ty.clone())) => self.first_sent(ty),
            7..=10 => self.node(ty, &mut scope, fuel.min(3), &mut None),
            _ => self.constant(ty),
        }
    }

    /// In a default, the first member of the list sent, or a constant where that is empty.
    fn first_sent(&mut self, ty: &Type) -> u8 {
        let own = self.reserve();
        let subject = self.leaf(&[0x10, 0]);
        let empty = self.constant(ty);
        let front = self.leaf(&[0x10, 1]);
        let nothing = self.leaf(&[0x13]);
        self.nodes[usize::from(own)] = vec![0x17, subject, empty, 0, front, 0, nothing, nothing];
        own
    }

    fn truth_case(&mut self, ty: &Type, scope: &mut Vec<Variable>, fuel: usize, recursion: &mut Recursion) -> u8 {
        let own = self.reserve();
        let subject = self.node(&Type::Truth, scope, fuel / 2, &mut None);
        let no = self.node(ty, &mut scope.clone(), fuel - 1, recursion);
        let no_test = self.test(no, ty);
        let yes = self.node(ty, &mut scope.clone(), fuel - 1, recursion);
        let yes_test = self.test(yes, ty);
        self.nodes[usize::from(own)] = vec![0x18, subject, no, no_test, yes, yes_test];
        own
    }

    fn split(&mut self, ty: &Type, scope: &mut Vec<Variable>, fuel: usize, recursion: &mut Recursion) -> u8 {
        let own = self.reserve();
        let pairs: Vec<Type> = scope.iter().filter(|v| matches!(v.ty, Type::Pair(..))).map(|v| v.ty.clone()).collect();
        let pair = if pairs.is_empty() {
            Type::Pair(Box::new(Type::random(self.random, 1)), Box::new(ty.clone()))
        } else {
            random_type(self.random, &pairs)
        };
        let subject = self.node(&pair, scope, fuel / 2, &mut None);
        let Type::Pair(left, right) = pair else { unreachable!() };
        let mut inner = scope.clone();
        inner.push(Variable { ty: *left, uses: 0 });
        inner.push(Variable { ty: *right, uses: 0 });
        let inner = self.node(ty, &mut inner, fuel - 1, recursion);
        self.nodes[usize::from(own)] = vec![0x19, subject, inner];
        own
    }

    /// A section that may be called and gives this type, and the types of its two variables.
    fn section(&mut self, ty: &Type) -> Option<(u8, Type, Type)> {
        let fitting: Vec<usize> = (0..self.callable).filter(|&s| self.sections[s].result == *ty).collect();
        if fitting.is_empty() {
            return None;
        }
        let section = self.random.pick(&fitting);
        Some((section as u8, self.sections[section].left.clone(), self.sections[section].right.clone()))
    }

    fn call(&mut self, ty: &Type, scope: &mut [Variable]) -> Option<u8> {
        let (section, left, right) = self.section(ty)?;
        let left = self.variable(&left, scope)?;
        scope[usize::from(left)].uses += 1;
        let right = self.variable(&right, scope)?;
        scope[usize::from(right)].uses += 1;
        Some(self.leaf(&[0x1A, section, left, right]))
    }

    /// Each member of a list through a section, where a list is wanted.
    fn each(&mut self, ty: &Type, scope: &mut Vec<Variable>, fuel: usize) -> Option<u8> {
        let Type::List(result) = ty else { return None };
        let own = self.reserve();
        let called = self.section(result).and_then(|(section, left, right)| Some((section, left, self.variable(&right, scope)?)));
        let (section, member, variable) = match called {
            Some(called) if self.random.percent(50) => called,
            _ => self.section_for_members(result, scope, fuel),
        };
        let subject = self.node(&Type::List(Box::new(member.clone())), scope, fuel / 2, &mut None);
        let default = if self.random.percent(3) { self.leaf(&[0x10, 0]) } else { self.constant(&member) };
        let variable = if self.random.percent(2) { self.random.pick(&[scope.len() as u8, 200, 255]) } else { variable };
        self.nodes[usize::from(own)] = vec![0x1C, subject, section, variable, default];
        Some(own)
    }

    /// A new section that gives this type for members of a list, or the first one where there are enough.
    fn section_for_members(&mut self, result: &Type, scope: &[Variable], fuel: usize) -> (u8, Type, u8) {
        let member = if self.random.percent(50) { result.clone() } else { self.list_member(scope) };
        let variable = self.random.below(scope.len());
        if self.sections.len() == SECTIONS {
            return (0, member, variable as u8);
        }
        let right = scope[variable].ty.clone();
        let number = self.sections.len();
        self.sections.push(Section { left: member.clone(), right: right.clone(), result: result.clone(), root: 0 });
        // The second is the same variable for each member, so that the list can be edited more freely where it is not used.
        let uses = usize::from(self.random.percent(70));
        let mut inner = vec![Variable { ty: member.clone(), uses: 0 }, Variable { ty: right, uses }];
        self.sections[number].root = self.node(result, &mut inner, fuel - 1, &mut None);
        (number as u8, member, variable as u8)
    }

    /// A test that says yes to what the node gives, mostly.
    fn test(&mut self, node: u8, ty: &Type) -> u8 {
        if self.random.percent(3) {
            return self.random.below(7) as u8;
        }
        if self.random.percent(30) {
            return 0;
        }
        match (self.nodes[usize::from(node)].first(), ty) {
            (Some(0x11), _) => 3,
            (Some(0x12), _) => 4,
            (Some(0x13), _) => 1,
            (Some(0x15), _) => self.random.pick(&[2, 2, 2, 2, 5, 6]),
            (_, Type::Truth) => self.random.pick(&[0, 0, 3, 4]),
            (_, Type::List(_)) => self.random.pick(&[0, 0, 0, 1, 2, 2, 5, 6]),
            _ => 0,
        }
    }
}

/// A constant of four bytes, seldom one that is too small for them.
fn price_record(random: &mut Random) -> [u8; 5] {
    let number = if random.percent(1) { number(random).into() } else { price(random) };
    let [a, b, c, d] = number.to_be_bytes();
    [0x1D, a, b, c, d]
}

/// Whether a sheet has a record of this kind.
pub fn has(sheet: &[u8], kind: u8) -> bool {
    records(sheet).iter().any(|record| record[0] == kind)
}

/// The bytes of a record of this kind, by the repository's table; 1 where there is none.
fn width(kind: u8) -> usize {
    static WIDTHS: LazyLock<[usize; 256]> = LazyLock::new(|| {
        let mut widths = [1; 256];
        for line in include_str!("../../../tables/kinds.txt").lines().filter(|line| !line.starts_with('#') && !line.is_empty()) {
            let mut cells = line.split('|').map(str::trim);
            let kind = usize::from_str_radix(cells.next().unwrap(), 16).unwrap();
            widths[kind] = cells.nth(1).unwrap().parse().unwrap();
        }
        widths
    });
    WIDTHS[usize::from(kind)]
}

/// The records of a sheet. One that is cut ends with it.
pub fn records(sheet: &[u8]) -> Vec<&[u8]> {
    let mut left = sheet;
    let mut records = Vec::new();
    while let Some(kind) = left.first() {
        let (record, rest) = left.split_at(left.len().min(width(*kind)));
        records.push(record);
        left = rest;
    }
    records
}

/// A sheet of records in their places with numbers in range, but otherwise random.
pub fn by_record(random: &mut Random) -> Vec<u8> {
    let nodes = match random.below(30) {
        0 => random.of(195..206),
        1..=4 => random.of(20..120),
        _ => random.of(1..20),
    };
    let sections = if random.percent(3) { random.of(7..11) } else { random.below(4) };
    let k = random.of(1..5);
    let mut bytes = vec![0x01, k as u8, random.below(nodes.div_ceil(3)) as u8];
    for _ in 0..sections {
        bytes.extend([0x20, random.below(nodes) as u8]);
    }
    for own in 0..nodes {
        record(random, &mut bytes, own, nodes, sections);
    }
    bytes
}

fn record(random: &mut Random, bytes: &mut Vec<u8>, own: usize, nodes: usize, sections: usize) {
    let inner = own + 1 < nodes;
    let kind = match random.below(19) {
        0..=3 => 0x10,
        4 => random.of(0x11..0x14),
        5 => random.of(0x11..0x15),
        6 | 7 if inner => 0x17,
        8 | 9 if inner => 0x18,
        10 if inner => 0x19,
        11 if inner => 0x1B,
        12..=14 if inner => random.of(0x15..0x17),
        15 if sections > 0 => 0x1A,
        16 | 17 if inner && sections > 0 => 0x1C,
        18 => 0x1D,
        _ => 0x10,
    } as u8;
    if kind == 0x1D {
        bytes.extend(price_record(random));
        return;
    }
    bytes.push(kind);
    // A later node, mostly a near one.
    let node = |random: &mut Random| {
        let reach = if random.percent(80) { (own + 5).min(nodes) } else { nodes };
        random.of(own + 1..reach) as u8
    };
    let test = |random: &mut Random| if random.percent(50) { 0 } else { random.below(7) as u8 };
    let variable = |random: &mut Random| {
        let limit = if random.percent(90) { 3 } else { 9 };
        random.below(limit) as u8
    };
    match kind {
        0x10 => bytes.push(variable(random)),
        0x14 => bytes.extend(number(random).to_be_bytes()),
        0x15 | 0x16 | 0x19 => bytes.extend([node(random), node(random)]),
        0x17 => bytes.extend([node(random), node(random), test(random), node(random), test(random), node(random), node(random)]),
        0x18 => bytes.extend([node(random), node(random), test(random), node(random), test(random)]),
        0x1A => bytes.extend([random.below(sections) as u8, variable(random), variable(random)]),
        0x1B => {
            bytes.push(node(random));
            bytes.extend(number(random).to_be_bytes());
        }
        0x1C => bytes.extend([node(random), random.below(sections) as u8, variable(random), node(random)]),
        _ => {}
    }
}
