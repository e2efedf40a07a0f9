//! Random sheets with a type for each place, all of which fit: every node is used once.

use crate::random::Random;
use crate::values::{number, price, Type};

/// A sheet, and the types lent beside it.
#[derive(Clone, Debug)]
pub struct Typed {
    pub sheet: Vec<u8>,
    pub types: Vec<Vec<u8>>,
    /// Those of the plan's variables and of the list, which stand among them too.
    pub plan: Vec<Type>,
    pub view: Type,
}

/// Beyond so many nodes only small ones are added.
const ENOUGH: usize = 100;

struct Section {
    left: Type,
    right: Type,
    result: Type,
}

struct Builder<'r> {
    random: &'r mut Random,
    records: Vec<Vec<u8>>,
    types: Vec<Type>,
    sections: Vec<Section>,
}

/// The bytes of a type: numbers of both kinds have one.
pub fn bytes(ty: &Type) -> Vec<u8> {
    match ty {
        Type::Truth => vec![0x30],
        Type::Number | Type::Price => vec![0x31],
        Type::List(member) => [vec![0x32], bytes(member)].concat(),
        Type::Pair(left, right) => [vec![0x33], bytes(left), bytes(right)].concat(),
    }
}

/// A random type whose numbers are of one kind.
pub fn any(random: &mut Random, depth: usize) -> Type {
    fn plain(ty: Type) -> Type {
        match ty {
            Type::Price => Type::Number,
            Type::List(member) => list(plain(*member)),
            Type::Pair(left, right) => pair(plain(*left), plain(*right)),
            other => other,
        }
    }
    plain(Type::random(random, depth))
}

fn list(member: Type) -> Type {
    Type::List(Box::new(member))
}

fn pair(left: Type, right: Type) -> Type {
    Type::Pair(Box::new(left), Box::new(right))
}

pub fn typed(random: &mut Random) -> Typed {
    match random.below(40) {
        0 => deep(random),
        1 => long(random),
        _ => built(random),
    }
}

fn built(random: &mut Random) -> Typed {
    let plan: Vec<Type> = (0..random.of(1..5)).map(|_| any(random, 2)).collect();
    let view = if random.percent(40) { random_of(random, &plan) } else { any(random, 2) };
    let mut sections = Vec::new();
    for _ in 0..random.below(4) {
        let result = if random.percent(60) { view.clone() } else { any(random, 1) };
        let result = if let (Type::List(member), true) = (&result, random.percent(50)) { (**member).clone() } else { result };
        let left = random_of(random, &plan);
        let left = if let (Type::List(member), true) = (&left, random.percent(50)) { (**member).clone() } else { left };
        sections.push(Section { left, right: random_of(random, &plan), result });
    }
    let mut builder = Builder { random, records: Vec::new(), types: Vec::new(), sections };
    let root = builder.root(&view, &plan);
    let roots: Vec<u8> = (0..builder.sections.len()).map(|section| builder.section(section)).collect();
    let mut head = vec![0x01, plan.len() as u8, root];
    roots.iter().for_each(|&root| head.extend([0x20, root]));
    let of_sections = builder.sections.iter().flat_map(|section| [&section.left, &section.right, &section.result]);
    let types = plan.iter().chain(of_sections).chain([&view]).chain(&builder.types).map(bytes).collect();
    Typed { sheet: [head, builder.records.concat()].concat(), types, plan, view }
}

fn random_of(random: &mut Random, types: &[Type]) -> Type {
    types[random.below(types.len())].clone()
}

impl Builder<'_> {
    fn section(&mut self, section: usize) -> u8 {
        let Section { left, right, result } = &self.sections[section];
        let (scope, result) = ([left.clone(), right.clone()], result.clone());
        self.root(&result, &scope)
    }

    /// A root, before it now and then a node that nobody uses, of any type.
    fn root(&mut self, ty: &Type, scope: &[Type]) -> u8 {
        if self.random.percent(20) {
            self.records.push(vec![0x10, self.random.byte() % 4]);
            self.types.push(any(self.random, 1));
        }
        let fuel = if self.random.percent(10) { self.random.of(4..8) } else { self.random.below(4) };
        self.node(ty, scope, fuel)
    }

    /// A node of this type in this scope.
    fn node(&mut self, ty: &Type, scope: &[Type], fuel: usize) -> u8 {
        let own = self.records.len();
        self.records.push(Vec::new());
        self.types.push(ty.clone());
        let fuel = if own > ENOUGH { 0 } else { fuel };
        let record = match self.random.below(if fuel == 0 { 1 } else { 9 }) {
            1 | 2 => self.own_kind(ty, scope, fuel),
            3 => self.list_case(ty, scope, fuel - 1),
            4 => self.truth_case(ty, scope, fuel - 1),
            5 => self.split(ty, scope, fuel - 1),
            6 => self.call(ty, scope).unwrap_or_else(|| self.small(ty, scope)),
            7 | 8 => self.each(ty, scope, fuel - 1).unwrap_or_else(|| self.own_kind(ty, scope, fuel)),
            _ => self.small(ty, scope),
        };
        self.records[own] = record;
        own as u8
    }

    fn variable(&mut self, ty: &Type, scope: &[Type]) -> Option<u8> {
        let fitting: Vec<usize> = (0..scope.len()).filter(|&variable| scope[variable] == *ty).collect();
        (!fitting.is_empty()).then(|| self.random.pick(&fitting) as u8)
    }

    /// A variable, or else a constant.
    fn small(&mut self, ty: &Type, scope: &[Type]) -> Vec<u8> {
        match self.variable(ty, scope) {
            Some(variable) if self.random.percent(80) => vec![0x10, variable],
            _ => self.constant(ty),
        }
    }

    fn constant(&mut self, ty: &Type) -> Vec<u8> {
        match ty {
            Type::Truth => vec![self.random.pick(&[0x11, 0x12])],
            Type::Number | Type::Price if self.random.percent(10) => [&[0x1D][..], &price(self.random).to_be_bytes()].concat(),
            Type::Number | Type::Price => [&[0x14][..], &number(self.random).to_be_bytes()].concat(),
            Type::List(_) => vec![0x13],
            Type::Pair(left, right) => vec![0x16, self.node(left, &[], 0), self.node(right, &[], 0)],
        }
    }

    /// The kind that belongs to a type, of more fuel than 0.
    fn own_kind(&mut self, ty: &Type, scope: &[Type], fuel: usize) -> Vec<u8> {
        match ty {
            Type::Truth => self.constant(ty),
            Type::Number | Type::Price => vec![0x1B, self.node(ty, scope, fuel - 1), 0, self.random.byte()],
            Type::List(member) => vec![0x15, self.node(member, scope, fuel - 1), self.node(ty, scope, fuel - 1)],
            Type::Pair(left, right) => vec![0x16, self.node(left, scope, fuel - 1), self.node(right, scope, fuel - 1)],
        }
    }

    fn list_case(&mut self, ty: &Type, scope: &[Type], fuel: usize) -> Vec<u8> {
        let lists: Vec<Type> = scope.iter().filter(|ty| matches!(ty, Type::List(_))).cloned().collect();
        let subject = if lists.is_empty() { list(any(self.random, 1)) } else { random_of(self.random, &lists) };
        let Type::List(member) = &subject else { unreachable!() };
        let inner = [scope, &[(**member).clone(), subject.clone()]].concat();
        let sent = [ty.clone()];
        vec![
            0x17,
            self.node(&subject, scope, fuel / 2),
            self.node(ty, scope, fuel),
            self.test(),
            self.node(ty, &inner, fuel),
            self.test(),
            self.node(member, &sent, fuel / 2),
            self.node(&subject, &sent, fuel / 2),
        ]
    }

    fn truth_case(&mut self, ty: &Type, scope: &[Type], fuel: usize) -> Vec<u8> {
        let subject = self.node(&Type::Truth, scope, fuel / 2);
        vec![0x18, subject, self.node(ty, scope, fuel), self.test(), self.node(ty, scope, fuel), self.test()]
    }

    fn split(&mut self, ty: &Type, scope: &[Type], fuel: usize) -> Vec<u8> {
        let pairs: Vec<Type> = scope.iter().filter(|ty| matches!(ty, Type::Pair(..))).cloned().collect();
        let subject = if pairs.is_empty() { pair(ty.clone(), any(self.random, 1)) } else { random_of(self.random, &pairs) };
        let Type::Pair(left, right) = &subject else { unreachable!() };
        let inner = [scope, &[(**left).clone(), (**right).clone()]].concat();
        vec![0x19, self.node(&subject, scope, fuel / 2), self.node(ty, &inner, fuel)]
    }

    fn call(&mut self, ty: &Type, scope: &[Type]) -> Option<Vec<u8>> {
        let section = (0..self.sections.len()).find(|&section| self.sections[section].result == *ty)?;
        let (left, right) = (self.sections[section].left.clone(), self.sections[section].right.clone());
        Some(vec![0x1A, section as u8, self.variable(&left, scope)?, self.variable(&right, scope)?])
    }

    fn each(&mut self, ty: &Type, scope: &[Type], fuel: usize) -> Option<Vec<u8>> {
        let Type::List(result) = ty else { return None };
        let section = (0..self.sections.len()).find(|&section| self.sections[section].result == **result)?;
        let (left, right) = (self.sections[section].left.clone(), self.sections[section].right.clone());
        let variable = self.variable(&right, scope)?;
        let subject = self.node(&list(left.clone()), scope, fuel);
        Some(vec![0x1C, subject, section as u8, variable, self.node(&left, &[], fuel / 2)])
    }

    fn test(&mut self) -> u8 {
        if self.random.percent(80) {
            0
        } else {
            self.random.below(7) as u8
        }
    }
}

/// Splits within splits: a scope that is wider, and a sheet that is deeper, than a walk can go.
fn deep(random: &mut Random) -> Typed {
    let splits = random.of(40..100);
    let plan = pair(Type::Truth, Type::Number);
    let mut sheet = vec![0x01, 0x01, 0x00];
    let mut types = vec![bytes(&plan), bytes(&Type::Number)];
    for own in 0..splits {
        sheet.extend([0x19, 2 * own as u8 + 1, 2 * own as u8 + 2, 0x10, 0x00]);
        types.extend([bytes(&Type::Number), bytes(&plan)]);
    }
    // The second half of a split, the last or another.
    let half = if random.percent(50) { splits } else { random.of(1..splits + 1) };
    sheet.extend([0x10, 2 * half as u8]);
    types.push(bytes(&Type::Number));
    Typed { sheet, types, plan: vec![plan], view: Type::Number }
}

/// A variable of a type that is about as long as a type may be.
fn long(random: &mut Random) -> Typed {
    let lists = random.of(253..258);
    let ty = (0..lists).fold(Type::Truth, |inner, _| list(inner));
    Typed { sheet: vec![0x01, 0x01, 0x00, 0x10, 0x00], types: vec![bytes(&ty); 3], plan: vec![ty.clone()], view: ty }
}
