//! Machines: the rules of the protocols, and over them those of a list, found in rounds; and what they tell of type parameters.

use crate::refusal::Refusal;
use crate::rewriting::{Equation, Limits, Meaning, Rules, Symbol, Word};
use crate::world::{Assoc, Name, Proto, Requirement, Step, TypeParam, World, Written};

/// Over what type parameters are read: a function with so many generic parameters, or a protocol.
#[derive(Clone, Copy)]
pub enum Over {
    Function(u32),
    Protocol(Proto),
}

impl Over {
    fn has(self, head: u32) -> bool {
        match self {
            Over::Function(params) => head < params,
            Over::Protocol(_) => head == 0,
        }
    }

    fn start(self, head: u32) -> Symbol {
        match self {
            Over::Function(_) => Symbol::param(head),
            Over::Protocol(p) => Symbol::proto(p),
        }
    }
}

fn symbol_of(world: &World, step: Step) -> Symbol {
    match step {
        Step::Bound(d) => Symbol::member(world.member_rank(world.associated[d as usize])),
        Step::Name(name) => Symbol::name(name),
    }
}

/// The word of a type parameter without its steps from a place on, with room for one symbol more.
fn spelled(world: &World, over: Over, t: &TypeParam, steps: usize) -> Word {
    let mut word = Vec::with_capacity(steps + 2);
    word.push(over.start(t.head));
    word.extend(t.steps[..steps].iter().map(|step| symbol_of(world, *step)));
    word
}

/// The equation of a requirement.
pub fn equation(world: &World, over: Over, requirement: &Requirement) -> Equation {
    let word = |t: &TypeParam| spelled(world, over, t, t.steps.len());
    let followed = |t: &TypeParam, x: Symbol| {
        let right = word(t);
        let mut left = right.clone();
        left.push(x);
        (left, right)
    };
    match requirement {
        Requirement::Conforms(t, p) => followed(t, Symbol::proto(*p)),
        Requirement::IsAnyObject(t) => followed(t, Symbol::LAYOUT),
        Requirement::Equals(t, u) => (word(t), word(u)),
    }
}

/// The basic equations of the protocols, in written order.
fn basic_equations(world: &World) -> Vec<Equation> {
    let mut equations = Vec::new();
    for p in &world.written_order {
        let proto = Symbol::proto(*p);
        equations.push((vec![proto, proto], vec![proto]));
        for name in &world.member_names[*p as usize] {
            let member = Symbol::member(world.member_rank((*p, *name)));
            equations.push((vec![proto, Symbol::name(*name)], vec![member]));
        }
    }
    equations
}

/// The first associated type of a name whose protocol vanishes behind an irreducible word.
pub fn first_behind(
    world: &World,
    rules: &Rules,
    word: &[Symbol],
    name: Name,
    test: &mut Word,
) -> Option<Assoc> {
    world.associated_of(name).find(|d| {
        let (proto, _) = world.associated[*d as usize];
        rules.vanishes(word, Symbol::proto(proto), test)
    })
}

/// Complete rules by which type parameters are read.
#[derive(Clone, Copy)]
pub struct Reading<'a> {
    pub world: &'a World<'a>,
    pub rules: &'a Rules<'a>,
    pub over: Over,
}

impl Reading<'_> {
    /// The least word of a type parameter, or None where it is not valid.
    pub fn least_word(&self, t: &TypeParam, test: &mut Word) -> Option<Word> {
        if !self.over.has(t.head) {
            return None;
        }
        let mut word = Vec::with_capacity(t.steps.len() + 2);
        word.push(self.over.start(t.head));
        self.rules.reduce(&mut word);
        for step in &t.steps {
            let is_there = match *step {
                Step::Bound(d) => {
                    let (proto, _) = self.world.associated[d as usize];
                    self.rules.vanishes(&word, Symbol::proto(proto), test)
                }
                Step::Name(name) => {
                    first_behind(self.world, self.rules, &word, name, test).is_some()
                }
            };
            if !is_there {
                return None;
            }
            self.rules.append(&mut word, symbol_of(self.world, *step));
        }
        Some(word)
    }

    pub fn is_valid(&self, t: &TypeParam) -> bool {
        self.least_word(t, &mut Vec::new()).is_some()
    }

    /// Whether the type parameters of a requirement are valid.
    pub fn is_usable(&self, requirement: &Requirement) -> bool {
        match requirement {
            Requirement::Conforms(t, _) | Requirement::IsAnyObject(t) => self.is_valid(t),
            Requirement::Equals(t, u) => self.is_valid(t) && self.is_valid(u),
        }
    }

    /// Whether a requirement is derivable, or None where a side is not valid.
    pub fn judge(&self, requirement: &Requirement) -> Option<bool> {
        let mut test = Vec::new();
        match requirement {
            Requirement::Conforms(t, p) => {
                let word = self.least_word(t, &mut test)?;
                Some(self.rules.vanishes(&word, Symbol::proto(*p), &mut test))
            }
            Requirement::IsAnyObject(t) => {
                let word = self.least_word(t, &mut test)?;
                Some(self.rules.vanishes(&word, Symbol::LAYOUT, &mut test))
            }
            Requirement::Equals(t, u) => {
                let left = self.least_word(t, &mut test)?;
                Some(left == self.least_word(u, &mut test)?)
            }
        }
    }

    /// The reduced type of a type parameter, or None where it is not valid.
    pub fn reduced(&self, t: &TypeParam) -> Option<TypeParam> {
        let mut test = Vec::new();
        let word = self.least_word(t, &mut test)?;
        self.type_of(&word, &mut test)
    }

    /// The type of an irreducible word, or None where it has none.
    pub fn type_of(&self, word: &[Symbol], test: &mut Word) -> Option<TypeParam> {
        let Some(Meaning::Param(head)) = word.first().map(|x| x.meaning()) else {
            return None;
        };
        if !self.over.has(head) {
            return None;
        }
        let mut steps = Vec::with_capacity(word.len());
        for (at, symbol) in word.iter().enumerate().skip(1) {
            let Meaning::Member(rank) = symbol.meaning() else {
                return None;
            };
            let (proto, name) = self.world.members[rank as usize];
            if !self.rules.vanishes(&word[..at], Symbol::proto(proto), test) {
                return None;
            }
            steps.push(Step::Bound(first_behind(
                self.world,
                self.rules,
                &word[..at],
                name,
                test,
            )?));
        }
        Some(TypeParam { head, steps })
    }
}

/// A requirement that rounds may use, over what it is read, and its equation.
struct Wanted<'w> {
    over: Over,
    requirement: &'w Requirement,
    equation: Equation,
}

/// What rounds start from.
struct Start<'w> {
    world: &'w World<'w>,
    basic: Vec<Equation>,
    wanted: Vec<Wanted<'w>>,
    limits: Limits,
}

impl<'w> Start<'w> {
    fn of(world: &'w World<'w>, basic: Vec<Equation>, limits: Limits) -> Start<'w> {
        Start {
            world,
            basic,
            wanted: Vec::new(),
            limits,
        }
    }

    fn want(&mut self, over: Over, list: &'w [Written]) {
        self.wanted.extend(list.iter().map(|written| Wanted {
            over,
            requirement: &written.requirement,
            equation: equation(self.world, over, &written.requirement),
        }));
    }

    /// The equations of the round that uses these requirements.
    fn given(&self, used: &[bool]) -> impl Iterator<Item = &Equation> {
        let in_use = self
            .wanted
            .iter()
            .zip(used)
            .filter(|(_, is_used)| **is_used);
        self.basic
            .iter()
            .chain(in_use.map(|(wanted, _)| &wanted.equation))
    }

    /// Which requirements complete rules show usable.
    fn usable(&self, rules: &Rules) -> Vec<bool> {
        let shown = |wanted: &Wanted| {
            let reading = Reading {
                world: self.world,
                rules,
                over: wanted.over,
            };
            reading.is_usable(wanted.requirement)
        };
        self.wanted.iter().map(shown).collect()
    }

    /// Which requirements a round uses beside these, as the rules show that its equations bear by themselves, or None where no others.
    fn joined(&self, base: &Rules, used: &[bool]) -> Option<Vec<bool>> {
        let mut rules = base.clone();
        rules.bear(self.given(used), self.limits).ok()?;
        let shown = |wanted: &Wanted| {
            let short = ShortRound {
                world: self.world,
                rules: &rules,
                over: wanted.over,
            };
            short.is_usable(wanted.requirement)
        };
        let more: Vec<bool> = self
            .wanted
            .iter()
            .zip(used)
            .map(|(wanted, is_used)| *is_used || shown(wanted))
            .collect();
        (more != used).then_some(more)
    }

    /// Runs the rounds over complete rules, up to the rules of the last one, and which requirements it uses.
    fn run<'b>(&self, base: &Rules<'b>) -> Result<(Rules<'b>, Vec<bool>), Refusal> {
        let mut used = vec![false; self.wanted.len()];
        let mut first = None;
        loop {
            if first.is_some()
                && let Some(more) = self.joined(base, &used)
            {
                used = more;
                continue;
            }
            let mut rules = base.clone();
            match rules.complete(self.given(&used), self.limits) {
                Ok(()) => {
                    first = None;
                    let next = if used.contains(&false) {
                        self.usable(&rules)
                    } else {
                        used.clone()
                    };
                    if next == used {
                        return Ok((rules, used));
                    }
                    used = next;
                }
                Err(limit) => {
                    let more = if first.is_none() {
                        self.joined(base, &used)
                    } else {
                        None
                    };
                    let passed = first.unwrap_or_else(|| Refusal::Limit {
                        limit,
                        trace: rules.all().cloned().collect(),
                    });
                    match more {
                        None => return Err(passed),
                        Some(more) => used = more,
                    }
                    first = Some(passed);
                }
            }
        }
    }
}

/// Rules that need not be complete, by which type parameters are shown valid.
struct ShortRound<'a> {
    world: &'a World<'a>,
    rules: &'a Rules<'a>,
    over: Over,
}

impl ShortRound<'_> {
    fn conforms(&self, t: &TypeParam, steps: usize, d: Assoc) -> bool {
        let mut right = spelled(self.world, self.over, t, steps);
        let mut left = right.clone();
        left.push(Symbol::proto(self.world.associated[d as usize].0));
        self.rules.reduce(&mut left);
        self.rules.reduce(&mut right);
        left == right
    }

    fn is_valid(&self, t: &TypeParam) -> bool {
        let has_step = |(place, step): (usize, &Step)| match *step {
            Step::Bound(d) => self.conforms(t, place, d),
            Step::Name(name) => self
                .world
                .associated_of(name)
                .any(|d| self.conforms(t, place, d)),
        };
        self.over.has(t.head) && t.steps.iter().enumerate().all(has_step)
    }

    fn is_usable(&self, requirement: &Requirement) -> bool {
        match requirement {
            Requirement::Conforms(t, _) | Requirement::IsAnyObject(t) => self.is_valid(t),
            Requirement::Equals(t, u) => self.is_valid(t) && self.is_valid(u),
        }
    }
}

/// The refusal of the first side that is not valid.
fn first_invalid(reading: &Reading, written: &Written) -> Refusal {
    let at = match &written.requirement {
        Requirement::Equals(t, _) if reading.is_valid(t) => written.right_at,
        _ => written.left_at,
    };
    Refusal::NotATypeParameter { at }
}

/// The rules of the protocols, where all that they require is usable.
pub fn protocol_rules(world: &World, limits: Limits) -> Result<Rules<'static>, Refusal> {
    let mut start = Start::of(world, basic_equations(world), limits);
    let mut lists = Vec::new();
    for p in &world.written_order {
        let list = &world.requirements[*p as usize];
        start.want(Over::Protocol(*p), list);
        lists.extend(list);
    }
    let (rules, used) = start.run(&Rules::new())?;
    match used.iter().position(|is_used| !is_used) {
        None => Ok(rules),
        Some(place) => {
            let over = start.wanted[place].over;
            let rules = &rules;
            Err(first_invalid(&Reading { world, rules, over }, lists[place]))
        }
    }
}

/// The rules of a function's list over those of the protocols, where all that it requires is usable.
pub fn function_rules<'b>(
    world: &World,
    protocols: &'b Rules<'_>,
    over: Over,
    list: &[Written],
    limits: Limits,
) -> Result<Rules<'b>, Refusal> {
    let mut start = Start::of(world, Vec::new(), limits);
    start.want(over, list);
    let (rules, used) = start.run(&Rules::over(protocols))?;
    match used.iter().position(|is_used| !is_used) {
        None => Ok(rules),
        Some(place) => {
            let rules = &rules;
            Err(first_invalid(&Reading { world, rules, over }, &list[place]))
        }
    }
}
