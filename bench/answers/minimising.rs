//! The minimised list of a function: candidates, generators, and what is left of them.

use crate::machines::{Over, Reading, equation, first_behind};
use crate::refusal::Refusal;
use crate::rewriting::{Limits, Meaning, Rules, Symbol, Word};
use crate::world::{Name, Proto, Requirement, Step, TypeParam, World};

/// A requirement's principal type, and its kind: conformances by protocol, then the layout.
fn order(requirement: &Requirement) -> (&TypeParam, Option<Proto>) {
    match requirement {
        Requirement::Conforms(t, p) => (t, Some(*p)),
        Requirement::IsAnyObject(t) => (t, Some(Proto::MAX)),
        Requirement::Equals(_, v) => (v, None),
    }
}

/// The name for which a symbol stands.
fn name_of(world: &World, symbol: Symbol) -> Option<Name> {
    match symbol.meaning() {
        Meaning::Member(rank) => Some(world.members[rank as usize].1),
        Meaning::Name(name) => Some(name),
        _ => None,
    }
}

/// The type parameter that the left side of a reduced system stands for.
fn subject(reading: &Reading, left: &[Symbol], test: &mut Word) -> Option<TypeParam> {
    let (last, front) = left.split_last()?;
    if front.is_empty() {
        return reading.type_of(left, test);
    }
    let mut t = reading.type_of(front, test)?;
    let name = name_of(reading.world, *last)?;
    let d = first_behind(reading.world, reading.rules, front, name, test)?;
    t.steps.push(Step::Bound(d));
    Some(t)
}

/// The requirement that a rule of the reduced system says.
fn said(
    reading: &Reading,
    left: &[Symbol],
    right: &[Symbol],
    test: &mut Word,
) -> Option<Requirement> {
    let t = reading.type_of(right, test)?;
    let (last, front) = left.split_last()?;
    if front == right {
        match last.meaning() {
            Meaning::Proto(p) => return Some(Requirement::Conforms(t, p)),
            Meaning::Layout => return Some(Requirement::IsAnyObject(t)),
            _ => {}
        }
    }
    let v = subject(reading, left, test)?;
    (t != v).then_some(Requirement::Equals(t, v))
}

/// The candidates of a list, in order, as the reduced system of its rules says them. The rules of the protocols say none.
fn candidates(reading: &Reading) -> Vec<Requirement> {
    let rules = reading.rules;
    let mut test = Vec::new();
    let mut found = Vec::new();
    for rule in rules.own() {
        let left = &rule.left;
        if rules.is_reducible(&left[1..]) || rules.is_reducible(&left[..left.len() - 1]) {
            continue;
        }
        let mut right = rule.right.clone();
        rules.reduce(&mut right);
        found.extend(said(reading, left, &right, &mut test));
    }
    found.sort_unstable_by(|a, b| order(a).cmp(&order(b)));
    found.dedup();
    found
}

/// The rules of a list that grows, over those of the protocols, and the members of the list that are not usable yet.
#[derive(Clone)]
struct ListRules<'b> {
    rules: Rules<'b>,
    waiting: Vec<Requirement>,
}

/// What lists are minimised by.
struct Setting<'b> {
    world: &'b World<'b>,
    protocols: &'b Rules<'b>,
    over: Over,
    limits: Limits,
}

impl<'b> Setting<'b> {
    fn empty(&self) -> ListRules<'b> {
        ListRules {
            rules: Rules::over(self.protocols),
            waiting: Vec::new(),
        }
    }

    fn reading<'a>(&self, list: &'a ListRules<'b>) -> Reading<'a>
    where
        'b: 'a,
    {
        Reading {
            world: self.world,
            rules: &list.rules,
            over: self.over,
        }
    }

    /// Adds members to a list. Those that are usable join its rules one after the other.
    fn add(&self, list: &mut ListRules<'b>, more: &[Requirement]) -> Result<(), Refusal> {
        list.waiting.extend_from_slice(more);
        while let Some(place) = list
            .waiting
            .iter()
            .position(|r| self.reading(list).is_usable(r))
        {
            let sides = equation(self.world, self.over, &list.waiting.remove(place));
            list.rules
                .complete([&sides], self.limits)
                .map_err(|_| Refusal::NotMinimised)?;
        }
        Ok(())
    }

    fn derives(&self, list: &ListRules<'b>, requirement: &Requirement) -> bool {
        self.reading(list).judge(requirement) == Some(true)
    }

    /// Those of the candidates, in order, that are not derivable from those taken before them.
    fn generators(&self, candidates: Vec<Requirement>) -> Result<Vec<Requirement>, Refusal> {
        let mut list = self.empty();
        let mut taken = Vec::new();
        for candidate in candidates {
            if !self.derives(&list, &candidate) {
                self.add(&mut list, std::slice::from_ref(&candidate))?;
                taken.push(candidate);
            }
        }
        Ok(taken)
    }

    /// What is left of a part of the generators when one goes through it from the last to the first, and drops each that is derivable from
    /// the others that are then left. The rules are those of the others beside this part. A part is halved, each half with the rules to
    /// which the other one was added.
    fn left_of(
        &self,
        mut list: ListRules<'b>,
        mut part: &[Requirement],
    ) -> Result<Vec<Requirement>, Refusal> {
        while let [_, .., last] = part {
            if !self.derives(&list, last) {
                break;
            }
            part = &part[..part.len() - 1];
        }
        if let [one] = part {
            let is_left = !self.derives(&list, one);
            return Ok(if is_left {
                vec![one.clone()]
            } else {
                Vec::new()
            });
        }
        let (first, second) = part.split_at(part.len() / 2);
        let mut beside = list.clone();
        self.add(&mut beside, first)?;
        let kept = self.left_of(beside, second)?;
        self.add(&mut list, &kept)?;
        let mut left = self.left_of(list, first)?;
        left.extend(kept);
        Ok(left)
    }
}

/// The minimised list of a function with these rules, over the rules of the protocols.
pub fn minimised(
    reading: &Reading,
    protocols: &Rules,
    limits: Limits,
) -> Result<Vec<Requirement>, Refusal> {
    let setting = Setting {
        world: reading.world,
        protocols,
        over: reading.over,
        limits,
    };
    let generators = setting.generators(candidates(reading))?;
    // The last one is not derivable from those before it.
    let Some((last, others)) = generators.split_last() else {
        return Ok(generators);
    };
    if others.is_empty() {
        return Ok(generators);
    }
    let mut list = setting.empty();
    setting.add(&mut list, std::slice::from_ref(last))?;
    let mut left = setting.left_of(list, others)?;
    left.push(last.clone());
    Ok(left)
}
