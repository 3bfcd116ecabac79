//! The protocols, functions and queries of a text, by small numbers.
//!
//! Protocols and names go by their bytes. Associated types go by name, then those first that are not inherited too, and then by protocol.
//! Member symbols go by name, then those first whose protocol inherits more, and then by protocol.

use std::cmp::{Ordering, Reverse};
use std::collections::{HashMap, HashSet};

use crate::refusal::Refusal;
use crate::syntax::{
    AskText, BoundText, FunctionText, ProtocolText, QueryText, RequirementText, Source, StepText,
    Token, TypeText,
};

pub type Proto = u32;
pub type Name = u32;
pub type Assoc = u32;

#[derive(Clone, Copy, Debug, PartialEq, Eq, PartialOrd, Ord)]
pub enum Step {
    Bound(Assoc),
    Name(Name),
}

/// A generic parameter by its index, with members. `Self` has index 0.
#[derive(Clone, Debug, PartialEq, Eq)]
pub struct TypeParam {
    pub head: u32,
    pub steps: Vec<Step>,
}

impl Ord for TypeParam {
    fn cmp(&self, other: &TypeParam) -> Ordering {
        let key = |t: &TypeParam| (t.steps.len(), t.head);
        key(self)
            .cmp(&key(other))
            .then_with(|| self.steps.cmp(&other.steps))
    }
}

impl PartialOrd for TypeParam {
    fn partial_cmp(&self, other: &TypeParam) -> Option<Ordering> {
        Some(self.cmp(other))
    }
}

#[derive(Clone, Debug, PartialEq, Eq)]
pub enum Requirement {
    Conforms(TypeParam, Proto),
    IsAnyObject(TypeParam),
    Equals(TypeParam, TypeParam),
}

/// A requirement, and the offsets of its sides in the text.
pub struct Written {
    pub requirement: Requirement,
    pub left_at: usize,
    pub right_at: usize,
}

pub struct Function<'a> {
    pub name: &'a str,
    pub params: u32,
    pub list: Vec<Written>,
}

pub enum Ask {
    Signature,
    Reduced(TypeParam),
    Requires(Requirement),
}

pub struct Query {
    pub function: usize,
    pub ask: Ask,
}

pub struct World<'a> {
    pub protocols: Vec<&'a str>,
    pub names: Vec<&'a str>,
    pub written_order: Vec<Proto>,
    pub associated: Vec<(Proto, Name)>,
    /// Of each name the rank of its first associated type, and behind them how many there are.
    first_associated: Vec<Assoc>,
    pub members: Vec<(Proto, Name)>,
    member_ranks: HashMap<(Proto, Name), u32>,
    /// Of each protocol the names of its members, in order.
    pub member_names: Vec<Vec<Name>>,
    /// Of each protocol.
    pub requirements: Vec<Vec<Written>>,
    pub functions: Vec<Function<'a>>,
    pub queries: Vec<Query>,
}

impl World<'_> {
    /// The associated types of a name.
    pub fn associated_of(&self, name: Name) -> std::ops::Range<Assoc> {
        self.first_associated[name as usize]..self.first_associated[name as usize + 1]
    }

    pub fn member_rank(&self, member: (Proto, Name)) -> u32 {
        self.member_ranks[&member]
    }
}

fn not_read<T>(token: Token<'_>) -> Result<T, Refusal> {
    Err(Refusal::NotRead { at: token.at })
}

/// The words in order, each once, and the rank of each.
fn ranked<'a>(words: impl Iterator<Item = &'a str>) -> (Vec<&'a str>, HashMap<&'a str, u32>) {
    let mut sorted: Vec<&str> = words.collect();
    sorted.sort_unstable();
    sorted.dedup();
    let ranks = sorted
        .iter()
        .enumerate()
        .map(|(rank, word)| (*word, rank as u32))
        .collect();
    (sorted, ranks)
}

fn requirement_types<'s, 'a>(clause: &'s [RequirementText<'a>], types: &mut Vec<&'s TypeText<'a>>) {
    for requirement in clause {
        match requirement {
            RequirementText::Is(subject, bounds) => {
                types.push(subject);
                bound_types(bounds, types);
            }
            RequirementText::Same(left, right) => types.extend([left, right]),
        }
    }
}

fn bound_types<'s, 'a>(bounds: &'s [BoundText<'a>], types: &mut Vec<&'s TypeText<'a>>) {
    types.extend(bounds.iter().flat_map(|bound| &bound.arguments));
}

/// The types of a text.
fn types_of<'s, 'a>(source: &'s Source<'a>) -> Vec<&'s TypeText<'a>> {
    let mut types = Vec::new();
    for protocol in &source.protocols {
        bound_types(&protocol.bounds, &mut types);
        requirement_types(&protocol.clause, &mut types);
        for associated in &protocol.associated {
            bound_types(&associated.bounds, &mut types);
            requirement_types(&associated.clause, &mut types);
        }
    }
    for function in &source.functions {
        function
            .params
            .iter()
            .for_each(|(_, bounds)| bound_types(bounds, &mut types));
        requirement_types(&function.clause, &mut types);
    }
    for query in &source.queries {
        match &query.ask {
            AskText::Signature => {}
            AskText::Reduced(t) | AskText::Is(t, _) => types.push(t),
            AskText::Same(left, right) => types.extend([left, right]),
        }
    }
    types
}

/// The names of associated types and of members in a text.
fn names_in<'a>(source: &Source<'a>) -> Vec<&'a str> {
    let declared = source
        .protocols
        .iter()
        .flat_map(|protocol| &protocol.associated);
    let mut names: Vec<&str> = declared.map(|associated| associated.name.text).collect();
    for t in types_of(source) {
        names.extend(t.steps.iter().map(|step| match step {
            StepText::Name(name) | StepText::Bound(_, name) => name.text,
        }));
    }
    names
}

/// The protocols to which a protocol says that the bare `Self` conforms.
fn direct<'s, 'a>(protocol: &'s ProtocolText<'a>) -> Vec<&'s BoundText<'a>> {
    let mut bounds: Vec<&BoundText> = protocol.bounds.iter().collect();
    let clauses = protocol
        .associated
        .iter()
        .flat_map(|associated| &associated.clause);
    for requirement in protocol.clause.iter().chain(clauses) {
        if let RequirementText::Is(subject, others) = requirement
            && subject.head.text == "Self"
            && subject.steps.is_empty()
        {
            bounds.extend(others);
        }
    }
    bounds.retain(|bound| !bound.is_layout());
    bounds
}

/// The protocols to which these steps lead from one, without it unless they lead back to it.
fn reached(direct: &[Vec<Proto>], from: Proto) -> Vec<Proto> {
    let mut is_met = vec![false; direct.len()];
    let mut open = vec![from];
    let mut found = Vec::new();
    while let Some(p) = open.pop() {
        for q in &direct[p as usize] {
            if !is_met[*q as usize] {
                is_met[*q as usize] = true;
                found.push(*q);
                open.push(*q);
            }
        }
    }
    found
}

/// Where a type is written.
#[derive(Clone, Copy)]
enum Context<'s> {
    Protocol(Proto),
    Function(&'s HashMap<&'s str, u32>),
}

/// What names of a text mean.
struct Lexicon<'s, 'a> {
    source: &'s Source<'a>,
    proto_ranks: HashMap<&'a str, Proto>,
    name_ranks: HashMap<&'a str, Name>,
    assoc_ranks: HashMap<(Proto, Name), Assoc>,
    member_ranks: HashMap<(Proto, Name), u32>,
    /// Of each protocol its place in written order.
    places: Vec<usize>,
}

impl<'s, 'a> Lexicon<'s, 'a> {
    fn proto(&self, name: Token<'_>) -> Result<Proto, Refusal> {
        self.proto_ranks
            .get(name.text)
            .copied()
            .map_or_else(|| not_read(name), Ok)
    }

    fn head(&self, context: Context<'_>, head: Token<'_>) -> Result<TypeParam, Refusal> {
        let mut t = TypeParam {
            head: 0,
            steps: Vec::new(),
        };
        match context {
            Context::Function(params) => match params.get(head.text) {
                Some(index) => t.head = *index,
                None => return not_read(head),
            },
            Context::Protocol(_) if head.text == "Self" => {}
            Context::Protocol(p) => match self.name_ranks.get(head.text) {
                Some(name) if self.member_ranks.contains_key(&(p, *name)) => {
                    t.steps.push(Step::Name(*name))
                }
                _ => return not_read(head),
            },
        }
        Ok(t)
    }

    fn spell(&self, context: Context<'_>, written: &TypeText<'_>) -> Result<TypeParam, Refusal> {
        let mut t = self.head(context, written.head)?;
        for step in &written.steps {
            t.steps.push(match step {
                StepText::Name(name) => Step::Name(self.name_ranks[name.text]),
                StepText::Bound(proto, name) => {
                    let key = (self.proto(*proto)?, self.name_ranks[name.text]);
                    Step::Bound(
                        self.assoc_ranks
                            .get(&key)
                            .copied()
                            .map_or_else(|| not_read(*name), Ok)?,
                    )
                }
            });
        }
        Ok(t)
    }

    fn is(&self, subject: TypeParam, entity: Token<'_>) -> Result<Requirement, Refusal> {
        if entity.text == "AnyObject" {
            return Ok(Requirement::IsAnyObject(subject));
        }
        Ok(Requirement::Conforms(subject, self.proto(entity)?))
    }

    fn add_bounds(
        &self,
        context: Context<'_>,
        (subject, at): (&TypeParam, usize),
        bounds: &[BoundText<'_>],
        into: &mut Vec<Written>,
    ) -> Result<(), Refusal> {
        for bound in bounds {
            let requirement = self.is(subject.clone(), bound.entity)?;
            into.push(Written {
                requirement,
                left_at: at,
                right_at: at,
            });
            if bound.arguments.is_empty() {
                continue;
            }
            let place = self.places[self.proto(bound.entity)? as usize];
            let primaries = &self.source.protocols[place].primaries;
            if primaries.len() != bound.arguments.len() {
                return not_read(bound.entity);
            }
            for (name, argument) in primaries.iter().zip(&bound.arguments) {
                let mut left = subject.clone();
                left.steps.push(Step::Name(self.name_ranks[name.text]));
                into.push(Written {
                    requirement: Requirement::Equals(left, self.spell(context, argument)?),
                    left_at: bound.entity.at,
                    right_at: argument.head.at,
                });
            }
        }
        Ok(())
    }

    fn add_clause(
        &self,
        context: Context<'_>,
        clause: &[RequirementText<'_>],
        into: &mut Vec<Written>,
    ) -> Result<(), Refusal> {
        for requirement in clause {
            match requirement {
                RequirementText::Is(subject, bounds) => {
                    let t = self.spell(context, subject)?;
                    self.add_bounds(context, (&t, subject.head.at), bounds, into)?;
                }
                RequirementText::Same(left, right) => into.push(Written {
                    requirement: Requirement::Equals(
                        self.spell(context, left)?,
                        self.spell(context, right)?,
                    ),
                    left_at: left.head.at,
                    right_at: right.head.at,
                }),
            }
        }
        Ok(())
    }

    fn protocol_list(
        &self,
        rank: Proto,
        protocol: &ProtocolText<'_>,
    ) -> Result<Vec<Written>, Refusal> {
        let context = Context::Protocol(rank);
        let mut list = Vec::new();
        let mut subject = TypeParam {
            head: 0,
            steps: Vec::new(),
        };
        self.add_bounds(
            context,
            (&subject, protocol.name.at),
            &protocol.bounds,
            &mut list,
        )?;
        self.add_clause(context, &protocol.clause, &mut list)?;
        for associated in &protocol.associated {
            let name = associated.name;
            subject.steps = vec![Step::Name(self.name_ranks[name.text])];
            self.add_bounds(context, (&subject, name.at), &associated.bounds, &mut list)?;
            self.add_clause(context, &associated.clause, &mut list)?;
        }
        Ok(list)
    }

    fn function(
        &self,
        function: &FunctionText<'a>,
        params: &HashMap<&str, u32>,
    ) -> Result<Function<'a>, Refusal> {
        let context = Context::Function(params);
        let mut list = Vec::new();
        for (index, (name, bounds)) in function.params.iter().enumerate() {
            let subject = TypeParam {
                head: index as u32,
                steps: Vec::new(),
            };
            self.add_bounds(context, (&subject, name.at), bounds, &mut list)?;
        }
        self.add_clause(context, &function.clause, &mut list)?;
        Ok(Function {
            name: function.name.text,
            params: function.params.len() as u32,
            list,
        })
    }

    fn ask(&self, ask: &AskText<'_>, params: &HashMap<&str, u32>) -> Result<Ask, Refusal> {
        let context = Context::Function(params);
        Ok(match ask {
            AskText::Signature => Ask::Signature,
            AskText::Reduced(t) => Ask::Reduced(self.spell(context, t)?),
            AskText::Is(t, entity) => Ask::Requires(self.is(self.spell(context, t)?, *entity)?),
            AskText::Same(left, right) => Ask::Requires(Requirement::Equals(
                self.spell(context, left)?,
                self.spell(context, right)?,
            )),
        })
    }
}

/// The tokens by their texts, each with its place, where none stands there twice.
fn places_of<'s>(
    tokens: impl Iterator<Item = Token<'s>>,
) -> Result<HashMap<&'s str, u32>, Refusal> {
    let mut places = HashMap::new();
    for (place, token) in tokens.enumerate() {
        if places.insert(token.text, place as u32).is_some() {
            return not_read(token);
        }
    }
    Ok(places)
}

/// The functions of a text, and its queries by these.
fn functions_and_queries<'a>(
    lexicon: &Lexicon<'_, 'a>,
    source: &Source<'a>,
) -> Result<(Vec<Function<'a>>, Vec<Query>), Refusal> {
    let places = places_of(source.functions.iter().map(|function| function.name))?;
    let mut params = Vec::new();
    let mut functions = Vec::new();
    for function in &source.functions {
        let own = places_of(function.params.iter().map(|(name, _)| *name))?;
        functions.push(lexicon.function(function, &own)?);
        params.push(own);
    }
    let mut queries = Vec::new();
    for QueryText { function, ask } in &source.queries {
        let place = *places
            .get(function.text)
            .ok_or(Refusal::NotRead { at: function.at })? as usize;
        queries.push(Query {
            function: place,
            ask: lexicon.ask(ask, &params[place])?,
        });
    }
    Ok((functions, queries))
}

impl<'a> World<'a> {
    pub fn of(source: &Source<'a>) -> Result<World<'a>, Refusal> {
        let written = places_of(source.protocols.iter().map(|protocol| protocol.name))?;
        let (protocols, proto_ranks) =
            ranked(source.protocols.iter().map(|protocol| protocol.name.text));
        let (names, name_ranks) = ranked(names_in(source).into_iter());
        let places: Vec<usize> = protocols
            .iter()
            .map(|name| written[name] as usize)
            .collect();
        let mut lexicon = Lexicon {
            source,
            proto_ranks,
            name_ranks,
            assoc_ranks: HashMap::new(),
            member_ranks: HashMap::new(),
            places,
        };
        let mut direct_of: Vec<Vec<Proto>> = Vec::new();
        let mut declared: Vec<Vec<Name>> = Vec::new();
        for place in &lexicon.places {
            let protocol = &source.protocols[*place];
            places_of(protocol.associated.iter().map(|associated| associated.name))?;
            let bounds = direct(protocol);
            direct_of.push(
                bounds
                    .iter()
                    .map(|bound| lexicon.proto(bound.entity))
                    .collect::<Result<_, _>>()?,
            );
            let own = protocol
                .associated
                .iter()
                .map(|associated| lexicon.name_ranks[associated.name.text]);
            declared.push(own.collect());
        }
        let mut associated = Vec::new();
        let mut members = Vec::new();
        let mut member_names = Vec::new();
        for (p, own) in declared.iter().enumerate() {
            let inherited = reached(&direct_of, p as Proto);
            if inherited.contains(&(p as Proto)) {
                return not_read(source.protocols[lexicon.places[p]].name);
            }
            let others: HashSet<Name> = inherited
                .iter()
                .flat_map(|q| &declared[*q as usize])
                .copied()
                .collect();
            associated.extend(
                own.iter()
                    .map(|name| (*name, others.contains(name), p as Proto)),
            );
            let mut all: Vec<Name> = others.into_iter().chain(own.iter().copied()).collect();
            all.sort_unstable();
            all.dedup();
            members.extend(
                all.iter()
                    .map(|name| (*name, Reverse(inherited.len()), p as Proto)),
            );
            member_names.push(all);
        }
        associated.sort_unstable();
        members.sort_unstable();
        let associated: Vec<(Proto, Name)> = associated
            .into_iter()
            .map(|(name, _, p)| (p, name))
            .collect();
        let members: Vec<(Proto, Name)> =
            members.into_iter().map(|(name, _, p)| (p, name)).collect();
        lexicon.assoc_ranks = associated
            .iter()
            .enumerate()
            .map(|(rank, pair)| (*pair, rank as u32))
            .collect();
        lexicon.member_ranks = members
            .iter()
            .enumerate()
            .map(|(rank, pair)| (*pair, rank as u32))
            .collect();
        let first_of =
            |name: usize| associated.partition_point(|pair| (pair.1 as usize) < name) as u32;
        let mut requirements = Vec::new();
        for (p, place) in lexicon.places.iter().enumerate() {
            requirements.push(lexicon.protocol_list(p as Proto, &source.protocols[*place])?);
        }
        let (functions, queries) = functions_and_queries(&lexicon, source)?;
        Ok(World {
            written_order: source
                .protocols
                .iter()
                .map(|protocol| lexicon.proto_ranks[protocol.name.text])
                .collect(),
            first_associated: (0..names.len() + 1).map(first_of).collect(),
            protocols,
            names,
            associated,
            members,
            member_ranks: lexicon.member_ranks,
            member_names,
            requirements,
            functions,
            queries,
        })
    }
}
