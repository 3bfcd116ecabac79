//! Completion as a plain Rust program: the same rules and births in the same order, over a trie of the left sides.

use std::collections::HashMap;
use std::env;
use std::time::Instant;

#[derive(Clone, Copy, Debug, PartialEq, Eq, PartialOrd, Ord, Hash)]
enum Symbol {
    Proto(u32),
    Member(u64),
    Param(u32, u32),
    Name(u32),
}

type Word = Vec<Symbol>;

type Equation = (Word, Word);

#[derive(Clone, Copy, Debug)]
enum Birth {
    Given(usize),
    Pair(usize, usize, usize),
}

struct Rule {
    left: Word,
    right: Word,
    birth: Birth,
}

/// A node of the trie: where its edges lead, the rule that ends there, and the rules on whose way it lies.
#[derive(Default)]
struct Node {
    children: HashMap<Symbol, usize>,
    end: Option<usize>,
    passing: Vec<usize>,
}

/// The left sides by their symbols, and for each symbol the places past the begin of a left side at which it stands.
struct Trie {
    nodes: Vec<Node>,
    inside: HashMap<Symbol, Vec<(usize, usize)>>,
}

impl Trie {
    fn new() -> Trie {
        Trie {
            nodes: vec![Node::default()],
            inside: HashMap::new(),
        }
    }

    fn insert(&mut self, left: &[Symbol], number: usize) {
        let mut node = 0;
        for symbol in left {
            let next = self.nodes.len();
            let child = *self.nodes[node].children.entry(*symbol).or_insert(next);
            if child == next {
                self.nodes.push(Node::default());
            }
            self.nodes[child].passing.push(number);
            node = child;
        }
        self.nodes[node].end.get_or_insert(number);
        for (at, symbol) in left.iter().enumerate().skip(1) {
            self.inside.entry(*symbol).or_default().push((number, at));
        }
    }

    /// The rule with the shortest left side that begins the word, or how many of its symbols were read where there is none.
    fn find(&self, w: &[Symbol]) -> Result<usize, usize> {
        let mut node = 0;
        for (k, symbol) in w.iter().enumerate() {
            match self.nodes[node].children.get(symbol) {
                Some(child) => node = *child,
                None => return Err(k + 1),
            }
            if let Some(number) = self.nodes[node].end {
                return Ok(number);
            }
        }
        Err(w.len() + 1)
    }
}

fn begins(front: &[Symbol], w: &[Symbol]) -> bool {
    w.len() >= front.len() && w[..front.len()] == *front
}

#[derive(Default)]
struct Completion {
    max_length: usize,
    rules: Vec<Rule>,
    left: Word,
    right: Word,
    reads: Vec<usize>,
    places: Vec<(usize, usize, usize)>,
}

impl Completion {
    fn new(max_length: usize) -> Completion {
        Completion {
            max_length,
            ..Completion::default()
        }
    }

    /// Reduces the word. A place is searched again only where a step changed what was read there.
    fn reduce(&self, trie: &Trie, w: &mut Word, reads: &mut Vec<usize>) {
        reads.clear();
        while reads.len() < w.len() {
            let at = reads.len();
            match trie.find(&w[at..]) {
                Ok(number) => {
                    let rule = &self.rules[number - 1];
                    w.splice(at..at + rule.left.len(), rule.right.iter().copied());
                    while reads.last().is_some_and(|read| at < *read) {
                        reads.pop();
                    }
                }
                Err(count) => {
                    let before = reads.last().copied().unwrap_or(0);
                    reads.push(before.max(at + count));
                }
            }
        }
    }

    /// Reduces both sides, and where they differ bears a rule. Answers whether its left side is within the limit.
    fn settle(&mut self, trie: &mut Trie, birth: Birth) -> bool {
        let mut left = std::mem::take(&mut self.left);
        let mut right = std::mem::take(&mut self.right);
        let mut reads = std::mem::take(&mut self.reads);
        self.reduce(trie, &mut left, &mut reads);
        self.reduce(trie, &mut right, &mut reads);
        let mut is_within = true;
        if left != right {
            let is_less = (left.len(), &left) < (right.len(), &right);
            let (greater, less) = if is_less { (&right, &left) } else { (&left, &right) };
            self.rules.push(Rule {
                left: greater.clone(),
                right: less.clone(),
                birth,
            });
            trie.insert(greater, self.rules.len());
            is_within = greater.len() <= self.max_length;
        }
        self.left = left;
        self.right = right;
        self.reads = reads;
        is_within
    }

    /// The places of all pairs with this greater number, in order.
    fn find_places(&mut self, trie: &Trie, greater: usize) {
        let left = &self.rules[greater - 1].left;
        let places = &mut self.places;
        places.clear();
        let below = |number: &&usize| **number < greater;
        // Left sides in which this one stands, and those that its begin overlaps.
        let mut node = Some(0);
        for symbol in left {
            node = node.and_then(|n| trie.nodes[n].children.get(symbol).copied());
        }
        if let Some(node) = node {
            places.extend(trie.nodes[node].passing.iter().filter(below).map(|i| (*i, greater, 0)));
        }
        if let Some(spots) = trie.inside.get(&left[0]) {
            for (i, at) in spots {
                if *i < greater {
                    let rest = &self.rules[*i - 1].left[*at..];
                    if begins(left, rest) || (rest.len() < left.len() && begins(rest, left)) {
                        places.push((*i, greater, *at));
                    }
                }
            }
        }
        // Left sides that stand in this one, and those that its end overlaps.
        for at in 0..left.len() {
            let mut node = Some(0);
            for (k, symbol) in left[at..].iter().enumerate() {
                node = node.and_then(|n| trie.nodes[n].children.get(symbol).copied());
                let Some(n) = node else { break };
                let is_last = at + k + 1 == left.len();
                for j in trie.nodes[n].passing.iter().filter(below) {
                    let long = self.rules[*j - 1].left.len();
                    if long == k + 1 || (is_last && at > 0 && long > k + 1) {
                        places.push((greater, *j, at));
                    }
                }
            }
        }
        for at in 1..left.len() {
            if begins(&left[at..], left) {
                places.push((greater, greater, at));
            }
        }
        places.sort_unstable();
    }

    fn write_sides(&mut self, i: usize, j: usize, at: usize) {
        let first = &self.rules[i - 1];
        let second = &self.rules[j - 1];
        self.left.clear();
        self.left.extend_from_slice(&first.right);
        self.right.clear();
        self.right.extend_from_slice(&first.left[..at]);
        self.right.extend_from_slice(&second.right);
        let end = at + second.left.len();
        if end > first.left.len() {
            self.left.extend_from_slice(&second.left[first.left.len() - at..]);
        } else {
            self.right.extend_from_slice(&first.left[end..]);
        }
    }

    /// Completes the rules by the equations. Answers whether all left sides are within the limit, and stops at the first that is not.
    fn extend(&mut self, trie: &mut Trie, given: &[Equation]) -> bool {
        let base = self.rules.len();
        for (n, equation) in given.iter().enumerate() {
            self.left.clone_from(&equation.0);
            self.right.clone_from(&equation.1);
            if !self.settle(trie, Birth::Given(n + 1)) {
                return false;
            }
        }
        let mut greater = base + 1;
        while greater <= self.rules.len() {
            self.find_places(trie, greater);
            for n in 0..self.places.len() {
                let (i, j, at) = self.places[n];
                self.write_sides(i, j, at);
                if !self.settle(trie, Birth::Pair(i, j, at)) {
                    return false;
                }
            }
            greater += 1;
        }
        true
    }
}

/// The equations of the protocols and those of the function, and how many symbols a left side may have.
struct System {
    protocols: Vec<Equation>,
    function: Vec<Equation>,
    max_length: usize,
}

/// Systems whose completions end. Their size is that of the system.
fn ending(kind: &str, count: u32) -> System {
    use Symbol::{Member, Name, Param, Proto};
    let mut protocols: Vec<Equation> = Vec::new();
    let mut function: Vec<Equation> = Vec::new();
    for k in 0..count {
        protocols.push((vec![Proto(k), Proto(k)], vec![Proto(k)]));
        if kind == "generated" {
            protocols.push((vec![Proto(k), Name(k)], vec![Member(k.into())]));
        }
    }
    for k in 0..count {
        let next = (k + 1) % count;
        match kind {
            "chain" if next > 0 => protocols.push((vec![Proto(k), Proto(next)], vec![Proto(k)])),
            "generated" => protocols.push((vec![Proto(k), Name(k), Proto(next)], vec![Proto(k), Name(k)])),
            _ => {}
        }
    }
    let t = Param(0, 0);
    let conforms = |t: Symbol, k: u32| (vec![t, Proto(k)], vec![t]);
    match kind {
        "unrelated" => function.extend((0..count).map(|k| conforms(t, k))),
        "generated" => {
            let u = Param(0, 1);
            function.extend([conforms(t, 0), conforms(u, 0), (vec![t, Name(0)], vec![u, Name(0)])]);
        }
        _ => function.push(conforms(t, 0)),
    }
    System {
        protocols,
        function,
        max_length: 255,
    }
}

/// Protocols by their ranks, in written order, each with two members. The symbols of members go by the name and then by the protocol.
fn with_members(ranks: &[u32]) -> Vec<Equation> {
    use Symbol::{Member, Name, Proto};
    let count = ranks.len() as u64;
    let mut equations: Vec<Equation> = Vec::new();
    for rank in ranks {
        let this = Proto(*rank);
        let first = u64::from(*rank);
        equations.push((vec![this, this], vec![this]));
        equations.push((vec![this, Name(0)], vec![Member(first)]));
        equations.push((vec![this, Name(1)], vec![Member(count + first)]));
    }
    equations
}

/// That a member of the protocol conforms to the other one.
fn member_conforms(equations: &mut Vec<Equation>, rank: u32, name: u32, other: u32) {
    use Symbol::{Name, Proto};
    let member = vec![Proto(rank), Name(name)];
    equations.push((vec![Proto(rank), Name(name), Proto(other)], member));
}

/// Protocols whose two members, A and B, conform to the protocols with these ranks, with A.B.A == B.A.B in each.
fn braids(members: &[(u32, u32)]) -> Vec<Equation> {
    use Symbol::{Name, Proto};
    let ranks: Vec<u32> = (0..members.len() as u32).collect();
    let (a, b) = (Name(0), Name(1));
    let mut equations = with_members(&ranks);
    for (rank, (first, second)) in ranks.iter().zip(members) {
        member_conforms(&mut equations, *rank, 0, *first);
        member_conforms(&mut equations, *rank, 1, *second);
        equations.push((vec![Proto(*rank), a, b, a], vec![Proto(*rank), b, a, b]));
    }
    equations
}

/// The protocols of `examples/lists.txt`.
fn lists() -> Vec<Equation> {
    use Symbol::{Name, Proto};
    let (sorted, list, head, rest) = (Proto(0), Proto(1), Name(0), Name(1));
    let mut equations = with_members(&[1, 0]);
    member_conforms(&mut equations, 1, 0, 1);
    member_conforms(&mut equations, 1, 1, 1);
    equations.push((vec![sorted, list], vec![sorted]));
    equations.push((vec![sorted, rest, head, sorted], vec![sorted, rest, head]));
    equations.push((vec![sorted, rest, head, rest], vec![sorted, rest, rest]));
    equations
}

/// A system of a kind and a size. The size of one whose completion has no end is how many symbols a left side may have.
fn system(kind: &str, size: u32) -> System {
    let protocols = match kind {
        "braid" => braids(&[(0, 0)]),
        "lists" => lists(),
        "recursive" => braids(&[(0, 1), (1, 2), (2, 0)]),
        _ => return ending(kind, size),
    };
    System {
        protocols,
        function: Vec::new(),
        max_length: size as usize,
    }
}

/// A sum in which the births of all rules are mixed in order.
fn sum_of_births(rules: &[Rule]) -> u64 {
    rules.iter().fold(0, |sum: u64, rule| {
        let (i, j, at) = match rule.birth {
            Birth::Given(n) => (n, 0, 0),
            Birth::Pair(i, j, at) => (i, j, at + 1),
        };
        [i, j, at]
            .iter()
            .fold(sum, |sum, part| sum.wrapping_mul(31).wrapping_add(*part as u64))
    })
}

fn complete(system: &System) -> (Completion, Trie) {
    let mut completion = Completion::new(system.max_length);
    let mut trie = Trie::new();
    if completion.extend(&mut trie, &system.protocols) {
        completion.extend(&mut trie, &system.function);
    }
    (completion, trie)
}

fn main() {
    let words: Vec<String> = env::args().collect();
    let system = system(&words[1], words[2].parse().unwrap());
    let repeats: u32 = words[3].parse().unwrap();
    for _ in 0..repeats {
        let start = Instant::now();
        let (completion, _trie) = complete(&system);
        let took = start.elapsed();
        println!(
            "{} {} {}",
            completion.rules.len(),
            sum_of_births(&completion.rules),
            took.as_micros()
        );
    }
}
