//! Rewriting: symbols, rules with the trie of their left sides, and completion within limits.

use std::collections::HashMap;
use std::hash::{BuildHasherDefault, Hasher};

/// A symbol as a number: its kind in the upper bits, and below them a rank. So symbols go by kind, and then by rank.
#[derive(Clone, Copy, Debug, PartialEq, Eq, PartialOrd, Ord, Hash)]
pub struct Symbol(u32);

/// What a symbol stands for, in the order of the kinds.
pub enum Meaning {
    Proto(u32),
    Member(u32),
    Param(u32),
    Name(u32),
    Layout,
}

const SHIFT: u32 = 29;

impl Symbol {
    pub const LAYOUT: Symbol = Symbol(4 << SHIFT);

    pub fn proto(rank: u32) -> Symbol {
        Symbol(rank)
    }

    pub fn member(rank: u32) -> Symbol {
        Symbol(1 << SHIFT | rank)
    }

    pub fn param(index: u32) -> Symbol {
        Symbol(2 << SHIFT | index)
    }

    pub fn name(rank: u32) -> Symbol {
        Symbol(3 << SHIFT | rank)
    }

    pub fn meaning(self) -> Meaning {
        let rank = self.0 & ((1 << SHIFT) - 1);
        match self.0 >> SHIFT {
            0 => Meaning::Proto(rank),
            1 => Meaning::Member(rank),
            2 => Meaning::Param(rank),
            3 => Meaning::Name(rank),
            _ => Meaning::Layout,
        }
    }
}

pub type Word = Vec<Symbol>;

pub type Equation = (Word, Word);

#[derive(Clone, Copy, Debug)]
pub enum Birth {
    Given(usize),
    Pair(usize, usize, usize),
}

#[derive(Clone, Debug)]
pub struct Rule {
    pub left: Word,
    pub right: Word,
    pub birth: Birth,
}

#[derive(Clone, Copy, Debug)]
pub struct Limits {
    pub max_rules: usize,
    pub max_length: usize,
}

/// The limit that a completion passed.
#[derive(Clone, Copy, Debug)]
pub enum Limit {
    Rules,
    Length,
}

/// The numbers of two rules, and the place of the second left side in the first one.
type Place = (usize, usize, usize);

/// A hasher of small numbers, by one multiplication for each.
#[derive(Clone, Copy, Default)]
struct Mixer(u64);

impl Hasher for Mixer {
    fn write(&mut self, bytes: &[u8]) {
        for byte in bytes {
            self.write_u64(u64::from(*byte));
        }
    }

    fn write_u32(&mut self, number: u32) {
        self.write_u64(u64::from(number));
    }

    fn write_u64(&mut self, number: u64) {
        self.0 = (self.0.rotate_left(5) ^ number).wrapping_mul(0x517c_c1b7_2722_0a95);
    }

    fn finish(&self) -> u64 {
        self.0
    }
}

type Map<K, V> = HashMap<K, V, BuildHasherDefault<Mixer>>;

/// A node of the trie: the first rule that ends there, and the rules on whose way it lies.
#[derive(Clone, Default)]
struct Node {
    end: Option<usize>,
    passing: Vec<usize>,
}

/// Left sides by their symbols, and for each symbol the places past the begin of a left side at which it stands.
#[derive(Clone)]
struct Trie {
    nodes: Vec<Node>,
    edges: Map<(u32, Symbol), u32>,
    inside: Map<Symbol, Vec<(usize, usize)>>,
    longest: usize,
}

impl Trie {
    fn new() -> Trie {
        Trie {
            nodes: vec![Node::default()],
            edges: Map::default(),
            inside: Map::default(),
            longest: 0,
        }
    }

    fn insert(&mut self, left: &[Symbol], number: usize) {
        let mut node = 0;
        for symbol in left {
            let next = self.nodes.len() as u32;
            node = *self.edges.entry((node, *symbol)).or_insert(next);
            if node == next {
                self.nodes.push(Node::default());
            }
            self.nodes[node as usize].passing.push(number);
        }
        self.nodes[node as usize].end.get_or_insert(number);
        for (at, symbol) in left.iter().enumerate().skip(1) {
            self.inside.entry(*symbol).or_default().push((number, at));
        }
        self.longest = self.longest.max(left.len());
    }

    fn child(&self, node: u32, symbol: Symbol) -> Option<u32> {
        self.edges.get(&(node, symbol)).copied()
    }

    /// The node to which the word leads.
    fn node_of(&self, w: &[Symbol]) -> Option<&Node> {
        let mut node = 0;
        for symbol in w {
            node = self.child(node, *symbol)?;
        }
        Some(&self.nodes[node as usize])
    }

    /// The rule with the shortest left side that begins the word, or how many of its symbols were read where there is none.
    fn find(&self, w: &[Symbol]) -> Result<usize, usize> {
        let mut node = 0;
        for (k, symbol) in w.iter().enumerate() {
            match self.child(node, *symbol) {
                Some(child) => node = child,
                None => return Err(k + 1),
            }
            if let Some(number) = self.nodes[node as usize].end {
                return Ok(number);
            }
        }
        Err(w.len() + 1)
    }
}

/// Rules that stand after so many others, with the trie of their left sides.
#[derive(Clone)]
struct Part {
    before: usize,
    rules: Vec<Rule>,
    trie: Trie,
}

impl Part {
    fn after(before: usize) -> Part {
        Part {
            before,
            rules: Vec::new(),
            trie: Trie::new(),
        }
    }

    fn push(&mut self, rule: Rule) {
        let number = self.before + self.rules.len() + 1;
        self.trie.insert(&rule.left, number);
        self.rules.push(rule);
    }

    fn rule(&self, number: usize) -> &Rule {
        &self.rules[number - self.before - 1]
    }

    /// Adds the places of the pairs of a left side with the rules of the part whose numbers are below its own.
    fn add_places(&self, left: &[Symbol], number: usize, places: &mut Vec<Place>) {
        let below = |other: &&usize| **other < number;
        // Left sides in which this one stands, and those whose end its begin overlaps.
        if let Some(node) = self.trie.node_of(left) {
            places.extend(node.passing.iter().filter(below).map(|i| (*i, number, 0)));
        }
        for (i, at) in self.trie.inside.get(&left[0]).into_iter().flatten() {
            if *i < number {
                let rest = &self.rule(*i).left[*at..];
                if rest.starts_with(left) || left.starts_with(rest) {
                    places.push((*i, number, *at));
                }
            }
        }
        // Left sides that stand in this one, and those whose begin its end overlaps.
        for at in 0..left.len() {
            let mut from = 0;
            for (k, symbol) in left[at..].iter().enumerate() {
                let Some(child) = self.trie.child(from, *symbol) else {
                    break;
                };
                from = child;
                let node = &self.trie.nodes[child as usize];
                let is_last = at + k + 1 == left.len();
                if !is_last && node.end.is_none() {
                    continue;
                }
                for j in node.passing.iter().filter(below) {
                    let long = self.rule(*j).left.len();
                    if long == k + 1 || (is_last && at > 0 && long > k + 1) {
                        places.push((number, *j, at));
                    }
                }
            }
        }
    }
}

/// What a completion writes over and over.
#[derive(Default)]
struct Scratch {
    left: Word,
    right: Word,
    reads: Vec<usize>,
    places: Vec<Place>,
}

/// Rules in the order of their births. The first ones may be borrowed.
#[derive(Clone)]
pub struct Rules<'b> {
    below: Option<&'b Part>,
    own: Part,
}

impl<'b> Rules<'b> {
    pub fn new() -> Rules<'b> {
        Rules {
            below: None,
            own: Part::after(0),
        }
    }

    /// No rules over these, of which none is borrowed.
    pub fn over(base: &'b Rules<'_>) -> Rules<'b> {
        Rules {
            below: Some(&base.own),
            own: Part::after(base.own.rules.len()),
        }
    }

    pub fn count(&self) -> usize {
        self.own.before + self.own.rules.len()
    }

    fn rule(&self, number: usize) -> &Rule {
        match self.below {
            Some(below) if number <= self.own.before => below.rule(number),
            _ => self.own.rule(number),
        }
    }

    /// All rules.
    pub fn all(&self) -> impl Iterator<Item = &Rule> {
        self.below
            .into_iter()
            .flat_map(|below| &below.rules)
            .chain(&self.own.rules)
    }

    /// The rules that are not borrowed.
    pub fn own(&self) -> &[Rule] {
        &self.own.rules
    }

    fn longest(&self) -> usize {
        let below = self.below.map_or(0, |below| below.trie.longest);
        below.max(self.own.trie.longest)
    }

    /// The rule by which reduction steps at the begin of the word, or how many of its symbols tell that there is none.
    fn find(&self, w: &[Symbol]) -> Result<usize, usize> {
        let own = self.own.trie.find(w);
        let Some(below) = self.below else { return own };
        match (below.trie.find(w), own) {
            (Err(first), Err(second)) => Err(first.max(second)),
            (Ok(first), Ok(second))
                if self.rule(second).left.len() < self.rule(first).left.len() =>
            {
                Ok(second)
            }
            (Ok(number), _) | (Err(_), Ok(number)) => Ok(number),
        }
    }

    fn step(&self, number: usize, w: &mut Word, at: usize) {
        let Rule { left, right, .. } = self.rule(number);
        let end = at + right.len();
        w[at..end].copy_from_slice(right);
        w.drain(end..at + left.len());
    }

    /// Reduces the word. A place is searched again only where a step changed what was read there.
    fn reduce_by_reads(&self, w: &mut Word, reads: &mut Vec<usize>) {
        reads.clear();
        while reads.len() < w.len() {
            let at = reads.len();
            match self.find(&w[at..]) {
                Ok(number) => {
                    self.step(number, w, at);
                    while reads.last().is_some_and(|read| at < *read) {
                        reads.pop();
                    }
                }
                Err(count) => {
                    let before = reads.last().copied().unwrap_or(0);
                    reads.push(before.max(at + count));
                }
            }
        }
    }

    /// Reduces the word, where no left side begins before the place.
    fn reduce_from(&self, w: &mut Word, from: usize) {
        let longest = self.longest();
        let mut at = from;
        while at < w.len() {
            match self.find(&w[at..]) {
                Ok(number) => {
                    self.step(number, w, at);
                    at = at.saturating_sub(longest);
                }
                Err(_) => at += 1,
            }
        }
    }

    pub fn reduce(&self, w: &mut Word) {
        self.reduce_from(w, 0);
    }

    pub fn is_reducible(&self, w: &[Symbol]) -> bool {
        (0..w.len()).any(|at| self.find(&w[at..]).is_ok())
    }

    /// Puts a symbol behind an irreducible word, and reduces the longer word.
    pub fn append(&self, w: &mut Word, x: Symbol) {
        w.push(x);
        self.reduce_from(w, w.len().saturating_sub(self.longest()));
    }

    /// Whether a symbol vanishes behind an irreducible word.
    pub fn vanishes(&self, w: &[Symbol], x: Symbol, test: &mut Word) -> bool {
        test.clear();
        test.extend_from_slice(w);
        self.append(test, x);
        test == w
    }

    /// Reduces both sides, and where they differ bears a rule.
    fn settle(&mut self, birth: Birth, limits: Limits, scratch: &mut Scratch) -> Result<(), Limit> {
        let Scratch {
            left, right, reads, ..
        } = scratch;
        self.reduce_by_reads(left, reads);
        self.reduce_by_reads(right, reads);
        if left == right {
            return Ok(());
        }
        let is_less = (left.len(), &*left) < (right.len(), &*right);
        let (greater, less) = if is_less {
            (right, left)
        } else {
            (left, right)
        };
        let length = greater.len();
        self.own.push(Rule {
            left: greater.clone(),
            right: less.clone(),
            birth,
        });
        if self.count() > limits.max_rules {
            return Err(Limit::Rules);
        }
        if length > limits.max_length {
            return Err(Limit::Length);
        }
        Ok(())
    }

    fn settle_given<'e>(
        &mut self,
        given: impl IntoIterator<Item = &'e Equation>,
        limits: Limits,
        scratch: &mut Scratch,
    ) -> Result<(), Limit> {
        for (n, (left, right)) in given.into_iter().enumerate() {
            scratch.left.clone_from(left);
            scratch.right.clone_from(right);
            self.settle(Birth::Given(n + 1), limits, scratch)?;
        }
        Ok(())
    }

    /// Finds the places of all pairs with this greater number, in order.
    fn find_places(&self, greater: usize, places: &mut Vec<Place>) {
        let left = &self.rule(greater).left;
        places.clear();
        if let Some(below) = self.below {
            below.add_places(left, greater, places);
        }
        self.own.add_places(left, greater, places);
        for at in 1..left.len() {
            if left.starts_with(&left[at..]) {
                places.push((greater, greater, at));
            }
        }
        places.sort_unstable();
    }

    fn write_sides(&self, (i, j, at): Place, scratch: &mut Scratch) {
        let (first, second) = (self.rule(i), self.rule(j));
        let Scratch { left, right, .. } = scratch;
        left.clone_from(&first.right);
        right.clear();
        right.extend_from_slice(&first.left[..at]);
        right.extend_from_slice(&second.right);
        let end = at + second.left.len();
        if end > first.left.len() {
            left.extend_from_slice(&second.left[first.left.len() - at..]);
        } else {
            right.extend_from_slice(&first.left[end..]);
        }
    }

    /// Completes the rules, which are complete, by the equations. On a limit the last rule is the one that passes it.
    pub fn complete<'e>(
        &mut self,
        given: impl IntoIterator<Item = &'e Equation>,
        limits: Limits,
    ) -> Result<(), Limit> {
        let mut scratch = Scratch::default();
        let mut greater = self.count() + 1;
        self.settle_given(given, limits, &mut scratch)?;
        while greater <= self.count() {
            self.find_places(greater, &mut scratch.places);
            for n in 0..scratch.places.len() {
                let (i, j, at) = scratch.places[n];
                self.write_sides((i, j, at), &mut scratch);
                self.settle(Birth::Pair(i, j, at), limits, &mut scratch)?;
            }
            greater += 1;
        }
        Ok(())
    }

    /// Adds the rules that the equations bear by themselves, without pairs.
    pub fn bear<'e>(
        &mut self,
        given: impl IntoIterator<Item = &'e Equation>,
        limits: Limits,
    ) -> Result<(), Limit> {
        self.settle_given(given, limits, &mut Scratch::default())
    }
}
