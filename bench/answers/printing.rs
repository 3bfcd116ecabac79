//! The printed texts of type parameters, requirements, signatures and traces.

use std::fmt::Write;

use crate::rewriting::{Birth, Meaning, Rule, Symbol};
use crate::world::{Requirement, Step, TypeParam, World};

pub fn put_type(world: &World, t: &TypeParam, out: &mut String) {
    write!(out, "τ_0_{}", t.head).unwrap();
    for step in &t.steps {
        match *step {
            Step::Bound(d) => {
                let (proto, name) = world.associated[d as usize];
                write!(
                    out,
                    ".[{}]{}",
                    world.protocols[proto as usize], world.names[name as usize]
                )
                .unwrap();
            }
            Step::Name(name) => write!(out, ".{}", world.names[name as usize]).unwrap(),
        }
    }
}

fn put_requirement(world: &World, requirement: &Requirement, out: &mut String) {
    match requirement {
        Requirement::Conforms(t, p) => {
            put_type(world, t, out);
            write!(out, " : {}", world.protocols[*p as usize]).unwrap();
        }
        Requirement::IsAnyObject(t) => {
            put_type(world, t, out);
            out.push_str(" : AnyObject");
        }
        Requirement::Equals(t, u) => {
            put_type(world, t, out);
            out.push_str(" == ");
            put_type(world, u, out);
        }
    }
}

/// Writes a signature with so many generic parameters, as a line.
pub fn put_signature(world: &World, params: u32, list: &[Requirement], out: &mut String) {
    out.push('<');
    for index in 0..params {
        let between = if index == 0 { "" } else { ", " };
        write!(out, "{between}τ_0_{index}").unwrap();
    }
    for (n, requirement) in list.iter().enumerate() {
        out.push_str(if n == 0 { " where " } else { ", " });
        put_requirement(world, requirement, out);
    }
    out.push_str(">\n");
}

fn put_word(world: &World, word: &[Symbol], out: &mut String) {
    for (n, symbol) in word.iter().enumerate() {
        if n > 0 {
            out.push('.');
        }
        match symbol.meaning() {
            Meaning::Proto(p) => write!(out, "[{}]", world.protocols[p as usize]).unwrap(),
            Meaning::Member(rank) => {
                let (proto, name) = world.members[rank as usize];
                write!(
                    out,
                    "[{}:{}]",
                    world.protocols[proto as usize], world.names[name as usize]
                )
                .unwrap();
            }
            Meaning::Param(index) => write!(out, "τ_0_{index}").unwrap(),
            Meaning::Name(name) => out.push_str(world.names[name as usize]),
            Meaning::Layout => out.push_str("[layout: AnyObject]"),
        }
    }
}

pub fn put_trace(world: &World, trace: &[Rule], out: &mut String) {
    for (n, rule) in trace.iter().enumerate() {
        write!(out, "  {}: ", n + 1).unwrap();
        put_word(world, &rule.left, out);
        out.push_str(" => ");
        put_word(world, &rule.right, out);
        match rule.birth {
            Birth::Given(n) => writeln!(out, " (given {n})").unwrap(),
            Birth::Pair(i, j, at) => writeln!(out, " (pair {i} {j} {at})").unwrap(),
        }
    }
}
