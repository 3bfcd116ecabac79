//! Why a text is not answered.

use crate::rewriting::{Limit, Limits, Rule};

pub enum Refusal {
    /// It is not read from this place on: it is refused, or has something else than protocols, functions and queries.
    NotRead {
        at: usize,
    },
    NotATypeParameter {
        at: usize,
    },
    /// A completion passed a limit, with this trace.
    Limit {
        limit: Limit,
        trace: Vec<Rule>,
    },
    /// A completion of a minimised list passed a limit.
    NotMinimised,
}

impl Refusal {
    pub fn line(&self, limits: Limits) -> String {
        match self {
            Refusal::NotRead { at } => format!("error: not read at {at}\n"),
            Refusal::NotATypeParameter { at } => format!("error: not a type parameter at {at}\n"),
            Refusal::Limit {
                limit: Limit::Rules,
                ..
            } => format!("error: more than {} rules\n", limits.max_rules),
            Refusal::Limit {
                limit: Limit::Length,
                ..
            } => format!("error: rule longer than {} symbols\n", limits.max_length),
            Refusal::NotMinimised => "error: not minimised within the limits\n".to_string(),
        }
    }

    pub fn status(&self) -> u8 {
        match self {
            Refusal::Limit { .. } => 3,
            _ => 1,
        }
    }
}
