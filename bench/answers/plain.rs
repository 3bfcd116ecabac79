//! Whole texts answered by a plain Rust program: the same rules and births in the same order, and the same lines.
//!
//! It has the commands `answer`, `signatures` and `gen N`, and reads protocols, functions and queries. Of structs, and of texts that are
//! refused for a name or for their tokens, it says only from where on they are not read.

mod machines;
mod minimising;
mod printing;
mod refusal;
mod rewriting;
mod syntax;
mod world;

use std::env;
use std::fmt::Write as _;
use std::io::{self, Read, Write};
use std::process::ExitCode;

use machines::{Over, Reading, function_rules, protocol_rules};
use minimising::minimised;
use printing::{put_signature, put_trace, put_type};
use refusal::Refusal;
use rewriting::Limits;
use world::{Ask, World};

#[derive(Clone, Copy, PartialEq, Eq)]
enum Command {
    Answer,
    Signatures,
    Gen(usize),
}

struct CommandLine {
    command: Command,
    limits: Limits,
    has_trace: bool,
}

impl CommandLine {
    fn read() -> Option<CommandLine> {
        let words: Vec<String> = env::args()
            .skip(1)
            .flat_map(|w| w.split('=').map(String::from).collect::<Vec<_>>())
            .collect();
        let mut words = words.iter();
        let command = match words.next()?.as_str() {
            "answer" => Command::Answer,
            "signatures" => Command::Signatures,
            "gen" => Command::Gen(words.next()?.parse().ok()?),
            _ => return None,
        };
        let mut line = CommandLine {
            command,
            limits: Limits {
                max_rules: 4000,
                max_length: 64,
            },
            has_trace: false,
        };
        while let Some(word) = words.next() {
            match word.as_str() {
                "--max-rules" => line.limits.max_rules = words.next()?.parse().ok()?,
                "--max-length" => line.limits.max_length = words.next()?.parse().ok()?,
                "--trace" => line.has_trace = true,
                _ => return None,
            }
        }
        Some(line)
    }
}

/// The generated text of a number.
fn generated(n: usize) -> String {
    let next = |k: usize| if k == n { 1 } else { k + 1 };
    let mut text = String::new();
    for k in 1..=n {
        writeln!(
            text,
            "protocol L{k} {{ associatedtype A{k}: L{} }}",
            next(k)
        )
        .unwrap();
    }
    text.push_str("func f<T: L1, U: L1>() where T.A1 == U.A1 { }\n");
    let mut path = String::new();
    for k in 1..=n {
        write!(path, ".A{k}").unwrap();
        writeln!(
            text,
            "query f(T{path} : L{})\nquery f(T{path} == U{path})",
            next(k)
        )
        .unwrap();
        writeln!(text, "query f(T{path} : L{k})\nquery f(T.A{k} : L1)").unwrap();
    }
    text.push_str("query f()\n");
    text
}

/// The answer to a query that asks for no signature.
fn answer(reading: &Reading, ask: &Ask) -> String {
    match ask {
        Ask::Signature => String::new(),
        Ask::Reduced(t) => match reading.reduced(t) {
            None => "invalid\n".to_string(),
            Some(t) => {
                let mut line = String::new();
                put_type(reading.world, &t, &mut line);
                line.push('\n');
                line
            }
        },
        Ask::Requires(requirement) => match reading.judge(requirement) {
            None => "invalid\n".to_string(),
            Some(true) => "yes\n".to_string(),
            Some(false) => "no\n".to_string(),
        },
    }
}

/// What is made of a text: the answers to its queries, and of each function the line of its minimised list, where it is asked.
struct Made {
    answers: Vec<String>,
    signatures: Vec<Option<String>>,
}

fn make(world: &World, are_all_asked: bool, limits: Limits) -> Result<Made, Refusal> {
    let protocols = protocol_rules(world, limits)?;
    let mut asked: Vec<Vec<usize>> = vec![Vec::new(); world.functions.len()];
    if !are_all_asked {
        for (k, query) in world.queries.iter().enumerate() {
            asked[query.function].push(k);
        }
    }
    let mut answers = vec![String::new(); world.queries.len()];
    let mut signatures = Vec::new();
    // A function that is refused comes before a list that is not minimised.
    let mut failed = None;
    for (function, asked) in world.functions.iter().zip(&asked) {
        let over = Over::Function(function.params);
        let rules = &function_rules(world, &protocols, over, &function.list, limits)?;
        let reading = Reading { world, rules, over };
        for k in asked {
            answers[*k] = answer(&reading, &world.queries[*k].ask);
        }
        let is_asked = asked
            .iter()
            .any(|k| matches!(world.queries[*k].ask, Ask::Signature));
        signatures.push(None);
        if are_all_asked || is_asked {
            match minimised(&reading, &protocols, limits) {
                Ok(list) => {
                    let mut line = String::new();
                    put_signature(world, function.params, &list, &mut line);
                    *signatures.last_mut().unwrap() = Some(line);
                }
                Err(refusal) => failed = failed.or(Some(refusal)),
            }
        }
    }
    match failed {
        Some(refusal) => Err(refusal),
        None => Ok(Made {
            answers,
            signatures,
        }),
    }
}

/// What the command prints of a text.
fn printed(world: &World, line: &CommandLine) -> Result<String, Refusal> {
    let mut out = String::new();
    let Made {
        answers,
        signatures,
    } = make(world, line.command == Command::Signatures, line.limits)?;
    if line.command == Command::Signatures {
        for (function, signature) in world.functions.iter().zip(&signatures) {
            write!(out, "{}: {}", function.name, signature.as_ref().unwrap()).unwrap();
        }
        return Ok(out);
    }
    let all: Vec<&str> = world
        .queries
        .iter()
        .zip(&answers)
        .map(|(query, answer)| match query.ask {
            Ask::Signature => signatures[query.function].as_ref().unwrap(),
            _ => answer.as_str(),
        })
        .collect();
    match line.command {
        Command::Gen(n) => {
            let count = |verdict: &str| all.iter().filter(|answer| **answer == verdict).count();
            writeln!(out, "protocols {n}\nfunctions 1\nqueries {}", all.len()).unwrap();
            writeln!(
                out,
                "yes {}\nno {}\ninvalid {}",
                count("yes\n"),
                count("no\n"),
                count("invalid\n")
            )
            .unwrap();
            out.push_str(all.last().unwrap());
        }
        _ => out.extend(all),
    }
    Ok(out)
}

/// What is printed of a text, and the status.
fn run(text: &str, line: &CommandLine) -> (String, u8) {
    let source = match syntax::parse(text) {
        Ok(source) => source,
        Err(refusal) => return (refusal.line(line.limits), refusal.status()),
    };
    let world = match World::of(&source) {
        Ok(world) => world,
        Err(refusal) => return (refusal.line(line.limits), refusal.status()),
    };
    match printed(&world, line) {
        Ok(out) => (out, 0),
        Err(refusal) => {
            let mut out = refusal.line(line.limits);
            if let Refusal::Limit { trace, .. } = &refusal
                && line.has_trace
            {
                put_trace(&world, trace, &mut out);
            }
            (out, refusal.status())
        }
    }
}

fn main() -> ExitCode {
    let Some(line) = CommandLine::read() else {
        eprintln!(
            "usage: plain (answer | signatures | gen N) [--max-rules N] [--max-length N] [--trace]"
        );
        return ExitCode::from(2);
    };
    let mut text = String::new();
    match line.command {
        Command::Gen(n) => text = generated(n),
        _ => {
            io::stdin()
                .read_to_string(&mut text)
                .expect("the text is not read");
        }
    }
    let (out, status) = run(&text, &line);
    io::stdout()
        .write_all(out.as_bytes())
        .expect("the answer is not written");
    ExitCode::from(status)
}
