//! Performs a case file's calls with the crate's own stage and prints the answers.
//!
//! The build puts this file and the crate's published files into one folder.

mod case;
mod fault;
#[macro_use]
mod stubs;
mod tree;

#[allow(dead_code, unfulfilled_lint_expectations)]
mod ast;
#[allow(dead_code, unexpected_cfgs)]
mod error;
#[allow(dead_code)]
mod lexer;
#[allow(unexpected_cfgs)]
mod log;
#[allow(dead_code, unused)]
mod sema;
#[allow(dead_code)]
mod stablemapset;

use case::{Call, Case};
use sema::stage::Stage;
use std::io::{self, Read, Write};
use std::mem;
use std::process::ExitCode;
// The crate's files look for it here.
use stubs::files;

/// Why the crate's answers to a case cannot be compared: it would be refused, which the crate does
/// not do, or it has what the crate cannot express.
#[derive(Debug)]
pub struct Outside(pub String);

/// Which calls are allowed.
enum Phase<'a> {
    Unopened,
    Converters(Stage<'a>),
    Rules(Stage<'a>),
}

impl<'a> Phase<'a> {
    fn open(self, case: &'a Case) -> Result<Self, Outside> {
        Ok(Phase::Converters(match self {
            Phase::Unopened => Stage::open(case)?,
            Phase::Converters(mut stage) | Phase::Rules(mut stage) => {
                stage.open_again();
                stage
            }
        }))
    }

    /// Performs a call and gives the lines to print.
    fn perform(&mut self, call: Call, case: &'a Case) -> Result<String, Outside> {
        let answer = match (call, &mut *self) {
            (Call::Open, _) => {
                *self = mem::replace(self, Phase::Unopened).open(case)?;
                "ok"
            }
            (Call::Converter(part), Phase::Converters(stage)) => {
                stage.converter(part)?;
                "ok"
            }
            (Call::Close, Phase::Converters(_)) => {
                if let Phase::Converters(stage) = mem::replace(self, Phase::Unopened) {
                    *self = Phase::Rules(stage);
                }
                "ok"
            }
            (Call::Rule(part), Phase::Rules(stage)) => {
                stage.rule(part)?;
                "not yet"
            }
            (Call::Finish | Call::Run, Phase::Rules(_)) => "not yet",
            (Call::Dump, Phase::Converters(stage) | Phase::Rules(stage)) => return stage.dump(),
            _ => "order",
        };
        Ok(format!("{} {answer}\n", call.word()))
    }
}

fn main() -> io::Result<ExitCode> {
    let mut bytes = Vec::new();
    io::stdin().read_to_end(&mut bytes)?;
    let text = String::from_utf8_lossy(&bytes);
    let (case, read) = case::read(&text);
    let mut phase = Phase::Unopened;
    let mut out = io::stdout().lock();
    for call in &case.calls {
        match phase.perform(*call, &case) {
            Ok(lines) => out.write_all(lines.as_bytes())?,
            Err(Outside(why)) => {
                eprintln!("cannot be compared: {why}");
                return Ok(ExitCode::from(2));
            }
        }
    }
    Ok(match read {
        Ok(()) => ExitCode::SUCCESS,
        Err(malformed) => {
            eprintln!("{malformed}");
            ExitCode::FAILURE
        }
    })
}
