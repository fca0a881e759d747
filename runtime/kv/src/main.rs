//! `muoswyld-kv`: a replicated key-value store with the Redis protocol (docs/KV.md).

use clap::Parser;
use muoswyld_kv::options::{Verb, Words};
use muoswyld_kv::run;
use muoswyldd::{failing, key};
use std::process::ExitCode;

fn main() -> ExitCode {
    let words = match Words::try_parse() {
        Ok(words) => words,
        Err(error) => {
            let is_help = !error.use_stderr();
            // a closed standard error hears nothing
            let _said = error.print();
            return ExitCode::from(if is_help { 0 } else { 64 });
        }
    };
    let done = match words.verb {
        Verb::Run(run) => run::run(*run),
        Verb::Found(run) => run
            .with_file()
            .and_then(|run| failing::make_state(&run.member)),
        Verb::Keygen { file } => key::make(&file),
        Verb::Succeed { at, next } => run::succeed(&at, &next),
    };
    match done {
        Ok(()) => ExitCode::SUCCESS,
        Err(fault) => fault.say("muoswyld-kv"),
    }
}
