//! `muoswyldd`: a member of a group as a process (docs/MEMBER.md).

use clap::Parser;
use muoswyldd::control::{ask, Command};
use muoswyldd::exit::Fault;
use muoswyldd::options::{Verb, Words};
use muoswyldd::{failing, key, run};
use std::process::ExitCode;

fn main() -> ExitCode {
    let words = match Words::try_parse() {
        Ok(words) => words,
        Err(error) => {
            let is_help = !error.use_stderr();
            // a closed standard error hears nothing
            let _said = error.print();
            return ExitCode::from(if is_help { 0 } else { 64 });
        }
    };
    match done(words.verb) {
        Ok(()) => ExitCode::SUCCESS,
        Err(fault) => fault.say("muoswyldd"),
    }
}

fn done(verb: Verb) -> Result<(), Fault> {
    let (at, command) = match verb {
        Verb::Run(run) => return run::run(*run),
        Verb::Found(run) => return failing::found(*run),
        Verb::Keygen { file } => return key::make(&file),
        Verb::Send { at, message } => (at, Command::Send(message.into_bytes())),
        Verb::Leave { at } => (at, Command::Leave),
        Verb::Reset { at, least } => (at, Command::Reset(least)),
        Verb::Succeed { at, next } => (at, Command::Succeed(next.list())),
        Verb::Stopped {
            at,
            name,
            generation,
        } => (at, Command::Stopped(name, generation)),
        Verb::Status { at } => (at, Command::Status),
    };
    let answer = ask(&at.socket, &command)?;
    println!("{answer}");
    Ok(())
}
