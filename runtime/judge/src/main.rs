//! `judge`: judges the journals of a group's members (docs/NETWORK.md).

use clap::Parser;
use muoswyld_judge::feed::Over;
use muoswyld_judge::{judge, Asked, Cause, Finding, Judged};
use signal_hook::consts::{SIGINT, SIGTERM};
use signal_hook::iterator::Signals;
use std::path::PathBuf;
use std::process::ExitCode;
use std::thread;

/// Judges the journals of a group's members: each answer is that of the proved node, each letter was sent before it was heard, and
/// all took one list.
#[derive(Debug, Parser)]
#[command(
    name = "judge",
    version,
    about,
    after_help = "It ends with 0 if all is as it should be; with 1 and a line if something isn't, \
which names the file and the line; with 64 if the words are wrong, 66 if there is no journal, 74 if one can't be read."
)]
struct Words {
    /// Journals, or folders with them: files with `journal` in their names
    #[arg(required = true)]
    journals: Vec<PathBuf>,
    /// Judge while the members run; Ctrl-C or SIGTERM ends that
    #[arg(long)]
    follow: bool,
    /// The proved program, whose word `play` prints the text of a run of at most 100,000 events
    #[arg(long, value_name = "PROGRAM")]
    play: Option<PathBuf>,
}

fn shown(judged: &Judged) -> String {
    let Judged {
        lists,
        lives,
        events,
        letters,
        entries,
        ..
    } = judged;
    let of_list = match judged.void_in {
        0 => String::new(),
        before => format!(" of the list of generation {before}"),
    };
    let verdict = match judged.void_from {
        None => "lawful".to_string(),
        Some(event) => {
            format!("void from event {event}{of_list}: more stopped than the resilience allows")
        }
    };
    let play = judged
        .play
        .as_ref()
        .map_or("", |_| "; play prints the same");
    let list = match lists {
        0 | 1 => "a list".to_string(),
        lists => format!("{lists} lists"),
    };
    format!("{lives} lives, {events} events, {letters} letters, {list} of {entries} entries: {verdict}{play}")
}

fn status_of(finding: &Finding) -> u8 {
    match finding.cause {
        Cause::NoJournals => 66,
        Cause::Unread(_) => 74,
        _ => 1,
    }
}

/// Sets what is over at a signal.
fn end_at_signal(over: Over) -> std::io::Result<()> {
    let mut signals = Signals::new([SIGINT, SIGTERM])?;
    thread::spawn(move || {
        if signals.forever().next().is_some() {
            over.set();
        }
    });
    Ok(())
}

fn main() -> ExitCode {
    let words = match Words::try_parse() {
        Ok(words) => words,
        Err(error) => {
            let is_help = !error.use_stderr();
            // a closed standard error hears nothing
            let _said = error.print();
            return ExitCode::from(if is_help { 0 } else { 64 });
        }
    };
    let asked = Asked {
        journals: words.journals,
        over: Over::new(!words.follow),
        play: words.play,
    };
    if words.follow {
        if let Err(error) = end_at_signal(asked.over.clone()) {
            eprintln!("judge: {error}");
            return ExitCode::from(71);
        }
    }
    let mut tell = |judged: &Judged| eprintln!("judge: so far {}", shown(judged));
    match judge(&asked, &mut tell) {
        Ok(judged) => {
            println!("{}", shown(&judged));
            ExitCode::SUCCESS
        }
        Err(finding) => {
            eprintln!("judge: {finding}");
            ExitCode::from(status_of(&finding))
        }
    }
}
