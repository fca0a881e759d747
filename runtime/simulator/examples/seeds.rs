//! Runs many seeds, and tells of each that fails: `seeds FIRST COUNT`. It ends with 1 if one failed.

use muoswyld_simulator::{run, Plan};
use std::fmt::Display;
use std::io::Write;
use std::process::ExitCode;

/// Says a line; where nobody reads it any more, nothing is said.
fn say(line: impl Display) {
    let _ = writeln!(std::io::stdout(), "{line}");
}

fn main() -> ExitCode {
    let words: Vec<u64> = std::env::args()
        .skip(1)
        .filter_map(|word| word.parse().ok())
        .collect();
    let [first, count] = words[..] else {
        eprintln!("seeds FIRST COUNT");
        return ExitCode::from(2);
    };
    let mut failed = 0;
    for seed in first..first.saturating_add(count) {
        let began = std::time::Instant::now();
        let ran = run(&Plan::of(seed));
        if began.elapsed().as_secs() >= 3 {
            say(format_args!("seed {seed} took {:?}", began.elapsed()));
        }
        match ran {
            Ok(report) if count == 1 => say(&report.text),
            Ok(_) => {}
            Err(failure) => {
                failed += 1;
                say(&failure);
            }
        }
    }
    say(format_args!("seeds {count}, failed {failed}"));
    if failed == 0 {
        ExitCode::SUCCESS
    } else {
        ExitCode::FAILURE
    }
}
