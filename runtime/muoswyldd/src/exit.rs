//! How the program ends: a line on standard error, and a status as sysexits(3) has them.

use muoswyld_group::{CreateError, End};
use std::fmt;
use std::process::ExitCode;

/// The words of the command, or the configuration, are wrong.
pub const CONFIG: u8 = 78;
/// A file that is needed isn't there.
pub const NO_INPUT: u8 = 66;
/// The group went on without this member, or doesn't answer.
pub const UNAVAILABLE: u8 = 69;
/// The member or its node can't go on.
pub const SOFTWARE: u8 = 70;
/// The system refused a socket or a thread.
pub const SYSTEM: u8 = 71;
/// A file can't be made.
pub const CANT_CREATE: u8 = 73;
/// A read or a write failed.
pub const IO: u8 = 74;
/// Something wasn't done in time, and may be tried again.
pub const TRY_AGAIN: u8 = 75;
/// More members stopped than the resilience: nothing is claimed of this run from then on.
pub const VOID: u8 = 76;
/// A file may be read by others.
pub const NO_PERMISSION: u8 = 77;

/// Why the program ends, and with which status.
#[derive(Debug)]
pub struct Fault {
    /// The status.
    pub status: u8,
    /// The line.
    pub line: String,
}

impl Fault {
    /// One of a status and a line.
    pub fn of(status: u8, line: impl fmt::Display) -> Fault {
        Fault {
            status,
            line: line.to_string(),
        }
    }

    /// Says it as a program of this name, and gives the status.
    pub fn say(&self, program: &str) -> ExitCode {
        eprintln!("{program}: {}", self.line);
        ExitCode::from(self.status)
    }
}

impl From<CreateError> for Fault {
    fn from(error: CreateError) -> Fault {
        let status = match &error {
            CreateError::System(_) => SYSTEM,
            CreateError::Timeout => TRY_AGAIN,
            CreateError::Ended(_) => UNAVAILABLE,
            _ => CONFIG,
        };
        Fault::of(status, error)
    }
}

/// How a member's end ends the program: nothing if it left.
pub fn by_end(end: &End) -> Result<(), Fault> {
    let status = match end {
        End::Left | End::Closed | End::Stopped => return Ok(()),
        End::LeftOut | End::Unwelcomed | End::Superseded => UNAVAILABLE,
        End::Failed(_) | End::NotBegun => IO,
        _ => SOFTWARE,
    };
    Err(Fault::of(status, format_args!("the member ended: {end}")))
}
