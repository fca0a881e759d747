//! A place's folder of state, who has stopped, and ends of lists by themselves.

use crate::config::{change, milliseconds, muoswyld_config, Problem};
use crate::guard::{changing, guard, text};
use crate::status::muoswyld_status;
use group::{Config, Group, Limits, Names, Policy};
use std::ffi::{c_char, c_int};
use std::time::Duration;

/// The path that a text is.
fn path_of(text: Option<&str>) -> Result<std::path::PathBuf, Problem> {
    let why = || "a path is UTF-8".to_string();
    text.map(Into::into)
        .ok_or_else(|| Problem(muoswyld_status::BadValue, why()))
}

/// The place's folder of state, on a local disk, as muoswyld_group_found makes it: which life was begun last, and whom the place has refused. With it no
/// life runs twice, and no two processes of the place run at a time. MUOSWYLD_STATUS_BAD_VALUE if the path isn't UTF-8.
#[no_mangle]
pub unsafe extern "C" fn muoswyld_config_state(
    config: *mut muoswyld_config,
    path: *const c_char,
) -> muoswyld_status {
    guard(|| {
        // SAFETY: the caller's text, or NULL
        let path = unsafe { text(path) }?;
        // SAFETY: the caller's handle, or NULL
        unsafe { change(config, |it| Ok(it.state(path_of(path)?))) }
    })
}

/// The places that vote who has stopped, as "0,1,2": some of the founders, odd in number; all founders if it isn't set. With voters and a folder of state
/// the policy is that of muoswyld_config_echo if none is set, and else that of muoswyld_config_told. MUOSWYLD_STATUS_BAD_NAME if it is no set of names.
#[no_mangle]
pub unsafe extern "C" fn muoswyld_config_voters(
    config: *mut muoswyld_config,
    voters: *const c_char,
) -> muoswyld_status {
    guard(|| {
        // SAFETY: the caller's text, or NULL
        let said = unsafe { text(voters) }?;
        let voters: Option<Names> = said.and_then(|text| text.parse().ok());
        let voters = voters.ok_or(muoswyld_status::BadName)?;
        // SAFETY: the caller's handle, or NULL
        unsafe { change(config, |it| Ok(it.voters(voters))) }
    })
}

/// A name has stopped once muoswyld_group_stopped says so (docs/FAILURES.md, for all policies).
#[no_mangle]
pub unsafe extern "C" fn muoswyld_config_told(config: *mut muoswyld_config) -> muoswyld_status {
    // SAFETY: the caller's handle, or NULL
    guard(|| unsafe { change(config, |it| Ok(it.policy(Policy::Told))) })
}

/// A name has stopped once a majority of the voters has refused it, each on its disk.
#[no_mangle]
pub unsafe extern "C" fn muoswyld_config_echo(config: *mut muoswyld_config) -> muoswyld_status {
    // SAFETY: the caller's handle, or NULL
    guard(|| unsafe { change(config, |it| Ok(it.policy(Policy::Echo))) })
}

/// The same, and its lease of so many milliseconds is over. The rate of a running machine's clock differs from real time by so many thousandths at most.
#[no_mangle]
pub unsafe extern "C" fn muoswyld_config_lease(
    config: *mut muoswyld_config,
    milliseconds: u32,
    drift: u32,
) -> muoswyld_status {
    let policy = Policy::Lease {
        length: Duration::from_millis(milliseconds.into()),
        drift: drift.into(),
    };
    // SAFETY: the caller's handle, or NULL
    guard(|| unsafe { change(config, |it| Ok(it.policy(policy))) })
}

/// A name has stopped once a program that is run with the name, which ends its process or its machine, ended with 0. After so many milliseconds the
/// program is killed, and tried again later. MUOSWYLD_STATUS_BAD_VALUE if the path isn't UTF-8.
#[no_mangle]
pub unsafe extern "C" fn muoswyld_config_command(
    config: *mut muoswyld_config,
    program: *const c_char,
    milliseconds: u32,
) -> muoswyld_status {
    guard(|| {
        // SAFETY: the caller's text, or NULL
        let program = unsafe { text(program) }?;
        let within = Duration::from_millis(milliseconds.into());
        let set = |it: Config| {
            let program = path_of(program)?;
            Ok(it.policy(Policy::Command { program, within }))
        };
        // SAFETY: the caller's handle, or NULL
        unsafe { change(config, set) }
    })
}

/// Has the list end by itself, and another one follow it, once a member's place has at most so many lives left, 0 to 15, or at most so many numbers of
/// entries are left, of 2,000,000,000. All members are given the same. If it isn't set the list ends only by muoswyld_group_succeed.
#[no_mangle]
pub unsafe extern "C" fn muoswyld_config_succeed_at(
    config: *mut muoswyld_config,
    lives: u8,
    numbers: u32,
) -> muoswyld_status {
    let limits = Limits { lives, numbers };
    // SAFETY: the caller's handle, or NULL
    guard(|| unsafe { change(config, |it| Ok(it.succeed_at(limits))) })
}

/// Has the config name the place's next life that was never begun, in the latest list of the group: as its folder of state says, and members at the other
/// addresses that answer in this time. Set the addresses, the key and the folder before, and start the member by muoswyld_group_start.
///
/// MUOSWYLD_STATUS_BAD_STATE if the folder isn't the place's, or has no life left, _BAD_VALUE if there is none, _NO_ADDRESS if the place has none, and _SYSTEM
/// if the system refused a socket or the members run another version. If nobody answers, the folder's word is taken.
#[no_mangle]
pub unsafe extern "C" fn muoswyld_config_next_life(
    config: *mut muoswyld_config,
    timeout_ms: c_int,
) -> muoswyld_status {
    let most = milliseconds(timeout_ms).unwrap_or(Duration::from_secs(1 << 32));
    let next = |it: Config| {
        it.next_life(most)
            .map_err(|error| Problem((&error).into(), error.to_string()))
    };
    // SAFETY: the caller's handle, or NULL
    guard(|| unsafe { change(config, next) })
}

/// Makes the folder of state of a name that runs for the first time: once for each place, when the group is founded, with the settings with which it will
/// run. A founder's place that votes has its voter's file in it. A place that lost its disk has a new folder made with a life that was never begun: it votes
/// no more.
///
/// MUOSWYLD_STATUS_BAD_STATE if the folder has a state already or can't be made, and _BAD_VALUE if no folder is set or a voter is no founder;
/// muoswyld_config_error says more.
#[no_mangle]
pub unsafe extern "C" fn muoswyld_group_found(config: *mut muoswyld_config) -> muoswyld_status {
    guard(|| {
        // SAFETY: the caller's handle, or NULL
        let settings = unsafe { changing(config) }?;
        Group::found(&settings.config)
            .map_err(|error| settings.note(Problem((&error).into(), error.to_string())))
    })
}
