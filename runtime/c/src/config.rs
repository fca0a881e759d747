//! What a member is started with, by setters.

use crate::guard::{bytes, changing, free, guard, guard_or, nothing, put, reading, text, Done};
use crate::status::muoswyld_status;
use group::{Config, Key, Name, Names};
use std::ffi::{c_char, c_int, CString};
use std::net::SocketAddr;
use std::time::Duration;

/// The settings of a member. All members of a group are given the same founders, resilience, window, pb_up_to and key.
pub struct muoswyld_config {
    pub(crate) config: Config,
    error: CString,
}

/// Why a call on a config is refused: the status, and the sentence that says more.
pub(crate) struct Problem(pub(crate) muoswyld_status, pub(crate) String);

impl muoswyld_config {
    /// Keeps the sentence of a problem, and gives its status.
    pub(crate) fn note(&mut self, problem: Problem) -> muoswyld_status {
        let text: Vec<u8> = problem.1.into_bytes();
        let whole = text
            .into_iter()
            .filter(|byte| *byte != 0)
            .collect::<Vec<u8>>();
        self.error = CString::new(whole).unwrap_or_default();
        problem.0
    }
}

/// Changes the settings, or keeps why they aren't changed.
///
/// # Safety
/// The pointer is null, or a config's that nobody else uses now.
// SAFETY: whoever calls it keeps to the above
pub(crate) unsafe fn change(
    config: *mut muoswyld_config,
    how: impl FnOnce(Config) -> Result<Config, Problem>,
) -> Done {
    // SAFETY: the caller's word
    let config = unsafe { changing(config) }?;
    match how(config.config.clone()) {
        Ok(changed) => {
            config.config = changed;
            Ok(())
        }
        Err(problem) => Err(config.note(problem)),
    }
}

/// The address that a text is.
fn address_of(text: Option<&str>) -> Result<SocketAddr, Problem> {
    text.and_then(|text| text.parse().ok()).ok_or_else(|| {
        let shown = text.unwrap_or("a text that isn't UTF-8");
        let why = format!("{shown} is no address: one is as 127.0.0.1:7000, or as [::1]:7000");
        Problem(muoswyld_status::BadAddress, why)
    })
}

/// The time that a number of milliseconds is; None for a negative one, which has no end.
pub(crate) fn milliseconds(number: c_int) -> Option<Duration> {
    u64::try_from(number).ok().map(Duration::from_millis)
}

/// Makes the settings of a member: `name` as "0", or as "0/2" for a place that came back, and the founders as "0,1,2". The resilience is 0, the
/// window 256, and bodies of up to 1,024 bytes go by the sequencer.
///
/// It puts the config, which muoswyld_config_free frees, at `config`, or NULL if it fails. MUOSWYLD_STATUS_BAD_NAME if `name` is no name or
/// `founders` no set of names.
///
/// From any thread.
#[no_mangle]
pub unsafe extern "C" fn muoswyld_config_new(
    name: *const c_char,
    founders: *const c_char,
    config: *mut *mut muoswyld_config,
) -> muoswyld_status {
    guard(|| {
        // SAFETY: the caller's room for a handle, and its texts, or NULL
        let (name, founders) = unsafe {
            put(config, std::ptr::null_mut())?;
            (text(name)?, text(founders)?)
        };
        let name: Option<Name> = name.and_then(|text| text.parse().ok());
        let founders: Option<Names> = founders.and_then(|text| text.parse().ok());
        let (Some(name), Some(founders)) = (name, founders) else {
            return Err(muoswyld_status::BadName);
        };
        let made = muoswyld_config {
            config: Config::new(name, founders),
            error: CString::default(),
        };
        // SAFETY: as above
        unsafe { put(config, Box::into_raw(Box::new(made))) }
    })
}

/// Frees a config. Groups that were made of it stay as they are. NULL is nothing.
#[no_mangle]
pub unsafe extern "C" fn muoswyld_config_free(config: *mut muoswyld_config) {
    // SAFETY: the caller's handle, or NULL
    guard_or((), || unsafe { free(config) });
}

/// A sentence on the last call with this config that failed, muoswyld_group_create and muoswyld_group_join among them: it says more than the status,
/// such as which place has no address. Empty if none failed, or if `config` is NULL.
///
/// The text is the config's: it stays until the next call with it.
#[no_mangle]
pub unsafe extern "C" fn muoswyld_config_error(config: *const muoswyld_config) -> *const c_char {
    guard_or(nothing(), || {
        // SAFETY: the caller's handle, or NULL
        unsafe { reading(config) }.map_or(nothing(), |config| config.error.as_ptr())
    })
}

/// How many members may stop between two resets, 0 to 15, so that nothing which was given out is lost (0).
///
/// The range of numbers is looked at when the group is created or joined, here and below: MUOSWYLD_STATUS_BAD_VALUE comes from there.
#[no_mangle]
pub unsafe extern "C" fn muoswyld_config_resilience(
    config: *mut muoswyld_config,
    members: u8,
) -> muoswyld_status {
    // SAFETY: the caller's handle, or NULL
    guard(|| unsafe { change(config, |it| Ok(it.resilience(members))) })
}

/// How many entries may wait for the slowest member, 1 to 1,008 (256).
#[no_mangle]
pub unsafe extern "C" fn muoswyld_config_window(
    config: *mut muoswyld_config,
    entries: u16,
) -> muoswyld_status {
    // SAFETY: the caller's handle, or NULL
    guard(|| unsafe { change(config, |it| Ok(it.window(entries))) })
}

/// The longest body that goes by the sequencer, 0 to 1,024 bytes (1,024); a longer one goes to all, and its number alone by the sequencer, which
/// pays if the network has multicast.
#[no_mangle]
pub unsafe extern "C" fn muoswyld_config_pb_up_to(
    config: *mut muoswyld_config,
    bytes: u16,
) -> muoswyld_status {
    // SAFETY: the caller's handle, or NULL
    guard(|| unsafe { change(config, |it| Ok(it.pb_up_to(bytes))) })
}

/// The address of a place, 0 to 15: numbers and a port, as "10.0.0.1:7000" or "[::1]:7000". Every founder has one, and so has the member itself.
///
/// MUOSWYLD_STATUS_BAD_ADDRESS if it is no such text, if the place or the address has one already, or if some are of IPv4 and some of IPv6.
#[no_mangle]
pub unsafe extern "C" fn muoswyld_config_address(
    config: *mut muoswyld_config,
    place: u8,
    address: *const c_char,
) -> muoswyld_status {
    guard(|| {
        // SAFETY: the caller's text, or NULL
        let said = unsafe { text(address) }?;
        // SAFETY: the caller's handle, or NULL
        unsafe {
            change(config, |it| {
                let address = address_of(said)?;
                it.address(place, address)
                    .map_err(|bad| Problem(muoswyld_status::BadAddress, bad.to_string()))
            })
        }
    })
}

/// The address to bind, if it isn't the one at which the others reach this member: as that of muoswyld_config_address, with the same error.
#[no_mangle]
pub unsafe extern "C" fn muoswyld_config_bind(
    config: *mut muoswyld_config,
    address: *const c_char,
) -> muoswyld_status {
    guard(|| {
        // SAFETY: the caller's text, or NULL
        let said = unsafe { text(address) }?;
        // SAFETY: the caller's handle, or NULL
        unsafe { change(config, |it| Ok(it.bind(address_of(said)?))) }
    })
}

/// The group's key, of 32 bytes: datagrams are sealed by it, and others are dropped. MUOSWYLD_STATUS_BAD_VALUE for another length. The bytes are
/// copied.
#[no_mangle]
pub unsafe extern "C" fn muoswyld_config_key(
    config: *mut muoswyld_config,
    key: *const u8,
    length: usize,
) -> muoswyld_status {
    guard(|| {
        // SAFETY: the caller's bytes, or NULL
        let key: Result<[u8; 32], _> = unsafe { bytes(key, length) }?.try_into();
        // SAFETY: the caller's handle, or NULL
        unsafe {
            change(config, |it| match key {
                Ok(key) => Ok(it.key(Key::of(key))),
                Err(_) => {
                    let why = format!("a key has 32 bytes, and this has {length}");
                    Err(Problem(muoswyld_status::BadValue, why))
                }
            })
        }
    })
}

/// Writes a new random key to the `length` bytes at `key`, which are 32. All members of a group are given the same one. MUOSWYLD_STATUS_BAD_VALUE for
/// another length, and _SYSTEM if the system gives no random bytes.
///
/// From any thread.
#[no_mangle]
pub unsafe extern "C" fn muoswyld_key_random(key: *mut u8, length: usize) -> muoswyld_status {
    guard(|| {
        if length != 32 {
            return Err(muoswyld_status::BadValue);
        }
        let made = Key::random().map_err(|_| muoswyld_status::System)?;
        // SAFETY: the caller's room of 32 bytes, or NULL
        unsafe { put(key.cast(), *made.bytes()) }
    })
}

/// Allows a group without a key. Whoever reaches a member's address can then read all, and end the group.
#[no_mangle]
pub unsafe extern "C" fn muoswyld_config_insecure(config: *mut muoswyld_config) -> muoswyld_status {
    // SAFETY: the caller's handle, or NULL
    guard(|| unsafe { change(config, |it| Ok(it.insecure())) })
}

/// The fewest members that a reset goes on with, 1 to 16. A majority of the last view if it isn't set.
#[no_mangle]
pub unsafe extern "C" fn muoswyld_config_least(
    config: *mut muoswyld_config,
    members: u8,
) -> muoswyld_status {
    // SAFETY: the caller's handle, or NULL
    guard(|| unsafe { change(config, |it| Ok(it.least(members))) })
}

/// How many bytes of messages may wait to be sent, 131,072 or more (4 MiB).
#[no_mangle]
pub unsafe extern "C" fn muoswyld_config_most_waiting(
    config: *mut muoswyld_config,
    bytes: usize,
) -> muoswyld_status {
    // SAFETY: the caller's handle, or NULL
    guard(|| unsafe { change(config, |it| Ok(it.most_waiting(bytes))) })
}

/// How many deliveries may wait to be received before the group is held back, 1 or more (4,096).
#[no_mangle]
pub unsafe extern "C" fn muoswyld_config_most_unreceived(
    config: *mut muoswyld_config,
    deliveries: usize,
) -> muoswyld_status {
    // SAFETY: the caller's handle, or NULL
    guard(|| unsafe { change(config, |it| Ok(it.most_unreceived(deliveries))) })
}

/// The longest payload of a datagram, 1,232 to 65,000 bytes (1,400).
#[no_mangle]
pub unsafe extern "C" fn muoswyld_config_datagram(
    config: *mut muoswyld_config,
    bytes: usize,
) -> muoswyld_status {
    // SAFETY: the caller's handle, or NULL
    guard(|| unsafe { change(config, |it| Ok(it.datagram(bytes))) })
}

/// For how many microseconds the member's thread looks for more, before it sleeps, after it had something to do: 0 (the default) to 1,000. This takes
/// a processor meanwhile, and saves the time of waking up at each hop of a message.
#[no_mangle]
pub unsafe extern "C" fn muoswyld_config_spin(
    config: *mut muoswyld_config,
    microseconds: u32,
) -> muoswyld_status {
    let spin = Duration::from_micros(microseconds.into());
    // SAFETY: the caller's handle, or NULL
    guard(|| unsafe { change(config, |it| Ok(it.spin(spin))) })
}

/// How often an idle member ticks, in milliseconds, 1 or more (50).
#[no_mangle]
pub unsafe extern "C" fn muoswyld_config_tick(
    config: *mut muoswyld_config,
    milliseconds: u32,
) -> muoswyld_status {
    let tick = Duration::from_millis(milliseconds.into());
    // SAFETY: the caller's handle, or NULL
    guard(|| unsafe { change(config, |it| Ok(it.tick(tick))) })
}

/// The path of a new file in which the member writes what its node was given and what it answered, so that the run can be judged
/// (docs/NETWORK.md, "Journals, and how they are judged"). MUOSWYLD_STATUS_BAD_VALUE if it isn't UTF-8.
#[no_mangle]
pub unsafe extern "C" fn muoswyld_config_journal(
    config: *mut muoswyld_config,
    path: *const c_char,
) -> muoswyld_status {
    guard(|| {
        // SAFETY: the caller's text, or NULL
        let path = unsafe { text(path) }?;
        // SAFETY: the caller's handle, or NULL
        unsafe {
            change(config, |it| match path {
                Some(path) => Ok(it.journal(path.into())),
                None => {
                    let why = "the path of a journal is UTF-8".to_string();
                    Err(Problem(muoswyld_status::BadValue, why))
                }
            })
        }
    })
}

/// How many milliseconds muoswyld_group_create and muoswyld_group_join wait at most until the member is in the group. They wait without end if it
/// isn't set, or negative.
#[no_mangle]
pub unsafe extern "C" fn muoswyld_config_start_within(
    config: *mut muoswyld_config,
    timeout_ms: c_int,
) -> muoswyld_status {
    // more than a century is without end
    let within = milliseconds(timeout_ms).unwrap_or(Duration::from_secs(1 << 32));
    // SAFETY: the caller's handle, or NULL
    guard(|| unsafe { change(config, |it| Ok(it.start_within(within))) })
}
