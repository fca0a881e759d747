//! A replicated state machine over a group, whose machine is the caller's.

use crate::arrival::Arrival;
use crate::config::milliseconds;
use crate::guard::{bytes, changing, free, guard, guard_or, put, reading};
use crate::machine::{muoswyld_machine, Machine};
use crate::member::muoswyld_group;
use crate::status::muoswyld_status;
use crate::types::{muoswyld_names, muoswyld_position};
use ::muoswyld_service::{Service, Stop};
use muoswyld_replica::{Answer, Output, Refused, Request};
use std::cell::Cell;
use std::collections::VecDeque;
use std::ffi::{c_char, c_int, c_void, CString};
use std::rc::Rc;
use std::sync::{Arc, Mutex, MutexGuard, OnceLock, TryLockError};
use std::time::{Duration, Instant};

/// How long a service waits at most for its descriptor; and while the member has no room for its messages.
const SLEEP: Duration = Duration::from_millis(200);
const SHORT_SLEEP: Duration = Duration::from_millis(5);

/// A replicated state machine at a member.
pub struct muoswyld_service {
    inner: Mutex<Inner>,
    end_text: Arc<OnceLock<CString>>,
}

/// What one call at a time uses.
struct Inner {
    service: Service<Machine>,
    arrival: Arc<Arrival>,
    /// Whether a call of the machine failed.
    failed: Rc<Cell<bool>>,
    answers: VecDeque<muoswyld_answer>,
    /// Why it has ended.
    over: Option<muoswyld_status>,
    /// The same in words.
    end_text: Arc<OnceLock<CString>>,
}

/// What an answer is.
#[repr(C)]
#[derive(Clone, Copy, Debug, PartialEq, Eq)]
pub enum muoswyld_answered {
    /// Nothing: an answer that was cleared, or never filled.
    Nothing = 0,
    /// The machine has the state from here on. It comes once, and has no token.
    Ready = 1,
    /// A command was applied: here is what the machine answered.
    Done = 2,
    /// A barrier was reached: the machine has applied all that anybody was answered before it was asked.
    Reached = 3,
}

/// An answer of a service. muoswyld_answer_clear frees what it has; the struct itself is the caller's.
#[repr(C)]
pub struct muoswyld_answer {
    /// What it is.
    pub what: muoswyld_answered,
    /// The caller's number for what was asked.
    pub token: u64,
    /// Of a command: what the machine answered, which isn't changed. It stays until the answer is cleared. NULL if there is nothing.
    pub bytes: *const u8,
    /// How many bytes that has.
    pub length: usize,
    /// The library's own: what it frees. Don't touch it.
    pub owner: *mut c_void,
}

/// How a service stands.
#[repr(C)]
#[derive(Clone, Copy, Debug, PartialEq, Eq)]
pub struct muoswyld_service_info {
    /// Whether its machine has the state.
    pub is_ready: bool,
    /// The position of the last delivery that it has applied; number 0 if none.
    pub applied: muoswyld_position,
    /// The members that have the state, if this one has.
    pub holders: muoswyld_names,
    /// How many messages wait since the member has no room for them. While this isn't 0, call muoswyld_service_next again within 5 ms.
    pub unsent: u64,
}

impl muoswyld_answer {
    fn of(what: muoswyld_answered, token: u64, given: Vec<u8>) -> muoswyld_answer {
        let mut made = muoswyld_answer {
            what,
            token,
            bytes: std::ptr::null(),
            length: given.len(),
            owner: std::ptr::null_mut(),
        };
        if !given.is_empty() {
            made.bytes = given.as_ptr();
            made.owner = Box::into_raw(Box::new(given)).cast();
        }
        made
    }

    fn nothing() -> muoswyld_answer {
        muoswyld_answer::of(muoswyld_answered::Nothing, 0, Vec::new())
    }

    /// The answer that an output of a replica is, if it is one. Without sessions nothing else is answered.
    fn of_output(output: Output) -> Option<muoswyld_answer> {
        let (what, token, given) = match output {
            Output::Ready => (muoswyld_answered::Ready, 0, Vec::new()),
            Output::Answered { token, answer } => match answer {
                Answer::Done(given) => (muoswyld_answered::Done, token, given),
                Answer::Reached(_) => (muoswyld_answered::Reached, token, Vec::new()),
                _ => return None,
            },
            _ => return None,
        };
        Some(muoswyld_answer::of(what, token, given))
    }
}

impl Drop for Inner {
    fn drop(&mut self) {
        for answer in self.answers.drain(..) {
            // SAFETY: nobody was given it, and it is there once
            unsafe { free(answer.owner.cast::<Vec<u8>>()) };
        }
    }
}

impl muoswyld_service {
    /// The service, if no other call uses it: neither one of another thread, nor one that is making a call of the machine.
    fn open(&self) -> Result<MutexGuard<'_, Inner>, muoswyld_status> {
        match self.inner.try_lock() {
            Ok(inner) => Ok(inner),
            // a panic was answered, and the service is as it was before or after a step
            Err(TryLockError::Poisoned(inner)) => Ok(inner.into_inner()),
            Err(TryLockError::WouldBlock) => Err(muoswyld_status::Busy),
        }
    }
}

impl Inner {
    /// Does what can be done now.
    fn turn(&mut self) {
        self.arrival.hush();
        let (answers, failed) = (&mut self.answers, &self.failed);
        let turned = self.service.turn(|_, output| {
            // after a call of the machine failed its answers are none
            if !failed.get() {
                answers.extend(muoswyld_answer::of_output(output));
            }
        });
        let over = match turned {
            _ if self.failed.get() => muoswyld_status::MachineFailed,
            Ok(()) => return,
            Err(Stop::Member(_)) => muoswyld_status::Ended,
            Err(Stop::Replica(_)) => muoswyld_status::ServiceEnded,
        };
        let text = match turned {
            Err(stop) if over != muoswyld_status::MachineFailed => stop.to_string(),
            _ => "a call of the machine failed".into(),
        };
        let text = CString::new(text.replace('\0', " ")).unwrap_or_default();
        // it ends once
        let _kept = self.end_text.set(text);
        self.over = Some(over);
    }

    /// The next answer.
    fn next(&mut self, timeout_ms: c_int) -> Result<muoswyld_answer, muoswyld_status> {
        let until = milliseconds(timeout_ms).and_then(|most| Instant::now().checked_add(most));
        loop {
            if self.answers.is_empty() && self.over.is_none() {
                self.turn();
            }
            if let Some(answer) = self.answers.pop_front() {
                return Ok(answer);
            }
            if let Some(status) = self.over {
                return Err(status);
            }
            let left = until.map(|until| until.saturating_duration_since(Instant::now()));
            if left.is_some_and(|left| left.is_zero()) {
                return Err(match timeout_ms {
                    0 => muoswyld_status::Empty,
                    _ => muoswyld_status::Timeout,
                });
            }
            let most = match self.service.unsent() {
                0 => SLEEP,
                _ => SHORT_SLEEP,
            };
            self.arrival.wait(left.map_or(most, |left| left.min(most)));
        }
    }

    fn submit(&mut self, token: u64, request: Request) -> Result<(), muoswyld_status> {
        if let Some(status) = self.over {
            return Err(status);
        }
        self.service
            .submit(token, request)
            .map_err(|why| match why {
                Refused::TooLong => muoswyld_status::TooLong,
                Refused::Ended => muoswyld_status::ServiceEnded,
            })?;
        // it goes out at once, if there is room
        self.turn();
        Ok(())
    }
}

/// Makes a replicated state machine of a member that is in its group and of which nothing was received yet. From then on the service receives: don't
/// call muoswyld_group_receive. All members of the group have a service of the same kind of machine. A founder's begins as it is; who joins is sent the
/// state of the others (docs/REPLICAS.md).
///
/// The machine is copied; its context stays the caller's, and must stay until the service is freed. It puts the service, which muoswyld_service_free
/// frees, at `service`, or NULL if it fails: MUOSWYLD_STATUS_ENDED if the member has ended, _NULL_POINTER also if a call of the machine is NULL.
///
/// From any thread. All calls on one service come one after the other, and the machine's calls are made within them, in the same thread. A call that is
/// made while another one uses the service, and one that the machine makes, is answered MUOSWYLD_STATUS_BUSY, and does nothing.
#[no_mangle]
pub unsafe extern "C" fn muoswyld_service_new(
    group: *const muoswyld_group,
    machine: *const muoswyld_machine,
    service: *mut *mut muoswyld_service,
) -> muoswyld_status {
    guard(|| {
        // SAFETY: the caller's room for a handle, its group and its machine, or NULL
        let (member, machine) = unsafe {
            put(service, std::ptr::null_mut())?;
            (reading(group)?, *reading(machine)?)
        };
        let failed = Rc::new(Cell::new(false));
        let machine = Machine::new(machine, failed.clone())?;
        let (member, arrival) = member.parts();
        let made = Service::new(member, machine, |_| ()).map_err(|_| muoswyld_status::Ended)?;
        let end_text: Arc<OnceLock<CString>> = Arc::default();
        let inner = Inner {
            service: made,
            arrival,
            failed,
            answers: VecDeque::new(),
            over: None,
            end_text: end_text.clone(),
        };
        let made = muoswyld_service {
            inner: Mutex::new(inner),
            end_text,
        };
        // SAFETY: as above
        unsafe { put(service, Box::into_raw(Box::new(made))) }
    })
}

/// Frees a service. Its member goes on: leave or stop it, as nobody receives its deliveries now. NULL is nothing.
#[no_mangle]
pub unsafe extern "C" fn muoswyld_service_free(service: *mut muoswyld_service) {
    // SAFETY: the caller's handle, or NULL
    guard_or((), || unsafe { free(service) });
}

/// Asks for a command of at most 1,048,576 bytes, and doesn't wait: the answer has this token. The command is applied at most once. If the member or the
/// service ends before it is answered, nobody knows whether it is applied.
///
/// MUOSWYLD_STATUS_TOO_LONG, or what muoswyld_service_next answers once the service has ended.
#[no_mangle]
pub unsafe extern "C" fn muoswyld_service_submit(
    service: *const muoswyld_service,
    token: u64,
    command: *const u8,
    length: usize,
) -> muoswyld_status {
    guard(|| {
        // SAFETY: the caller's handle and bytes, or NULL
        let (service, command) = unsafe { (reading(service)?, bytes(command, length)?) };
        service
            .open()?
            .submit(token, Request::Command(command.to_vec()))
    })
}

/// Asks for a barrier, and doesn't wait: once it is answered with this token, the machine has applied all that anybody was answered before. A read of the
/// machine then, before the next call, is ordered among the commands. Any other read may be of an earlier state.
///
/// The errors are those of muoswyld_service_submit.
#[no_mangle]
pub unsafe extern "C" fn muoswyld_service_barrier(
    service: *const muoswyld_service,
    token: u64,
) -> muoswyld_status {
    guard(|| {
        // SAFETY: the caller's handle, or NULL
        unsafe { reading(service) }?
            .open()?
            .submit(token, Request::Barrier)
    })
}

/// Applies what was delivered, and puts the next answer at `answer`, once there is one. What the struct had before is overwritten: clear it first, by
/// muoswyld_answer_clear. A loop of your own waits for muoswyld_group_descriptor, at most 200 ms, and then calls this with a timeout of 0 until it answers
/// MUOSWYLD_STATUS_EMPTY. A service that isn't called holds its whole group back.
///
/// MUOSWYLD_STATUS_EMPTY if the timeout is 0 and nothing is there, _TIMEOUT if nothing came in time, _ENDED if the member has ended, _SERVICE_ENDED if the
/// replica has (muoswyld_service_end_text says why), _MACHINE_FAILED if a call of the machine answered false. After these three nothing is applied any more.
#[no_mangle]
pub unsafe extern "C" fn muoswyld_service_next(
    service: *const muoswyld_service,
    timeout_ms: c_int,
    answer: *mut muoswyld_answer,
) -> muoswyld_status {
    guard(|| {
        // SAFETY: the caller's room for an answer, and its handle, or NULL
        let service = unsafe {
            put(answer, muoswyld_answer::nothing())?;
            reading(service)?
        };
        let next = service.open()?.next(timeout_ms)?;
        // SAFETY: as above
        unsafe { put(answer, next) }
    })
}

/// Frees what an answer has, and makes it MUOSWYLD_ANSWERED_NOTHING. An answer that has nothing, or NULL, is left as it is.
///
/// From any thread, as the caller's own memory.
#[no_mangle]
pub unsafe extern "C" fn muoswyld_answer_clear(answer: *mut muoswyld_answer) {
    guard_or((), || {
        // SAFETY: the caller's answer, or NULL
        if let Ok(answer) = unsafe { changing(answer) } {
            let owner = std::mem::replace(answer, muoswyld_answer::nothing()).owner;
            // SAFETY: the library put it there, and it is there once
            unsafe { free(owner.cast::<Vec<u8>>()) };
        }
    });
}

/// Puts how the service stands at `info`. It answers also once the service has ended.
#[no_mangle]
pub unsafe extern "C" fn muoswyld_service_status(
    service: *const muoswyld_service,
    info: *mut muoswyld_service_info,
) -> muoswyld_status {
    guard(|| {
        // SAFETY: the caller's handle, or NULL
        let inner = unsafe { reading(service) }?.open()?;
        let status = inner.service.status();
        let known = muoswyld_service_info {
            is_ready: status.is_ready,
            applied: status
                .at
                .map_or_else(Default::default, muoswyld_position::from),
            holders: status.holders.into(),
            unsent: u64::try_from(inner.service.unsent()).unwrap_or(u64::MAX),
        };
        // SAFETY: the caller's room, or NULL
        unsafe { put(info, known) }
    })
}

/// A sentence on how the service ended; NULL while it runs, or if `service` is NULL. The text is the service's, and stays until that is freed.
#[no_mangle]
pub unsafe extern "C" fn muoswyld_service_end_text(
    service: *const muoswyld_service,
) -> *const c_char {
    guard_or(std::ptr::null(), || {
        // SAFETY: the caller's handle, or NULL
        let text = unsafe { reading(service) }
            .ok()
            .and_then(|it| it.end_text.get());
        text.map_or(std::ptr::null(), |text| text.as_ptr())
    })
}
