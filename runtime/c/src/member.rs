//! The seven calls.

use crate::arrival::Arrival;
use crate::config::{milliseconds, muoswyld_config, Problem};
use crate::guard::{bytes, changing, free, guard, guard_or, put, reading};
use crate::info::muoswyld_info;
use crate::status::{muoswyld_end, muoswyld_status};
use crate::types::{muoswyld_delivery, muoswyld_name, muoswyld_next, muoswyld_position};
use group::{CreateError, Delivery, End, Group, NextList, Notice, ReceiveError, SendError, Ticket};
use std::collections::VecDeque;
use std::ffi::{c_char, c_int, CString};
use std::sync::{Arc, Mutex, OnceLock, PoisonError};
use std::time::Duration;

/// How many notices are kept that nobody took: the latest ones.
const MOST_NOTICES: usize = 64;

/// A member of a group.
pub struct muoswyld_group {
    group: Arc<Group>,
    arrival: Arc<Arrival>,
    notices: Arc<Mutex<VecDeque<String>>>,
    end_text: OnceLock<CString>,
}

/// A message on its way.
pub struct muoswyld_ticket(Ticket);

impl Drop for muoswyld_group {
    fn drop(&mut self) {
        // a service may still have it; who has freed it may start the place's next life
        self.group.stop();
        self.group.wait();
    }
}

/// A wait of that many milliseconds; without end for a negative number.
fn wait_of(timeout_ms: c_int) -> Duration {
    // more than a century is without end
    milliseconds(timeout_ms).unwrap_or(Duration::from_secs(1 << 32))
}

impl muoswyld_group {
    /// Starts a member by one of the two calls for that.
    fn start(
        settings: &muoswyld_config,
        how: fn(group::Config) -> Result<Group, CreateError>,
    ) -> Result<muoswyld_group, CreateError> {
        let arrival = Arc::new(Arrival::new()?);
        let notices: Arc<Mutex<VecDeque<String>>> = Arc::default();
        let (rung, kept) = (arrival.clone(), notices.clone());
        let config = settings.config.clone();
        let config = config.on_arrival(move || rung.ring());
        let config = config.on_notice(move |notice| keep(&kept, notice));
        Ok(muoswyld_group {
            group: Arc::new(how(config)?),
            arrival,
            notices,
            end_text: OnceLock::new(),
        })
    }

    /// The member, and what tells of its deliveries.
    pub(crate) fn parts(&self) -> (Arc<Group>, Arc<Arrival>) {
        (self.group.clone(), self.arrival.clone())
    }

    /// The next delivery.
    fn receive(&self, timeout_ms: c_int) -> Result<Delivery, ReceiveError> {
        let next = self.group.try_receive();
        if !matches!(next, Err(ReceiveError::Empty)) {
            return next;
        }
        // what comes from here on rings again; what came until here is seen by a second look
        self.arrival.hush();
        let next = self.group.try_receive();
        if !matches!(next, Err(ReceiveError::Empty)) {
            self.arrival.ring();
            return next;
        }
        match timeout_ms {
            0 => next,
            time => self.group.receive_timeout(wait_of(time)),
        }
    }
}

/// Keeps a notice, in place of the oldest one where there are many. The group's id is no news: the member's info has it.
fn keep(notices: &Mutex<VecDeque<String>>, notice: Notice) {
    if matches!(notice, Notice::Group(_)) {
        return;
    }
    let mut kept = notices.lock().unwrap_or_else(PoisonError::into_inner);
    if kept.len() == MOST_NOTICES {
        kept.pop_front();
    }
    kept.push_back(notice.to_string());
}

/// Starts a member and hands it out.
///
/// # Safety
/// The pointers are null, or a config's that nobody else uses now and one to room for a handle.
// SAFETY: whoever calls it keeps to the above
unsafe fn start(
    config: *mut muoswyld_config,
    group: *mut *mut muoswyld_group,
    how: fn(group::Config) -> Result<Group, CreateError>,
) -> muoswyld_status {
    guard(|| {
        // SAFETY: the caller's word
        let settings = unsafe {
            put(group, std::ptr::null_mut())?;
            changing(config)?
        };
        let made = muoswyld_group::start(settings, how)
            .map_err(|error| settings.note(Problem((&error).into(), error.to_string())))?;
        // SAFETY: the caller's word
        unsafe { put(group, Box::into_raw(Box::new(made))) }
    })
}

/// CreateGroup: creates a group, or takes part in creating it; the member's name is one of the founders. It returns once the member is in the group:
/// the other founders ask the lowest one, and wait until it runs. The config stays the caller's, and may be used again.
///
/// It puts the group, which muoswyld_group_free frees, at `group`, or NULL if it fails; then muoswyld_config_error says more.
/// MUOSWYLD_STATUS_NO_FOUNDER if the name is none of the founders, _NO_ADDRESS if a founder's place has none, _NO_KEY without a key,
/// _BAD_VALUE if a number is out of its range, _SYSTEM if the system refused a socket or a thread or the journal's file is there, _TIMEOUT if
/// the time of muoswyld_config_start_within passed, and _ENDED if the member ended before it was in the group.
///
/// From any thread, as long as no other call uses the config.
#[no_mangle]
pub unsafe extern "C" fn muoswyld_group_create(
    config: *mut muoswyld_config,
    group: *mut *mut muoswyld_group,
) -> muoswyld_status {
    // SAFETY: the caller's pointers
    unsafe { start(config, group, Group::create) }
}

/// Creates a group or joins one, as the name says: a founder's first life in its list creates, any other name joins. Beside what both say it answers
/// MUOSWYLD_STATUS_BAD_STATE if the life was begun before, another process of the place runs, or the folder of state isn't the place's.
///
/// From any thread, as long as no other call uses the config.
#[no_mangle]
pub unsafe extern "C" fn muoswyld_group_start(
    config: *mut muoswyld_config,
    group: *mut *mut muoswyld_group,
) -> muoswyld_status {
    // SAFETY: the caller's pointers
    unsafe { start(config, group, Group::start) }
}

/// JoinGroup: joins a group; the member's name is none of the founders, or a later life of a founder's place. It returns once the member is in the
/// group, whose entries it is given from its own join on. A name never runs twice: a place whose process ended comes back as its next life.
///
/// The group and the errors are as those of muoswyld_group_create. MUOSWYLD_STATUS_FOUNDER if the name is one of the founders.
///
/// From any thread, as long as no other call uses the config.
#[no_mangle]
pub unsafe extern "C" fn muoswyld_group_join(
    config: *mut muoswyld_config,
    group: *mut *mut muoswyld_group,
) -> muoswyld_status {
    // SAFETY: the caller's pointers
    unsafe { start(config, group, Group::join) }
}

/// Frees a group. If its member still runs, it is ended without leaving, as by muoswyld_group_stop. Tickets and deliveries of it stay. No other call
/// may be using the group: to end a thread that waits in one, call muoswyld_group_stop first. NULL is nothing.
#[no_mangle]
pub unsafe extern "C" fn muoswyld_group_free(group: *mut muoswyld_group) {
    // SAFETY: the caller's handle, or NULL
    guard_or((), || unsafe { free(group) });
}

/// SendToGroup: sends a message of at most 65,535 bytes, and returns once it is delivered at this member too. From then on it survives as many stops
/// as the resilience says. `message` may be NULL if `length` is 0. It puts where the message stands in the one order at `at`, if that isn't NULL.
///
/// MUOSWYLD_STATUS_FULL if there was no room for it until the time passed, _TIMEOUT if it was taken and isn't delivered in time: it may be
/// later. _TOO_LONG, _LEAVING and _NOT_SENT: nobody is given it. _MAYBE_SENT: the member ended, and the others may be given it or not.
///
/// From any thread. Sends of one thread are delivered in their order.
#[no_mangle]
pub unsafe extern "C" fn muoswyld_group_send(
    group: *const muoswyld_group,
    message: *const u8,
    length: usize,
    timeout_ms: c_int,
    at: *mut muoswyld_position,
) -> muoswyld_status {
    guard(|| {
        // SAFETY: the caller's handle and bytes, or NULL
        let (member, message) = unsafe { (reading(group)?, bytes(message, length)?) };
        let position = member.group.send_timeout(message, wait_of(timeout_ms))?;
        match at.is_null() {
            true => Ok(()),
            // SAFETY: the caller's room for a position
            false => unsafe { put(at, position.into()) },
        }
    })
}

/// Gives a message of at most 65,535 bytes to the group, and doesn't wait for its delivery. It waits at most so long while too many messages wait.
/// `message` may be NULL if `length` is 0. Messages are sent in the order in which they were given.
///
/// It puts a ticket, which muoswyld_ticket_free frees, at `ticket`, or NULL if it fails. `ticket` may be NULL: then nothing tells what became of the
/// message. MUOSWYLD_STATUS_FULL if there was no room in time, and _TOO_LONG, _LEAVING and _NOT_SENT, as those of muoswyld_group_send.
///
/// From any thread.
#[no_mangle]
pub unsafe extern "C" fn muoswyld_group_submit(
    group: *const muoswyld_group,
    message: *const u8,
    length: usize,
    timeout_ms: c_int,
    ticket: *mut *mut muoswyld_ticket,
) -> muoswyld_status {
    guard(|| {
        // SAFETY: the caller's handle and bytes, or NULL
        let (member, message) = unsafe { (reading(group)?, bytes(message, length)?) };
        if !ticket.is_null() {
            // SAFETY: the caller's room for a handle
            unsafe { put(ticket, std::ptr::null_mut()) }?;
        }
        let taken = member.group.submit_timeout(message, wait_of(timeout_ms))?;
        match ticket.is_null() {
            true => Ok(()),
            // SAFETY: the caller's room for a handle
            false => unsafe { put(ticket, Box::into_raw(Box::new(muoswyld_ticket(taken)))) },
        }
    })
}

/// Waits until a ticket's message is delivered at its own member, and puts where it stands at `at`, if that isn't NULL. It may be called again, and
/// answers the same.
///
/// MUOSWYLD_STATUS_TIMEOUT if it isn't known yet what became of the message. _LEAVING, _NOT_SENT and _MAYBE_SENT as those of muoswyld_group_send.
///
/// From any thread, also after the group is freed.
#[no_mangle]
pub unsafe extern "C" fn muoswyld_ticket_wait(
    ticket: *const muoswyld_ticket,
    timeout_ms: c_int,
    at: *mut muoswyld_position,
) -> muoswyld_status {
    guard(|| {
        // SAFETY: the caller's handle, or NULL
        let ticket = unsafe { reading(ticket) }?;
        let known = match timeout_ms {
            0 => ticket.0.look().unwrap_or(Err(SendError::Timeout)),
            time => ticket.0.wait_timeout(wait_of(time)),
        };
        let position = known?;
        match at.is_null() {
            true => Ok(()),
            // SAFETY: the caller's room for a position
            false => unsafe { put(at, position.into()) },
        }
    })
}

/// Frees a ticket. Its message goes on. NULL is nothing.
#[no_mangle]
pub unsafe extern "C" fn muoswyld_ticket_free(ticket: *mut muoswyld_ticket) {
    // SAFETY: the caller's handle, or NULL
    guard_or((), || unsafe { free(ticket) });
}

/// ReceiveFromGroup: puts the next delivery at `delivery`, once there is one. What the struct had before is overwritten: clear it first. Free the
/// message by muoswyld_delivery_clear.
///
/// MUOSWYLD_STATUS_EMPTY if the timeout is 0 and nothing is there, _TIMEOUT if nothing came in time, and _ENDED once the member has ended and all that
/// it delivered was received. Then the delivery is MUOSWYLD_KIND_NOTHING.
///
/// Receive at once what is delivered: a member that doesn't holds the whole group back once its window is full.
///
/// From any thread. If several receive, each delivery goes to one of them.
#[no_mangle]
pub unsafe extern "C" fn muoswyld_group_receive(
    group: *const muoswyld_group,
    timeout_ms: c_int,
    delivery: *mut muoswyld_delivery,
) -> muoswyld_status {
    guard(|| {
        // SAFETY: the caller's room for a delivery, and its handle, or NULL
        let member = unsafe {
            put(delivery, muoswyld_delivery::nothing())?;
            reading(group)?
        };
        let next = member.receive(timeout_ms)?;
        // SAFETY: as above
        unsafe { put(delivery, next.into()) }
    })
}

/// A descriptor for poll, select, epoll and the loops over them. It can be read while there is something to receive, and from the member's end on. Once
/// it can be read, call muoswyld_group_receive with a timeout of 0 until that answers MUOSWYLD_STATUS_EMPTY: only then it becomes quiet again. It may be
/// readable though nothing is there.
///
/// The descriptor is the group's, and ends with it: don't read, write or close it. -1 if `group` is NULL.
///
/// From any thread.
#[no_mangle]
pub unsafe extern "C" fn muoswyld_group_descriptor(group: *const muoswyld_group) -> c_int {
    guard_or(-1, || {
        // SAFETY: the caller's handle, or NULL
        unsafe { reading(group) }.map_or(-1, |it| it.arrival.descriptor())
    })
}

/// ResetGroup: a new view without the names of which this member was told that they have stopped. `least` is the fewest members that it goes on with,
/// 1 to 16, or 0 for that of the config. It puts the number of the new view in the one order at `number`, if that isn't NULL; the view itself is a
/// delivery.
///
/// MUOSWYLD_STATUS_BAD_VALUE if `least` is above 16; _TOO_FEW, _CROWDED, _OVERTAKEN, _NOT_IN and _NOT_MEMBER if it came to no view; _TIMEOUT if it
/// isn't decided in time, and goes on; _ENDED.
///
/// From any thread.
#[no_mangle]
pub unsafe extern "C" fn muoswyld_group_reset(
    group: *const muoswyld_group,
    least: u8,
    timeout_ms: c_int,
    number: *mut u32,
) -> muoswyld_status {
    guard(|| {
        // SAFETY: the caller's handle, or NULL
        let member = unsafe { reading(group) }?;
        let least = (least != 0).then_some(least);
        let decided = member.group.reset(least, wait_of(timeout_ms))?;
        match number.is_null() {
            true => Ok(()),
            // SAFETY: the caller's room for a number
            false => unsafe { put(number, decided) },
        }
    })
}

/// Ends the group's list, and has another one follow it: before a place's lives run out, or to change the window, the resilience or the voters. It
/// returns once the list has ended at this member, which is a delivery, too. All calls go on over it. NULL for `next` if all is to stay as it is; NULL
/// for `at` if the position of the end isn't wanted.
///
/// MUOSWYLD_STATUS_NOT_NOW if a member has stopped, is silent, suspected or refused, leaves or joins, or if another list just ended; _NOT_SUCCEEDED if
/// that happened meanwhile, and the list goes on; _OTHERWISE if another member ended it with other numbers or voters; _BAD_VALUE if no group can have
/// such numbers or voters; _NOT_MEMBER; _TIMEOUT if it hasn't ended in time, and may later; _ENDED.
///
/// From any thread.
#[no_mangle]
pub unsafe extern "C" fn muoswyld_group_succeed(
    group: *const muoswyld_group,
    next: *const muoswyld_next,
    timeout_ms: c_int,
    at: *mut muoswyld_position,
) -> muoswyld_status {
    guard(|| {
        // SAFETY: the caller's handle, or NULL
        let member = unsafe { reading(group) }?;
        let next = match next.is_null() {
            true => NextList::new(),
            // SAFETY: the caller's struct
            false => unsafe { reading(next) }?.list()?,
        };
        let ended = member.group.succeed(next, wait_of(timeout_ms))?;
        match at.is_null() {
            true => Ok(()),
            // SAFETY: the caller's room for a position
            false => unsafe { put(at, ended.into()) },
        }
    })
}

/// Tells that a name has stopped for certain: its process has ended, or can't act any more. Tell each running member. The group is then reset without
/// it. A name that still runs must never be given here: two parts of the group could go on with two lists. Silence is no proof of a stop.
///
/// MUOSWYLD_STATUS_BAD_NAME if it is no name, _ITSELF if it is the member's own, _ENDED.
///
/// From any thread. It waits for the member's thread alone, and not for the reset.
#[no_mangle]
pub unsafe extern "C" fn muoswyld_group_stopped(
    group: *const muoswyld_group,
    name: muoswyld_name,
) -> muoswyld_status {
    guard(|| {
        // SAFETY: the caller's handle, or NULL
        let member = unsafe { reading(group) }?;
        Ok(member.group.stopped(name.name()?)?)
    })
}

/// LeaveGroup: leaves the group once all that was sent before is delivered. After it only what is delivered and not received yet can be received. The
/// group is still to be freed.
///
/// MUOSWYLD_STATUS_TIMEOUT if it hasn't left in time, and goes on leaving; _ENDED if it ended in another way.
///
/// From any thread.
#[no_mangle]
pub unsafe extern "C" fn muoswyld_group_leave(
    group: *const muoswyld_group,
    timeout_ms: c_int,
) -> muoswyld_status {
    guard(|| {
        // SAFETY: the caller's handle, or NULL
        let member = unsafe { reading(group) }?;
        Ok(member.group.leave(wait_of(timeout_ms))?)
    })
}

/// GetInfoGroup: puts what the member knows of itself and of its group at `info`. MUOSWYLD_STATUS_ENDED if it has ended.
///
/// From any thread. It waits for the member's thread alone.
#[no_mangle]
pub unsafe extern "C" fn muoswyld_group_info(
    group: *const muoswyld_group,
    info: *mut muoswyld_info,
) -> muoswyld_status {
    guard(|| {
        // SAFETY: the caller's handle, or NULL
        let member = unsafe { reading(group) }?;
        let known = member.group.info().map_err(|_| muoswyld_status::Ended)?;
        // SAFETY: the caller's room, or NULL
        unsafe { put(info, known.into()) }
    })
}

/// Ends the member without leaving, as if its process had stopped, and doesn't wait for that. Calls that wait on this group return. The others go on
/// without the member once they are told so (muoswyld_group_stopped). MUOSWYLD_STATUS_OK also if it has ended before.
///
/// From any thread.
#[no_mangle]
pub unsafe extern "C" fn muoswyld_group_stop(group: *const muoswyld_group) -> muoswyld_status {
    guard(|| {
        // SAFETY: the caller's handle, or NULL
        unsafe { reading(group) }?.group.stop();
        Ok(())
    })
}

/// Waits until the member ends, at most so long, and answers how; MUOSWYLD_END_RUNNING if it runs, or if `group` is NULL.
///
/// From any thread.
#[no_mangle]
pub unsafe extern "C" fn muoswyld_group_ended(
    group: *const muoswyld_group,
    timeout_ms: c_int,
) -> muoswyld_end {
    guard_or(muoswyld_end::Running, || {
        // SAFETY: the caller's handle, or NULL
        let member = unsafe { reading(group) }.ok();
        let ended = member.and_then(|it| it.group.wait_timeout(wait_of(timeout_ms)));
        ended.map_or(muoswyld_end::Running, |end: End| (&end).into())
    })
}

/// A sentence on how the member ended; NULL while it runs, or if `group` is NULL. The text is the group's, and stays until that is freed.
///
/// From any thread.
#[no_mangle]
pub unsafe extern "C" fn muoswyld_group_end_text(group: *const muoswyld_group) -> *const c_char {
    guard_or(std::ptr::null(), || {
        // SAFETY: the caller's handle, or NULL
        let member = unsafe { reading(group) }.ok();
        let ended = member.and_then(|it| Some((it, it.group.ended()?)));
        ended.map_or(std::ptr::null(), |(member, end)| {
            let text = || CString::new(end.to_string().replace('\0', " ")).unwrap_or_default();
            member.end_text.get_or_init(text).as_ptr()
        })
    })
}

/// The next notice for an operator: who is silent or slow, who was left out and why. It writes a sentence, which ends with a zero, to the `room` bytes at
/// `text`. The latest 64 are kept.
///
/// MUOSWYLD_STATUS_EMPTY if there is none now. _NO_ROOM if it needs more bytes: it is kept, and 512 are enough for every notice.
///
/// From any thread.
#[no_mangle]
pub unsafe extern "C" fn muoswyld_group_notice(
    group: *const muoswyld_group,
    text: *mut c_char,
    room: usize,
) -> muoswyld_status {
    guard(|| {
        // SAFETY: the caller's handle, or NULL
        let member = unsafe { reading(group) }?;
        if text.is_null() {
            return Err(muoswyld_status::NullPointer);
        }
        let mut notices = member
            .notices
            .lock()
            .unwrap_or_else(PoisonError::into_inner);
        let next = notices.pop_front().ok_or(muoswyld_status::Empty)?;
        if room <= next.len() {
            notices.push_front(next);
            return Err(muoswyld_status::NoRoom);
        }
        // SAFETY: the caller has `room` bytes there, more than the sentence has, and the two are apart
        unsafe {
            text.copy_from_nonoverlapping(next.as_ptr().cast(), next.len());
            text.add(next.len()).write(0);
        }
        Ok(())
    })
}
