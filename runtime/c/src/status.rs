//! What a call answers, and how a member ends.

use crate::guard::{guard_or, nothing};
use group::{
    CreateError, End, LeaveError, NotReset, ReceiveError, ResetError, SendError, SucceedError,
    ToldError,
};
use std::ffi::{c_char, c_int};

/// What a call answers. Numbers keep their meaning; later versions may add others.
#[repr(C)]
#[derive(Clone, Copy, Debug, PartialEq, Eq)]
pub enum muoswyld_status {
    /// It is done.
    Ok = 0,
    /// A pointer is NULL that may not be. Nothing was done.
    NullPointer = 1,
    /// A text is no name, or no set of names: a name is PLACE, 0 to 15, or PLACE/LIFE with a life of 2 to 16.
    BadName = 2,
    /// A text is no address, or the address can't be that of the place.
    BadAddress = 3,
    /// A value is out of its range.
    BadValue = 4,
    /// A place of the group has no address.
    NoAddress = 5,
    /// There is no key, and the config isn't insecure.
    NoKey = 6,
    /// A founder's first life creates the group; it can't join.
    Founder = 7,
    /// The name is none of the founders: it joins, and doesn't create.
    NoFounder = 8,
    /// The system refused a socket, a thread, memory, a file or random bytes.
    System = 9,
    /// The time passed.
    Timeout = 10,
    /// Nothing is there now.
    Empty = 11,
    /// Too many messages wait to be sent. This one wasn't sent.
    Full = 12,
    /// A message has at most 65,535 bytes. It wasn't sent.
    TooLong = 13,
    /// The member ended before the message went out whole: nobody is given it.
    NotSent = 14,
    /// The member ended while the message was under way: the others may be given it, or not.
    MaybeSent = 15,
    /// The member leaves, and sends no more. The message wasn't sent.
    Leaving = 16,
    /// The member has ended: muoswyld_group_ended says how.
    Ended = 17,
    /// A reset came to no view: fewer members are left than the least size.
    TooFew = 18,
    /// A reset came to no view: the window has no room for it.
    Crowded = 19,
    /// A reset came to no view: another one overtook it.
    Overtaken = 20,
    /// A reset came to no view: the group goes on without this member.
    NotIn = 21,
    /// The member is none of its group's members, or not yet, or leaves, and can't reset it.
    NotMember = 22,
    /// The name is the member's own: it hasn't stopped.
    Itself = 23,
    /// The text doesn't fit into its room.
    NoRoom = 24,
    /// The library panicked, by a mistake of its own.
    Panicked = 25,
    /// Another cause, which this version has no number for.
    Other = 26,
    /// The replica of a service has ended: muoswyld_service_end_text says why.
    ServiceEnded = 27,
    /// A call of a service's machine answered false.
    MachineFailed = 28,
    /// Another call uses the service, or its machine calls it. Nothing was done.
    Busy = 29,
    /// A list can't end now: a member has stopped, is silent, suspected or refused, leaves or joins, or another list just ended.
    NotNow = 30,
    /// A list was to end, and goes on: somebody joined, left or stopped meanwhile, or a view began.
    NotSucceeded = 31,
    /// Another member ended the list, and the next one has other numbers or voters than were asked for.
    Otherwise = 32,
    /// The place's folder of state isn't made, isn't the place's, is used by another process, or says that the life was begun before.
    BadState = 33,
}

/// Each status, in the order of their numbers, with a sentence that ends with a zero.
const TEXTS: [(muoswyld_status, &str); 34] = {
    use muoswyld_status::*;
    [
        (Ok, "it is done\0"),
        (NullPointer, "a pointer is NULL that may not be\0"),
        (
            BadName,
            "a name is PLACE, 0 to 15, or PLACE/LIFE with a life of 2 to 16\0",
        ),
        (BadAddress, "this can't be the address of the place\0"),
        (BadValue, "a value is out of its range\0"),
        (NoAddress, "a place of the group has no address\0"),
        (NoKey, "there is no key, and the config isn't insecure\0"),
        (
            Founder,
            "a founder creates the group; if it ran before, its next life joins\0",
        ),
        (NoFounder, "the name is none of the founders: it joins\0"),
        (
            System,
            "the system refused a socket, a thread, memory, a file or random bytes\0",
        ),
        (Timeout, "the time passed\0"),
        (Empty, "nothing is there now\0"),
        (Full, "too many messages wait to be sent\0"),
        (TooLong, "a message has at most 65,535 bytes\0"),
        (NotSent, "the message wasn't sent, since the member ended\0"),
        (
            MaybeSent,
            "the member ended before the message was delivered, and others may be given it\0",
        ),
        (Leaving, "the member leaves the group\0"),
        (Ended, "the member has ended\0"),
        (TooFew, "fewer members are left than the least size\0"),
        (Crowded, "the window has no room for a view\0"),
        (Overtaken, "another reset overtook this one\0"),
        (NotIn, "the group goes on without this member\0"),
        (
            NotMember,
            "the member is none of its group's members, or leaves\0",
        ),
        (Itself, "the member itself hasn't stopped\0"),
        (NoRoom, "the text doesn't fit into its room\0"),
        (Panicked, "the library panicked\0"),
        (Other, "another cause\0"),
        (ServiceEnded, "the service has ended\0"),
        (MachineFailed, "a call of the machine failed\0"),
        (
            Busy,
            "another call uses the service, or its machine calls it\0",
        ),
        (
            NotNow,
            "the group has members that have stopped, are silent, refused, leave or join, or another list just ended\0",
        ),
        (
            NotSucceeded,
            "somebody joined, left or stopped meanwhile, or a view began: the list goes on\0",
        ),
        (
            Otherwise,
            "another member ended the list, with other numbers or voters\0",
        ),
        (
            BadState,
            "the folder of state isn't made or isn't the place's, or the life was begun before\0",
        ),
    ]
};

/// How a member has ended. It does nothing any more.
#[repr(C)]
#[derive(Clone, Copy, Debug, PartialEq, Eq)]
pub enum muoswyld_end {
    /// It hasn't ended.
    Running = 0,
    /// It left.
    Left = 1,
    /// It was the last member, and left: the group is over.
    Closed = 2,
    /// The group goes on without it. Its place comes back as its next life.
    LeftOut = 3,
    /// It asked to join, and nobody welcomed it. Its place comes back as its next life.
    Unwelcomed = 4,
    /// Its caller stopped it, and it hasn't left.
    Stopped = 5,
    /// Its numbers are used up.
    NoNumbersLeft = 6,
    /// It could not go on: muoswyld_group_end_text says why.
    Failed = 7,
    /// It joined after the end of its list, which another one follows. Its place can come back in that one.
    Superseded = 8,
    /// The list has something that only a later version of this library understands.
    OtherVersion = 9,
    /// Its list ended, and the next one couldn't be begun here. Its place comes back in that as its next life.
    NotBegun = 10,
}

/// A sentence for a status, in English, without a newline and without a full stop. "no such status" for a number that is none.
///
/// From any thread. The text is the library's for as long as it is loaded.
#[no_mangle]
pub extern "C" fn muoswyld_status_text(status: c_int) -> *const c_char {
    guard_or(nothing(), || {
        let found = usize::try_from(status).ok().and_then(|k| TEXTS.get(k));
        found
            .map_or("no such status\0", |(_, text)| text)
            .as_ptr()
            .cast()
    })
}

impl From<&End> for muoswyld_end {
    fn from(end: &End) -> muoswyld_end {
        match end {
            End::Left => muoswyld_end::Left,
            End::Closed => muoswyld_end::Closed,
            End::LeftOut => muoswyld_end::LeftOut,
            End::Unwelcomed => muoswyld_end::Unwelcomed,
            End::Stopped => muoswyld_end::Stopped,
            End::NoNumbersLeft => muoswyld_end::NoNumbersLeft,
            End::Superseded => muoswyld_end::Superseded,
            End::OtherVersion => muoswyld_end::OtherVersion,
            End::NotBegun => muoswyld_end::NotBegun,
            _ => muoswyld_end::Failed,
        }
    }
}

impl From<&CreateError> for muoswyld_status {
    fn from(error: &CreateError) -> muoswyld_status {
        match error {
            CreateError::Address(_) => muoswyld_status::BadAddress,
            CreateError::NoAddress(_) => muoswyld_status::NoAddress,
            CreateError::NoFounder(_) => muoswyld_status::NoFounder,
            CreateError::Founder(_) => muoswyld_status::Founder,
            CreateError::Member(_)
            | CreateError::Voter(_)
            | CreateError::NoState
            | CreateError::Failures(_) => muoswyld_status::BadValue,
            CreateError::State(_) | CreateError::NoLife | CreateError::OtherList => {
                muoswyld_status::BadState
            }
            CreateError::NoKey => muoswyld_status::NoKey,
            CreateError::System(_) => muoswyld_status::System,
            CreateError::Timeout => muoswyld_status::Timeout,
            CreateError::Ended(_) => muoswyld_status::Ended,
            _ => muoswyld_status::Other,
        }
    }
}

impl From<SendError> for muoswyld_status {
    fn from(error: SendError) -> muoswyld_status {
        match error {
            SendError::TooLong => muoswyld_status::TooLong,
            SendError::Full => muoswyld_status::Full,
            SendError::Timeout => muoswyld_status::Timeout,
            SendError::NotSent(_) => muoswyld_status::NotSent,
            SendError::Ended(_) => muoswyld_status::MaybeSent,
            SendError::Leaving => muoswyld_status::Leaving,
            _ => muoswyld_status::Other,
        }
    }
}

impl From<ReceiveError> for muoswyld_status {
    fn from(error: ReceiveError) -> muoswyld_status {
        match error {
            ReceiveError::Empty => muoswyld_status::Empty,
            ReceiveError::Timeout => muoswyld_status::Timeout,
            ReceiveError::Ended(_) => muoswyld_status::Ended,
            _ => muoswyld_status::Other,
        }
    }
}

impl From<LeaveError> for muoswyld_status {
    fn from(error: LeaveError) -> muoswyld_status {
        match error {
            LeaveError::Timeout => muoswyld_status::Timeout,
            LeaveError::Ended(_) => muoswyld_status::Ended,
            _ => muoswyld_status::Other,
        }
    }
}

impl From<ResetError> for muoswyld_status {
    fn from(error: ResetError) -> muoswyld_status {
        match error {
            ResetError::OutOfRange => muoswyld_status::BadValue,
            ResetError::NotReset(NotReset::TooFew { .. }) => muoswyld_status::TooFew,
            ResetError::NotReset(NotReset::Crowded) => muoswyld_status::Crowded,
            ResetError::NotReset(NotReset::Overtaken) => muoswyld_status::Overtaken,
            ResetError::NotReset(NotReset::NotIn) => muoswyld_status::NotIn,
            ResetError::NotReset(NotReset::NotMember) => muoswyld_status::NotMember,
            ResetError::Timeout => muoswyld_status::Timeout,
            ResetError::Ended(_) => muoswyld_status::Ended,
            _ => muoswyld_status::Other,
        }
    }
}

impl From<SucceedError> for muoswyld_status {
    fn from(error: SucceedError) -> muoswyld_status {
        match error {
            SucceedError::NotNow => muoswyld_status::NotNow,
            SucceedError::Founding(_)
            | SucceedError::Voter(_)
            | SucceedError::EvenVoters(_)
            | SucceedError::NoVoters
            | SucceedError::Unvoted => muoswyld_status::BadValue,
            SucceedError::NotSucceeded => muoswyld_status::NotSucceeded,
            SucceedError::Otherwise(_) => muoswyld_status::Otherwise,
            SucceedError::Timeout => muoswyld_status::Timeout,
            SucceedError::NotMember => muoswyld_status::NotMember,
            SucceedError::Ended(_) => muoswyld_status::Ended,
            _ => muoswyld_status::Other,
        }
    }
}

impl From<ToldError> for muoswyld_status {
    fn from(error: ToldError) -> muoswyld_status {
        match error {
            ToldError::Itself => muoswyld_status::Itself,
            ToldError::Ended(_) => muoswyld_status::Ended,
            _ => muoswyld_status::Other,
        }
    }
}

#[cfg(test)]
mod tests {
    use super::*;
    use std::ffi::CStr;

    #[test]
    fn each_status_has_its_sentence() {
        for (number, (status, text)) in TEXTS.iter().enumerate() {
            assert_eq!(*status as usize, number);
            assert_eq!(text.matches('\0').count(), 1);
            assert!(text.ends_with('\0') && text.len() > 5);
        }
        for (number, wanted) in [
            (10, "the time passed"),
            (34, "no such status"),
            (-1, "no such status"),
        ] {
            // SAFETY: the function answers a text that ends with a zero and stays
            let text = unsafe { CStr::from_ptr(muoswyld_status_text(number)) };
            assert_eq!(text.to_str(), Ok(wanted));
        }
    }
}
