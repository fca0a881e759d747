//! A state machine whose calls are the caller's.

use crate::guard::{bytes, changing, guard};
use crate::status::muoswyld_status;
use crate::types::muoswyld_position;
use group::Position;
use muoswyld_replica::{Digest, StateMachine, Unreadable};
use std::cell::Cell;
use std::ffi::c_void;
use std::rc::Rc;

/// How many bytes a record has at most.
const MOST_RECORD: usize = 1 << 20;

/// Where a call of a machine puts bytes.
pub struct muoswyld_records {
    records: Vec<Vec<u8>>,
    is_spoilt: bool,
}

/// A state machine: what its calls do depends on its state and on what they are given alone. They read no clock, draw no random numbers, and make no call
/// on the service or its group. All are made in the thread that calls the service. If one answers false, it can't go on, and the service ends.
#[repr(C)]
#[derive(Clone, Copy)]
pub struct muoswyld_machine {
    /// What each call is given first. It may be NULL.
    pub context: *mut c_void,
    /// Applies the command of so many bytes that stands at this position, and adds its answer, if it has one, by muoswyld_records_add. A command that it
    /// can't read changes nothing, and is no failure. The pointers end with the call.
    pub apply: Option<
        unsafe extern "C" fn(
            context: *mut c_void,
            at: *const muoswyld_position,
            command: *const u8,
            length: usize,
            answer: *mut muoswyld_records,
        ) -> bool,
    >,
    /// Adds the state now as records, each by a muoswyld_records_add, in an order that is the same for equal states. Members compare digests of these.
    pub snapshot:
        Option<unsafe extern "C" fn(context: *mut c_void, records: *mut muoswyld_records) -> bool>,
    /// Takes the next record of a snapshot. The machine is a new one before the first. False if it isn't a record of this machine.
    pub restore: Option<
        unsafe extern "C" fn(context: *mut c_void, record: *const u8, length: usize) -> bool,
    >,
}

/// Adds a record of at most 1,048,576 bytes to a snapshot, or bytes to an answer. It is called within the machine's calls alone. The bytes are copied.
///
/// MUOSWYLD_STATUS_TOO_LONG if it has more; then the machine's call fails, whatever it answers.
#[no_mangle]
pub unsafe extern "C" fn muoswyld_records_add(
    records: *mut muoswyld_records,
    record: *const u8,
    length: usize,
) -> muoswyld_status {
    guard(|| {
        // SAFETY: what the machine's call was given, and the caller's bytes, or NULL
        let (records, record) = unsafe { (changing(records)?, bytes(record, length)?) };
        if record.len() > MOST_RECORD {
            records.is_spoilt = true;
            return Err(muoswyld_status::TooLong);
        }
        records.records.push(record.to_vec());
        Ok(())
    })
}

type Apply = unsafe extern "C" fn(
    *mut c_void,
    *const muoswyld_position,
    *const u8,
    usize,
    *mut muoswyld_records,
) -> bool;
type Snapshot = unsafe extern "C" fn(*mut c_void, *mut muoswyld_records) -> bool;
type Restore = unsafe extern "C" fn(*mut c_void, *const u8, usize) -> bool;

/// A machine whose calls are all there.
pub(crate) struct Machine {
    context: *mut c_void,
    apply: Apply,
    snapshot: Snapshot,
    restore: Restore,
    failed: Rc<Cell<bool>>,
}

impl Machine {
    /// A machine of these calls, which tells there if one fails; an error if a call isn't there.
    pub(crate) fn new(
        calls: muoswyld_machine,
        failed: Rc<Cell<bool>>,
    ) -> Result<Machine, muoswyld_status> {
        let missing = muoswyld_status::NullPointer;
        Ok(Machine {
            context: calls.context,
            apply: calls.apply.ok_or(missing)?,
            snapshot: calls.snapshot.ok_or(missing)?,
            restore: calls.restore.ok_or(missing)?,
            failed,
        })
    }

    /// What a call adds, as long as none has failed.
    fn added(&self, call: impl FnOnce(*mut muoswyld_records) -> bool) -> Vec<Vec<u8>> {
        let mut made = muoswyld_records {
            records: Vec::new(),
            is_spoilt: false,
        };
        if self.failed.get() {
            return Vec::new();
        }
        let is_done = call(&mut made);
        if !is_done || made.is_spoilt {
            self.failed.set(true);
            return Vec::new();
        }
        made.records
    }
}

impl StateMachine for Machine {
    type Snapshot = std::vec::IntoIter<Vec<u8>>;

    fn apply(&mut self, at: Position, command: &[u8]) -> Vec<u8> {
        let at = at.into();
        let (call, context, from, length) =
            (self.apply, self.context, command.as_ptr(), command.len());
        // SAFETY: the caller's call, with its context, and pointers that stay for it
        let answer = self.added(|records| unsafe { call(context, &at, from, length, records) });
        answer.concat()
    }

    fn snapshot(&self) -> Self::Snapshot {
        let (call, context) = (self.snapshot, self.context);
        // SAFETY: the caller's call, with its context, and a pointer that stays for it
        let records = self.added(|records| unsafe { call(context, records) });
        records.into_iter()
    }

    fn restore(&mut self, record: &[u8]) -> Result<(), Unreadable> {
        let (call, context) = (self.restore, self.context);
        // SAFETY: the caller's call, with its context, and bytes that stay for it
        match unsafe { call(context, record.as_ptr(), record.len()) } {
            true => Ok(()),
            false => Err(Unreadable),
        }
    }

    fn digest(&self) -> u64 {
        let records = self.snapshot();
        let sum = records.fold(Digest::new(), |sum, record| sum.bytes(&record));
        sum.end()
    }
}
