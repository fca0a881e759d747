//! What stands between a C caller and the calls: panics end here, and pointers are looked at.

use crate::status::muoswyld_status;
use std::ffi::{c_char, CStr};
use std::panic::{catch_unwind, AssertUnwindSafe};

/// What a call comes to.
pub(crate) type Done = Result<(), muoswyld_status>;

/// Does a call. A panic is answered, and goes no further. What it may leave behind are locks, which are taken again all the same.
pub(crate) fn guard(call: impl FnOnce() -> Done) -> muoswyld_status {
    let done = guard_or(Err(muoswyld_status::Panicked), call);
    done.err().unwrap_or(muoswyld_status::Ok)
}

/// Does a call that answers something else; what it answers if it panics.
pub(crate) fn guard_or<T>(otherwise: T, call: impl FnOnce() -> T) -> T {
    let called = catch_unwind(AssertUnwindSafe(|| {
        #[cfg(test)]
        crate::tests::panic_if_planted();
        call()
    }));
    called.unwrap_or(otherwise)
}

/// A text without letters.
pub(crate) fn nothing() -> *const c_char {
    CStr::from_bytes_with_nul(&[0]).map_or(std::ptr::null(), CStr::as_ptr)
}

/// What a pointer of the caller leads to.
///
/// # Safety
/// It is null, or leads to a value that nobody changes while it is borrowed.
pub(crate) unsafe fn reading<'a, T>(pointer: *const T) -> Result<&'a T, muoswyld_status> {
    // SAFETY: the caller's word
    unsafe { pointer.as_ref() }.ok_or(muoswyld_status::NullPointer)
}

/// As [`reading`], to change it.
///
/// # Safety
/// It is null, or leads to a value that nobody else uses while it is borrowed.
pub(crate) unsafe fn changing<'a, T>(pointer: *mut T) -> Result<&'a mut T, muoswyld_status> {
    // SAFETY: the caller's word
    unsafe { pointer.as_mut() }.ok_or(muoswyld_status::NullPointer)
}

/// Puts a value where the caller wants it. What was there is not looked at, since it may be nothing yet.
///
/// # Safety
/// The pointer is null, or leads to room for the value.
pub(crate) unsafe fn put<T>(pointer: *mut T, value: T) -> Done {
    if pointer.is_null() {
        return Err(muoswyld_status::NullPointer);
    }
    // SAFETY: it isn't null, and by the caller's word there is room
    unsafe { pointer.write(value) };
    Ok(())
}

/// Bytes of the caller; a null pointer has none.
///
/// # Safety
/// The pointer leads to so many bytes that nobody changes while they are borrowed, or is null.
pub(crate) unsafe fn bytes<'a>(
    pointer: *const u8,
    length: usize,
) -> Result<&'a [u8], muoswyld_status> {
    match (pointer.is_null(), length) {
        (_, 0) => Ok(&[]),
        (true, _) => Err(muoswyld_status::NullPointer),
        _ if isize::try_from(length).is_err() => Err(muoswyld_status::TooLong),
        // SAFETY: it isn't null, the length is one of memory, and the rest is the caller's word
        _ => Ok(unsafe { std::slice::from_raw_parts(pointer, length) }),
    }
}

/// A text of the caller, which ends with a zero; None if it isn't UTF-8.
///
/// # Safety
/// The pointer is null, or leads to a text that ends with a zero and that nobody changes while it is borrowed.
pub(crate) unsafe fn text<'a>(pointer: *const c_char) -> Result<Option<&'a str>, muoswyld_status> {
    if pointer.is_null() {
        return Err(muoswyld_status::NullPointer);
    }
    // SAFETY: it isn't null, and the rest is the caller's word
    Ok(unsafe { CStr::from_ptr(pointer) }.to_str().ok())
}

/// Frees a handle that [`Box::into_raw`] gave; null is nothing.
///
/// # Safety
/// It is null, or was given by this library as this type and not freed, and nobody uses it.
pub(crate) unsafe fn free<T>(pointer: *mut T) {
    if !pointer.is_null() {
        // SAFETY: the caller's word
        drop(unsafe { Box::from_raw(pointer) });
    }
}
