//! The descriptor by which a caller waits for deliveries beside other things.

use std::ffi::c_int;
use std::fs::File;
use std::io::{self, Read, Write};
use std::os::fd::{AsRawFd, FromRawFd, OwnedFd, RawFd};
use std::time::Duration;

/// An event descriptor, which can be read while there is something to receive. Sometimes it can be read though there is nothing.
pub(crate) struct Arrival(File);

impl Arrival {
    pub(crate) fn new() -> io::Result<Arrival> {
        // SAFETY: the call takes no memory
        let descriptor = unsafe { libc::eventfd(0, libc::EFD_CLOEXEC | libc::EFD_NONBLOCK) };
        if descriptor < 0 {
            return Err(io::Error::last_os_error());
        }
        // SAFETY: it is open, and nobody else's
        let owned = unsafe { OwnedFd::from_raw_fd(descriptor) };
        Ok(Arrival(File::from(owned)))
    }

    /// Lets it be read.
    pub(crate) fn ring(&self) {
        // it takes no more only while its count is full, and then it can be read
        let _written = (&self.0).write(&1u64.to_ne_bytes());
    }

    /// Lets it not be read until the next ring.
    pub(crate) fn hush(&self) {
        // it gives nothing only if nobody rang
        let _read = (&self.0).read(&mut [0; 8]);
    }

    /// Waits until it can be read, at most so long.
    pub(crate) fn wait(&self, most: Duration) {
        let mut one = libc::pollfd {
            fd: self.descriptor(),
            events: libc::POLLIN,
            revents: 0,
        };
        let most = c_int::try_from(most.as_millis()).unwrap_or(c_int::MAX);
        // SAFETY: one descriptor, which stays for the call; a wait that is interrupted is over
        unsafe { libc::poll(&mut one, 1, most.max(1)) };
    }

    pub(crate) fn descriptor(&self) -> RawFd {
        self.0.as_raw_fd()
    }
}
