//! A member's socket: datagrams in batches, and a wait that others can end.

use crate::addresses::Addresses;
use socket2::{Domain, Protocol, SockAddr, Socket, Type};
use std::io;
use std::mem::{size_of, zeroed, MaybeUninit};
use std::net::SocketAddr;
use std::os::fd::{AsRawFd, FromRawFd, OwnedFd, RawFd};
use std::ptr;
use std::time::Duration;

/// How many datagrams are read or written by one call of the system.
const BATCH: usize = 64;
/// How many datagrams are asked for at least.
const LEAST_BATCH: usize = 4;
/// How many bytes the system keeps of what came and isn't read, as far as it allows.
const KEPT: usize = 1 << 22;
/// How many datagrams of one length the system is given as one message at most, and how many bytes: it cuts them (UDP_SEGMENT).
const MOST_SEGMENTS: usize = 64;
const MOST_SEGMENTED: usize = 65_000;

/// A datagram that goes out: where its bytes stand in the batch, and to which place it goes.
#[derive(Clone, Copy)]
struct Outgoing {
    from: usize,
    to: usize,
    place: u8,
}

/// What one turn of reading brought.
#[derive(Clone, Copy, Debug, Default, PartialEq, Eq)]
pub struct Brought {
    /// How many datagrams were read.
    pub read: usize,
    /// How many of them came from no member's address.
    pub strangers: usize,
    /// How many of them were longer than a member's datagram can be.
    pub long: usize,
    /// Whether more may wait: as many were read as were asked for.
    pub has_more: bool,
}

/// A bound UDP socket that doesn't wait, with the buffers for batches.
pub struct Udp {
    socket: Socket,
    addresses: Vec<(u8, SockAddr)>,
    places: Vec<(SocketAddr, u8)>,
    size: usize,
    buffers: Vec<u8>,
    /// How many datagrams the next turn of reading asks for.
    expected: usize,
    bytes: Vec<u8>,
    outgoing: Vec<Outgoing>,
    /// How many datagrams go out as one message at most: 1 if the system cuts none.
    segments: usize,
    /// Datagrams that the system didn't take.
    pub unsent: u64,
}

impl Udp {
    /// Binds an address; `addresses` are those of all places, `size` the most bytes of a datagram. It is an error if the address
    /// can't be bound.
    pub fn bind(own: SocketAddr, addresses: &Addresses, size: usize) -> io::Result<Udp> {
        let socket = Socket::new(Domain::for_address(own), Type::DGRAM, Some(Protocol::UDP))?;
        // a smaller buffer only loses more datagrams
        let _taken = socket.set_recv_buffer_size(KEPT);
        let _taken = socket.set_send_buffer_size(KEPT);
        socket.set_nonblocking(true)?;
        socket.bind(&own.into())?;
        Ok(Udp {
            socket,
            addresses: addresses
                .iter()
                .map(|(place, address)| (place, address.into()))
                .collect(),
            places: addresses
                .iter()
                .map(|(place, address)| (address, place))
                .collect(),
            size: size + 1,
            buffers: vec![0; BATCH * (size + 1)],
            expected: LEAST_BATCH,
            bytes: Vec::new(),
            outgoing: Vec::new(),
            segments: MOST_SEGMENTS,
            unsent: 0,
        })
    }

    /// Its file descriptor, to wait for.
    pub fn descriptor(&self) -> RawFd {
        self.socket.as_raw_fd()
    }

    /// Reads at most one batch: gives each datagram with the place from whose address it came.
    pub fn receive(&mut self, mut take: impl FnMut(u8, &mut [u8])) -> io::Result<Brought> {
        // what isn't asked for isn't touched either: a member that wakes finds little in its caches
        let most = self.expected;
        let mut from: [MaybeUninit<libc::sockaddr_storage>; BATCH] = [MaybeUninit::uninit(); BATCH];
        let mut parts: [MaybeUninit<libc::iovec>; BATCH] = [MaybeUninit::uninit(); BATCH];
        let mut heads: [MaybeUninit<libc::mmsghdr>; BATCH] = [MaybeUninit::uninit(); BATCH];
        let base = self.buffers.as_mut_ptr();
        for k in 0..most {
            let part = parts[k].write(libc::iovec {
                // in range: there are BATCH times `size` bytes
                iov_base: base.wrapping_add(k * self.size).cast(),
                iov_len: self.size,
            });
            // SAFETY: addresses of sockets are plain data, for which zeros are a value.
            let from = from[k].write(unsafe { zeroed() });
            let name = ptr::from_mut(from).cast();
            let length = size_of::<libc::sockaddr_storage>() as libc::socklen_t;
            heads[k].write(head(name, length, part));
        }
        // SAFETY: the first `most` headers are there. Each points to an address, a part and a buffer of its own, which all outlive the call.
        let read = unsafe {
            libc::recvmmsg(
                self.descriptor(),
                heads.as_mut_ptr().cast(),
                most as libc::c_uint,
                libc::MSG_DONTWAIT,
                ptr::null_mut(),
            )
        };
        if read < 0 {
            return nothing_yet(io::Error::last_os_error());
        }
        let mut brought = Brought {
            read: read as usize,
            has_more: read as usize == most,
            ..Brought::default()
        };
        for k in 0..brought.read {
            // SAFETY: as many as were read were written above, and by the system.
            let (head, from) = unsafe { (heads[k].assume_init_ref(), from[k].assume_init_ref()) };
            let length = head.msg_len as usize;
            if length >= self.size {
                brought.long += 1;
                continue;
            }
            match self.place_of(from, head.msg_hdr.msg_namelen) {
                Some(place) => {
                    let start = k * self.size;
                    take(place, &mut self.buffers[start..start + length]);
                }
                None => brought.strangers += 1,
            }
        }
        self.expected = next_batch(most, brought.read);
        Ok(brought)
    }

    /// The place of an address that the system wrote.
    fn place_of(&self, from: &libc::sockaddr_storage, length: libc::socklen_t) -> Option<u8> {
        // SAFETY: the system wrote an address of this length into the storage.
        let address = unsafe { SockAddr::new(*from, length) }.as_socket()?;
        let address = SocketAddr::new(address.ip(), address.port());
        self.places
            .iter()
            .find(|(known, _)| *known == address)
            .map(|(_, place)| *place)
    }

    /// Adds a datagram to the batch that goes out next, for each of these places.
    pub fn push(&mut self, datagram: &[u8], places: impl Iterator<Item = u8>) {
        let from = self.bytes.len();
        self.bytes.extend_from_slice(datagram);
        let to = self.bytes.len();
        let many = places.map(|place| Outgoing { from, to, place });
        self.outgoing.extend(many);
    }

    /// As [`push`](Udp::push), for those of the places that have an address.
    pub fn push_known(&mut self, datagram: &[u8], places: impl Iterator<Item = u8>) {
        let known: Vec<u8> = self.addresses.iter().map(|(place, _)| *place).collect();
        self.push(datagram, places.filter(|place| known.contains(place)));
    }

    /// Sends all that was added. What the system doesn't take is lost, as a network loses it, and counted.
    pub fn flush(&mut self) {
        // those of one place one after the other, in their order: runs of one length go out as one message
        self.outgoing.sort_by_key(|outgoing| outgoing.place);
        let mut at = 0;
        while at < self.outgoing.len() {
            let run = self.run_at(at);
            match self.send_batch(at) {
                Ok(sent) if sent > 0 => at += sent,
                Err(error) if run > 1 && cuts_nothing(&error) => self.segments = 1,
                _ => {
                    self.unsent += run as u64;
                    at += run;
                }
            }
        }
        self.outgoing.clear();
        self.bytes.clear();
    }

    /// How many datagrams from one on go out as one message: those to the same place of the same length, of which the last may be shorter.
    fn run_at(&self, at: usize) -> usize {
        let first = self.outgoing[at];
        let length = first.to - first.from;
        if length == 0 {
            return 1;
        }
        let most = (MOST_SEGMENTED / length).clamp(1, self.segments);
        let mut many = 1;
        for next in self.outgoing[at + 1..].iter().take(most - 1) {
            let own = next.to - next.from;
            if next.place != first.place || own > length || own == 0 {
                break;
            }
            many += 1;
            if own < length {
                break;
            }
        }
        many
    }

    /// Where the runs of a batch end that begins at one of the datagrams, each of which goes to a known place.
    fn runs_from(&self, mut at: usize) -> Vec<(usize, usize)> {
        let mut runs = Vec::with_capacity(BATCH);
        while at < self.outgoing.len() && runs.len() < BATCH {
            if self.address_of(self.outgoing[at].place).is_none() {
                break;
            }
            let end = at + self.run_at(at);
            runs.push((at, end));
            at = end;
        }
        runs
    }

    fn address_of(&self, place: u8) -> Option<&SockAddr> {
        let found = self.addresses.iter().find(|(known, _)| *known == place);
        found.map(|(_, address)| address)
    }

    /// Sends a batch that begins at one of the datagrams; how many datagrams the system took. It is an error if it took none for a cause.
    fn send_batch(&mut self, at: usize) -> io::Result<usize> {
        let runs = self.runs_from(at);
        let Some((_, end)) = runs.last().copied() else {
            return Ok(0);
        };
        let part_of = |outgoing: &Outgoing| {
            let datagram = &self.bytes[outgoing.from..outgoing.to];
            libc::iovec {
                iov_base: datagram.as_ptr().cast_mut().cast(),
                iov_len: datagram.len(),
            }
        };
        let mut parts: Vec<libc::iovec> = self.outgoing[at..end].iter().map(part_of).collect();
        let mut controls = [Control::default(); BATCH];
        let mut heads: [MaybeUninit<libc::mmsghdr>; BATCH] = [MaybeUninit::uninit(); BATCH];
        let mut rest = parts.as_mut_slice();
        for (k, (from, to)) in runs.iter().enumerate() {
            let (own, others) = rest.split_at_mut(to - from);
            rest = others;
            let Some(address) = self.address_of(self.outgoing[*from].place) else {
                break;
            };
            let length = own[0].iov_len as u16;
            let name = address.as_ptr().cast_mut().cast();
            let mut head = head(name, address.len(), &mut own[0]);
            head.msg_hdr.msg_iovlen = own.len() as _;
            if own.len() > 1 {
                controls[k].cut(&mut head.msg_hdr, length);
            }
            heads[k].write(head);
        }
        // SAFETY: as many headers as runs are there. Each points to an address, to parts whose bytes outlive the call, and to a control of its
        // own if it has several parts. The call only reads them.
        let sent = unsafe {
            libc::sendmmsg(
                self.descriptor(),
                heads.as_mut_ptr().cast(),
                runs.len() as libc::c_uint,
                libc::MSG_DONTWAIT,
            )
        };
        let sent = usize::try_from(sent).map_err(|_| io::Error::last_os_error())?;
        Ok(runs[..sent].iter().map(|(from, to)| to - from).sum())
    }
}

/// Whether the system refused a message of several datagrams since it, or the way to the place, cuts none.
fn cuts_nothing(error: &io::Error) -> bool {
    let causes = [libc::EINVAL, libc::EIO, libc::EMSGSIZE, libc::EOPNOTSUPP];
    error.raw_os_error().is_some_and(|it| causes.contains(&it))
}

/// Has the system cut a message: the room of one control message, aligned as the system has it.
#[derive(Clone, Copy, Default)]
#[repr(C, align(8))]
struct Control([u8; 32]);

impl Control {
    /// The message of this header becomes datagrams of this length, of which the last may be shorter.
    fn cut(&mut self, header: &mut libc::msghdr, length: u16) {
        header.msg_control = self.0.as_mut_ptr().cast();
        // SAFETY: the two calls only compute lengths. That of a control message of two bytes is at most the room's 32.
        let (room, own) = unsafe { (libc::CMSG_SPACE(2), libc::CMSG_LEN(2)) };
        header.msg_controllen = room as _;
        // SAFETY: the header has room for one control message, so the first one and its two bytes are in it.
        unsafe {
            let first = libc::CMSG_FIRSTHDR(header);
            (*first).cmsg_level = libc::SOL_UDP;
            (*first).cmsg_type = libc::UDP_SEGMENT;
            (*first).cmsg_len = own as _;
            libc::CMSG_DATA(first).cast::<u16>().write_unaligned(length);
        }
    }
}

/// The header of one datagram.
fn head(name: *mut libc::c_void, length: libc::socklen_t, part: &mut libc::iovec) -> libc::mmsghdr {
    // SAFETY: headers of sockets are plain data, for which zeros are a value.
    let mut head: libc::mmsghdr = unsafe { zeroed() };
    head.msg_hdr.msg_name = name;
    head.msg_hdr.msg_namelen = length;
    head.msg_hdr.msg_iov = part;
    head.msg_hdr.msg_iovlen = 1;
    head
}

/// How many datagrams are asked for after so many were asked for and read: twice as many if there were as many, half if there were few.
fn next_batch(asked: usize, read: usize) -> usize {
    match read {
        _ if read == asked => (asked * 2).min(BATCH),
        _ if read * 4 <= asked => (asked / 2).max(LEAST_BATCH),
        _ => asked,
    }
}

/// Nothing was read, or an earlier datagram found nobody; any other fault is one.
fn nothing_yet(error: io::Error) -> io::Result<Brought> {
    match error.kind() {
        io::ErrorKind::WouldBlock
        | io::ErrorKind::Interrupted
        | io::ErrorKind::ConnectionRefused
        | io::ErrorKind::ConnectionReset => Ok(Brought::default()),
        _ => match error.raw_os_error() {
            Some(libc::EHOSTUNREACH | libc::ENETUNREACH | libc::ENETDOWN) => Ok(Brought::default()),
            _ => Err(error),
        },
    }
}

/// What ends a member's wait from another thread.
pub struct Bell {
    descriptor: OwnedFd,
}

impl Bell {
    /// A new one. It is an error if the system gives none.
    pub fn new() -> io::Result<Bell> {
        // SAFETY: the call takes no pointers.
        let raw = unsafe { libc::eventfd(0, libc::EFD_NONBLOCK | libc::EFD_CLOEXEC) };
        if raw < 0 {
            return Err(io::Error::last_os_error());
        }
        // SAFETY: the descriptor is new, and nothing else has it.
        let descriptor = unsafe { OwnedFd::from_raw_fd(raw) };
        Ok(Bell { descriptor })
    }

    /// Ends the wait that runs, or else the next one.
    pub fn ring(&self) {
        let one = 1u64;
        // SAFETY: the call reads the eight bytes of `one`. It fails only where the bell has been rung more often than it counts.
        unsafe { libc::write(self.raw(), ptr::addr_of!(one).cast(), 8) };
    }

    /// Forgets how often it was rung.
    pub fn hush(&self) {
        let mut count = 0u64;
        // SAFETY: the call writes the eight bytes of `count`.
        unsafe { libc::read(self.raw(), ptr::addr_of_mut!(count).cast(), 8) };
    }

    fn raw(&self) -> RawFd {
        self.descriptor.as_raw_fd()
    }

    /// Waits until it is rung, something can be read from `other`, or the time has passed; whether something can be read there.
    pub fn wait(&self, other: RawFd, most: Duration) -> bool {
        let watched = |fd| libc::pollfd {
            fd,
            events: libc::POLLIN,
            revents: 0,
        };
        let mut both = [watched(other), watched(self.raw())];
        let most = libc::timespec {
            tv_sec: most.as_secs().min(3600) as libc::time_t,
            tv_nsec: libc::c_long::from(most.subsec_nanos() as i32),
        };
        // SAFETY: both descriptors are open, and the call writes to `both` alone.
        let ready = unsafe { libc::ppoll(both.as_mut_ptr(), 2, &most, ptr::null()) };
        ready > 0 && both[0].revents != 0
    }
}

#[cfg(test)]
mod tests {
    use super::*;

    #[test]
    fn a_batch_grows_to_what_comes_and_shrinks_again() {
        let mut asked = LEAST_BATCH;
        for _ in 0..10 {
            asked = next_batch(asked, asked);
        }
        assert_eq!(asked, BATCH);
        assert_eq!(next_batch(BATCH, BATCH - 1), BATCH);
        for _ in 0..10 {
            asked = next_batch(asked, 1);
        }
        assert_eq!(asked, LEAST_BATCH);
    }

    fn bound(place: u8, addresses: &mut Addresses) -> SocketAddr {
        let socket = std::net::UdpSocket::bind("127.0.0.1:0").unwrap();
        let address = socket.local_addr().unwrap();
        drop(socket);
        addresses.add(place, address).unwrap();
        address
    }

    /// All that has come, with its place.
    fn all_of(udp: &mut Udp) -> Vec<(u8, Vec<u8>)> {
        let mut read = Vec::new();
        while udp
            .receive(|place, bytes| read.push((place, bytes.to_vec())))
            .unwrap()
            .has_more
        {}
        read
    }

    /// Lengths of datagrams, in runs of every kind: equal ones, a shorter last one, longer ones after shorter ones, empty ones.
    const LENGTHS: [usize; 12] = [1200, 1200, 1200, 7, 7, 900, 0, 0, 1200, 1, 1, 1];

    #[test]
    fn runs_of_one_length_come_as_they_were() {
        for segments in [MOST_SEGMENTS, 3, 1] {
            let mut addresses = Addresses::new();
            let own = [0, 1, 2].map(|place| bound(place, &mut addresses));
            let [mut from, mut one, mut other] =
                own.map(|own| Udp::bind(own, &addresses, 1232).unwrap());
            from.segments = segments;
            let many = LENGTHS.iter().cycle().take(120).enumerate();
            let all: Vec<Vec<u8>> = many.map(|(k, length)| vec![k as u8; *length]).collect();
            for (k, datagram) in all.iter().enumerate() {
                // one of five goes to one place alone
                let places: &[u8] = if k % 5 == 0 { &[2] } else { &[1, 2] };
                from.push(datagram, places.iter().copied());
            }
            from.flush();
            assert_eq!((from.unsent, from.segments), (0, segments));
            let wanted: Vec<_> = all.iter().map(|bytes| (0, bytes.clone())).collect();
            assert_eq!(all_of(&mut other), wanted);
            let some = wanted.into_iter().enumerate().filter(|(k, _)| k % 5 != 0);
            let some: Vec<_> = some.map(|(_, it)| it).collect();
            assert_eq!(all_of(&mut one), some);
        }
    }

    #[test]
    fn a_system_that_refuses_to_cut_is_given_single_datagrams() {
        let mut addresses = Addresses::new();
        let own = [0, 1].map(|place| bound(place, &mut addresses));
        let [mut from, mut to] = own.map(|own| Udp::bind(own, &addresses, 100).unwrap());
        // more than any system cuts
        from.segments = 10_000;
        for k in 0..400u16 {
            from.push(&k.to_be_bytes(), std::iter::once(1));
        }
        from.push(&[9; 5], [7, 7].into_iter());
        from.flush();
        assert_eq!((from.segments, from.unsent), (1, 2), "7 has no address");
        let wanted: Vec<_> = (0..400u16).map(|k| (0, k.to_be_bytes().to_vec())).collect();
        assert_eq!(all_of(&mut to), wanted);
    }

    #[test]
    fn all_that_was_sent_is_read_in_some_turns() {
        let mut addresses = Addresses::new();
        let first = bound(0, &mut addresses);
        let second = bound(1, &mut addresses);
        let mut from = Udp::bind(first, &addresses, 100).unwrap();
        let mut to = Udp::bind(second, &addresses, 100).unwrap();
        for k in 0..150u8 {
            from.push(&[k; 3], std::iter::once(1));
        }
        // one is too long
        from.push(&[0; 101], std::iter::once(1));
        from.flush();
        let (mut read, mut turns, mut long) = (Vec::new(), 0, 0);
        loop {
            let brought = to.receive(|place, bytes| read.push((place, bytes.to_vec())));
            let brought = brought.unwrap();
            long += brought.long;
            turns += 1;
            if !brought.has_more {
                break;
            }
        }
        let wanted: Vec<(u8, Vec<u8>)> = (0..150).map(|k| (0, vec![k; 3])).collect();
        assert_eq!((read, long), (wanted, 1));
        assert!(turns > 2);
    }
}
