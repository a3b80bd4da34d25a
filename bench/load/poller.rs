//! Waits for many connections at once, by Linux's epoll, which the standard library doesn't have.

use std::ffi::c_int;
use std::io::{self, ErrorKind};
use std::os::fd::{AsFd, AsRawFd, FromRawFd, OwnedFd};

/// How many connections are told of after a wait.
const MOST_EVENTS: usize = 256;

const EPOLL_CLOEXEC: c_int = 0x8_0000;
const EPOLL_CTL_ADD: c_int = 1;
const EPOLLIN: u32 = 0x1;
const EPOLLRDHUP: u32 = 0x2000;
const EPOLLET: u32 = 1 << 31;

/// `struct epoll_event` of <sys/epoll.h>.
#[cfg_attr(target_arch = "x86_64", repr(C, packed))]
#[cfg_attr(not(target_arch = "x86_64"), repr(C))]
#[derive(Clone, Copy)]
struct Event {
    events: u32,
    data: u64,
}

extern "C" {
    fn epoll_create1(flags: c_int) -> c_int;
    fn epoll_ctl(epoll: c_int, operation: c_int, file: c_int, event: *mut Event) -> c_int;
    fn epoll_wait(epoll: c_int, events: *mut Event, most: c_int, milliseconds: c_int) -> c_int;
}

pub struct Poller {
    epoll: OwnedFd,
    events: [Event; MOST_EVENTS],
}

impl Poller {
    pub fn new() -> io::Result<Poller> {
        // SAFETY: the call takes no memory, and the file that it returns has no other owner.
        let epoll = unsafe { OwnedFd::from_raw_fd(checked(epoll_create1(EPOLL_CLOEXEC))?) };
        Ok(Poller {
            epoll,
            events: [Event { events: 0, data: 0 }; MOST_EVENTS],
        })
    }

    /// Each time that bytes have come of this connection, a wait tells its place.
    pub fn add(&mut self, connection: &impl AsFd, place: usize) -> io::Result<()> {
        let file = connection.as_fd().as_raw_fd();
        let mut event = Event {
            events: EPOLLIN | EPOLLRDHUP | EPOLLET,
            data: place as u64,
        };
        // SAFETY: both files are open, and the event outlives the call.
        checked(unsafe { epoll_ctl(self.epoll.as_raw_fd(), EPOLL_CTL_ADD, file, &raw mut event) })?;
        Ok(())
    }

    /// Waits until bytes have come, and tells the places of the connections.
    pub fn wait(&mut self) -> io::Result<impl Iterator<Item = usize> + '_> {
        let count = loop {
            match self.wait_once() {
                Err(error) if error.kind() == ErrorKind::Interrupted => {}
                count => break count?,
            }
        };
        Ok(self.events[..count].iter().map(|event| event.data as usize))
    }

    fn wait_once(&mut self) -> io::Result<usize> {
        let (events, most) = (self.events.as_mut_ptr(), MOST_EVENTS as c_int);
        // SAFETY: so many events may be written there, and the call writes no more.
        let count = checked(unsafe { epoll_wait(self.epoll.as_raw_fd(), events, most, -1) })?;
        Ok(count as usize)
    }
}

/// What a call of the system answered, or why it failed.
fn checked(answer: c_int) -> io::Result<c_int> {
    if answer < 0 {
        Err(io::Error::last_os_error())
    } else {
        Ok(answer)
    }
}
