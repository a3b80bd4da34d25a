//! One client's connection, which sends each request after the reply to the one before it.

use crate::fault::Fault;
use crate::job::Job;
use std::io::{ErrorKind, Read, Write};
use std::net::{Ipv4Addr, TcpStream};
use std::os::fd::{AsFd, BorrowedFd};
use std::time::Instant;

/// What was asked last.
#[derive(Clone, Copy)]
enum Step {
    Put,
    Reserve,
    Delete,
}

pub struct Client<'a> {
    stream: TcpStream,
    job: &'a Job,
    step: Step,
    asked: Instant,
    /// What has come of the reply.
    reply: Vec<u8>,
    /// How many jobs are still to be handled.
    left: u32,
}

impl AsFd for Client<'_> {
    fn as_fd(&self) -> BorrowedFd<'_> {
        self.stream.as_fd()
    }
}

impl<'a> Client<'a> {
    /// One that has sent nothing, over a connection that doesn't wait.
    pub fn connect(port: u16, job: &'a Job, jobs: u32) -> Result<Client<'a>, Fault> {
        let stream = TcpStream::connect((Ipv4Addr::LOCALHOST, port)).map_err(Fault::NoServer)?;
        stream.set_nodelay(true)?;
        stream.set_nonblocking(true)?;
        Ok(Client {
            stream,
            job,
            step: Step::Put,
            asked: Instant::now(),
            reply: Vec::new(),
            left: jobs,
        })
    }

    /// How many commands it still sends.
    pub fn commands_left(&self) -> usize {
        3 * self.left as usize
    }

    /// Whether all its jobs are handled.
    pub fn has_ended(&self) -> bool {
        self.left == 0
    }

    /// Puts its first job.
    pub fn begin(&mut self) -> Result<(), Fault> {
        if self.has_ended() {
            return Ok(());
        }
        self.asked = Instant::now();
        self.ask(Step::Put, &self.job.request)
    }

    /// Reads what has come. Where that ends a reply, it notes how long the command took, in nanoseconds, and sends the
    /// next request.
    pub fn go_on(&mut self, piece: &mut [u8], times: &mut Vec<u64>) -> Result<(), Fault> {
        loop {
            let count = match self.stream.read(piece) {
                Ok(0) => return Err(Fault::Closed),
                Ok(count) => count,
                Err(error) if error.kind() == ErrorKind::WouldBlock => return Ok(()),
                Err(error) => return Err(error.into()),
            };
            self.reply.extend_from_slice(&piece[..count]);
            if self.is_answered() {
                times.push(self.time_taken());
                self.ask_next()?;
            }
            if count < piece.len() {
                return Ok(());
            }
        }
    }

    /// Whether the reply is whole.
    fn is_answered(&self) -> bool {
        match self.step {
            Step::Reserve if self.reply.starts_with(b"RESERVED ") => self.job.is_whole(&self.reply),
            _ => self.reply.ends_with(b"\r\n"),
        }
    }

    /// How long the command took that is answered now. What is asked next is asked now, too.
    fn time_taken(&mut self) -> u64 {
        let now = Instant::now();
        let took = now.duration_since(self.asked).as_nanos();
        self.asked = now;
        u64::try_from(took).unwrap_or(u64::MAX)
    }

    /// Checks the reply, and sends what follows it.
    fn ask_next(&mut self) -> Result<(), Fault> {
        match self.step {
            Step::Put if is_inserted(&self.reply) => self.ask(Step::Reserve, b"reserve\r\n"),
            Step::Reserve => match self.job.number_in(&self.reply) {
                Some(number) => self.ask(Step::Delete, format!("delete {number}\r\n").as_bytes()),
                None => Err(self.other_reply()),
            },
            Step::Delete if self.reply == b"DELETED\r\n" => self.end_job(),
            Step::Put | Step::Delete => Err(self.other_reply()),
        }
    }

    fn other_reply(&self) -> Fault {
        Fault::Reply(String::from_utf8_lossy(&self.reply).into_owned())
    }

    fn end_job(&mut self) -> Result<(), Fault> {
        self.left -= 1;
        if self.has_ended() {
            return Ok(());
        }
        self.ask(Step::Put, &self.job.request)
    }

    fn ask(&mut self, step: Step, request: &[u8]) -> Result<(), Fault> {
        self.step = step;
        self.reply.clear();
        self.stream.write_all(request)?;
        Ok(())
    }
}

/// Whether a put is answered so.
fn is_inserted(reply: &[u8]) -> bool {
    let text = std::str::from_utf8(reply).unwrap_or_default();
    let number = text
        .strip_prefix("INSERTED ")
        .and_then(|text| text.strip_suffix("\r\n"));
    number.is_some_and(|number| number.parse::<u64>().is_ok())
}
