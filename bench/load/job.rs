//! A job that is put, and given out.

pub struct Job {
    /// How many bytes it has.
    size: usize,
    /// The request that puts it.
    pub request: Vec<u8>,
    /// Its bytes, with a line's end.
    body: Vec<u8>,
}

impl Job {
    pub fn new(size: u32) -> Job {
        let size = size as usize;
        let mut body = vec![b'x'; size];
        body.extend_from_slice(b"\r\n");
        let mut request = format!("put 0 0 60 {size}\r\n").into_bytes();
        request.extend_from_slice(&body);
        Job {
            size,
            request,
            body,
        }
    }

    /// Whether a reply that gives this job has come to its end.
    pub fn is_whole(&self, reply: &[u8]) -> bool {
        let head = reply.iter().position(|byte| *byte == b'\n');
        head.is_some_and(|end| reply.len() - end > self.body.len())
    }

    /// The job's number, in the reply to a reserve that gives this one.
    pub fn number_in(&self, reply: &[u8]) -> Option<u64> {
        let head = reply.strip_suffix(self.body.as_slice())?;
        let text = std::str::from_utf8(head).ok()?;
        let (number, size) = text
            .strip_prefix("RESERVED ")?
            .strip_suffix("\r\n")?
            .split_once(' ')?;
        if size.parse() == Ok(self.size) {
            number.parse().ok()
        } else {
            None
        }
    }
}
