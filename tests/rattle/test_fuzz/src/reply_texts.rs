//! Texts that are replies, and texts that aren't, on which the reader of replies is tried.
use crate::head::Head;
use crate::reply_reader::heads_of;
use std::alloc::{AllocError, Global};

// A text, and the heads of the replies that it is made of.
type Row = (&'static [u8], Option<&'static [Head]>);

static ROWS: [Row; 41] = [
    (b"", Some(&[])),
    (b"INSERTED 1\r\n", Some(&[Head::Inserted])),
    (
        b"INSERTED 18446744073709551615\r\n",
        Some(&[Head::Inserted]),
    ),
    (b"USING a-+/;.$_()Z9\r\n", Some(&[Head::Using])),
    (
        b"WATCHING 10\r\nNOT_IGNORED\r\n",
        Some(&[Head::Watching, Head::NotIgnored]),
    ),
    (b"RESERVED 1 5\r\nhello\r\n", Some(&[Head::Reserved])),
    (
        b"RESERVED 1 0\r\n\r\nDELETED\r\n",
        Some(&[Head::Reserved, Head::Deleted]),
    ),
    (b"FOUND 7 4\r\n\r\n\r\n\r\n", Some(&[Head::Found])),
    (
        b"FOUND 7 2\r\n\xff\x00\r\nNOT_FOUND\r\n",
        Some(&[Head::Found, Head::NotFound]),
    ),
    (
        b"DEADLINE_SOON\r\nTIMED_OUT\r\n",
        Some(&[Head::DeadlineSoon, Head::TimedOut]),
    ),
    (
        b"RELEASED\r\nBURIED\r\nTOUCHED\r\n",
        Some(&[Head::Released, Head::Buried, Head::Touched]),
    ),
    (
        b"KICKED\r\nKICKED 0\r\n",
        Some(&[Head::Kicked, Head::KickedCount]),
    ),
    (b"PAUSED\r\n", Some(&[Head::Paused])),
    (b"OK 8\r\n---\n- a\n\r\n", Some(&[Head::Tubes])),
    (b"OK 18\r\n---\n- default\n- a\n\r\n", Some(&[Head::Tubes])),
    (
        b"BAD_FORMAT\r\nUNKNOWN_COMMAND\r\n",
        Some(&[Head::BadFormat, Head::UnknownCommand]),
    ),
    (
        b"EXPECTED_CRLF\r\nJOB_TOO_BIG\r\n",
        Some(&[Head::ExpectedCrlf, Head::JobTooBig]),
    ),
    // ends that aren't there, or others
    (b"DELETED", None),
    (b"DELETED\r", None),
    (b"DELETED\n", None),
    (b"DELETED\r\r\n", None),
    (b"DELETED\r\nDEL", None),
    (b"\r\n", None),
    // other words, or words too many
    (b"deleted\r\n", None),
    (b"DELETED 1\r\n", None),
    (b" DELETED\r\n", None),
    (b"DELETED \r\n", None),
    (b"OUT_OF_MEMORY\r\n", None),
    // no numbers
    (b"INSERTED\r\n", None),
    (b"INSERTED 01\r\n", None),
    (b"INSERTED +1\r\n", None),
    (b"INSERTED 18446744073709551616\r\n", None),
    (b"INSERTED \r\n", None),
    // no names
    (b"USING -a\r\n", None),
    (b"USING a b\r\n", None),
    // bodies of another size
    (b"RESERVED 1 4\r\nhello\r\n", None),
    (b"RESERVED 1 6\r\nhello\r\n", None),
    (b"RESERVED 5\r\nhello\r\n", None),
    // lists of tubes that are none
    (b"OK 4\r\n---\n\r\n", None),
    (b"OK 7\r\n---\n- a\r\n", None),
    (b"OK 8\r\n---\n- a\r\r\n", None),
];

/// The place of a text that is read otherwise than it should, if there is one.
pub fn wrong_text(alloc: Global) -> Result<Option<usize>, AllocError> {
    for (place, (text, heads)) in ROWS.iter().enumerate() {
        if !is_read_so(alloc, *text, *heads)? {
            return Ok(Some(place));
        }
    }
    Ok(None)
}

fn is_read_so(alloc: Global, text: &[u8], heads: Option<&[Head]>) -> Result<bool, AllocError> {
    let read = heads_of(alloc, text)?;
    Ok(read.as_ref().map(|read| read.as_slice()) == heads)
}
