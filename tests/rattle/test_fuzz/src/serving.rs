//! Serving an input, whole and in pieces.
use crate::draws::Draws;
use crate::one_client::OneClient;
use crate::pieces::DrawnPieces;
use bean_codec::Profile;
use session::memory::{Ending, PieceReader, PieceWriter};
use session::{ByteIn, End, Reading, SessionFault, serve_in};
use std::alloc::{AllocError, Global};

/// How a session ended, and what its client was told.
#[derive(Drop, PartialEq)]
pub struct Served {
    pub end: Result<End, SessionFault>,
    pub output: Vec<u8>,
    /// How many commands the queue was given.
    given: u64,
    pub times_closed: u64,
}

/// Serves bytes that come as many at a time as there is room for.
pub fn serve_whole(alloc: Global, profile: Profile, bytes: &[u8]) -> Result<Served, AllocError> {
    let mut reader = PieceReader::new(bytes, usize::MAX, Ending::End);
    serve_from(alloc, profile, &mut reader, usize::MAX)
}

/// Serves bytes that come and go in drawn pieces.
pub fn serve_in_pieces(
    alloc: Global,
    profile: Profile,
    bytes: &[u8],
    mut draws: Draws,
) -> Result<Served, AllocError> {
    let written_len = draws.up_to(20);
    let mut reader = Reading::new(DrawnPieces::new(bytes, draws));
    serve_from(alloc, profile, &mut reader, written_len)
}

// Writes so many bytes at a time.
fn serve_from<R: ByteIn>(
    alloc: Global,
    profile: Profile,
    reader: &mut R,
    written_len: usize,
) -> Result<Served, AllocError> {
    let mut client = OneClient::new(alloc)?;
    let mut writer = PieceWriter::new(alloc, written_len, usize::MAX);
    let end = serve_in(profile, alloc, reader, &mut writer, &mut client);
    Ok(Served {
        end,
        output: Vec::from_slice(alloc, writer.bytes())?,
        given: client.given,
        times_closed: client.times_closed,
    })
}
