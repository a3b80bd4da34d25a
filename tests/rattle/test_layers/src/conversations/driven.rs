//! Clients of a hall of one node, which go on by hand.
use crate::conversations::driven_desk::DrivenDesk;
use crate::conversations::pipe::{Ending, Pipe};
use conversation::{Client, Conversation, SessionTicket, Stage};
use session::End;
use std::alloc::Global;
use std::test::Fail;

/// A client whose session is new.
pub fn client_of<D: DrivenDesk>(
    alloc: Global,
    desk: &mut D,
    input: &'static [u8],
    piece_len: usize,
    ending: Ending,
) -> Result<Client<Pipe, D::Ticket>, Fail> {
    let ticket = desk.open_session()?;
    let conversation = Conversation::new(alloc, ticket);
    Ok(Client::new(Pipe::new(alloc, input, piece_len, ending), conversation))
}

/// The client goes so many rounds, in each of which the node works.
pub fn go<D: DrivenDesk>(
    client: &mut Client<Pipe, D::Ticket>,
    desk: &mut D,
    rounds: usize,
) -> Result<(), Fail> {
    let mut piece = [0; 64];
    for _ in 0..rounds {
        client.look()?;
        client.hand_in(desk)?;
        desk.work()?;
        client.note(desk)?;
        let _ = client.write();
        let _ = client.read(&mut piece);
    }
    Ok(())
}

/// How the client has left, if it has.
fn left<T: SessionTicket>(client: &Client<Pipe, T>) -> Option<Option<End>> {
    match client.conversation().stage() {
        Stage::Left(how) => Some(*how),
        _ => None,
    }
}

/// Whether the client has left so, was told this, and has a ticket that agrees with the hall.
pub fn has_left<D: DrivenDesk>(
    client: Client<Pipe, D::Ticket>,
    desk: &D,
    how: Option<End>,
    output: &[u8],
) -> bool {
    let has_left = left(&client) == Some(how);
    let (pipe, conversation) = client.into_parts();
    let ticket = conversation.into_ticket();
    has_left && pipe.given() == output && desk.agrees(&ticket)
}

/// Whether a client that sends this, whose session is new, has left by its quit after so many rounds, and was told this.
pub fn is_told<D: DrivenDesk>(
    alloc: Global,
    desk: &mut D,
    input: &'static [u8],
    rounds: usize,
    output: &[u8],
) -> Result<bool, Fail> {
    let mut client = client_of(alloc, desk, input, 64, Ending::CarriesOn)?;
    go(&mut client, desk, rounds)?;
    Ok(has_left(client, desk, Some(End::Quit), output))
}
