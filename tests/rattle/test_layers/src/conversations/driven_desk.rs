//! A desk whose node is driven by hand.
ghost use Rattle.std.specs.Prelude.{[], IfOk};

use conversation::Desk;
use std::test::Fail;

/// The desk of a hall of one node, which works where it is told to.
pub trait DrivenDesk: Desk {
    /// The ticket of a new session.
    fn open_session(&mut self) -> Result<Self::Ticket, Fail>
        ensures new { IfOk result (λ t. Self.Ticket.keeping.IsOf t []) };

    /// The next act is refused for want of memory.
    fn refuse(&mut self);

    /// The node does what there is to do.
    fn work(&mut self) -> Result<(), Fail>;

    /// Whether the ticket has what the hall has of its session.
    fn agrees(&self, ticket: &Self::Ticket) -> bool;
}
