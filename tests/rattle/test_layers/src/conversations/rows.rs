//! What clients are told, and what their tickets have, however their bytes are cut, at a hall that keeps all and at one that
//! forgets.
use crate::conversations::driven::{client_of, go, has_left, is_told};
use crate::conversations::driven_desk::DrivenDesk;
use crate::conversations::one_forgetting_node::OneForgettingNode;
use crate::conversations::one_node::OneNode;
use crate::conversations::pipe::Ending;
use bean_queue::Queue;
use conversation::Stage;
use session::End;
use std::alloc::Global;
use std::test::Fail;

/// What a client sends, how its bytes end, how it leaves and what it is told.
struct Row {
    input: &'static [u8],
    ending: Ending,
    how: Option<End>,
    output: &'static [u8],
}

impl Row {
    // Whether a client whose bytes are cut into such pieces leaves so, and is told this.
    fn is_right<D: DrivenDesk>(
        &self,
        alloc: Global,
        desk: &mut D,
        piece_len: usize,
    ) -> Result<bool, Fail> {
        let mut client = client_of(alloc, desk, self.input, piece_len, self.ending)?;
        go(&mut client, desk, 200)?;
        Ok(has_left(client, desk, self.how, self.output))
    }
}

static ROWS: [Row; 4] = [
    // what follows a quit is nobody's
    Row {
        input: b"put 0 0 9 1\r\nx\r\nreserve\r\nnope\r\ndelete 1\r\nquit\r\ndelete 1\r\n",
        ending: Ending::CarriesOn,
        how: Some(End::Quit),
        output: b"INSERTED 1\r\nRESERVED 1 1\r\nx\r\nUNKNOWN_COMMAND\r\nDELETED\r\n",
    },
    // nor is a request that breaks off
    Row {
        input: b"list-tube-used\r\nput 0 0 9 5\r\nhe",
        ending: Ending::Ends,
        how: Some(End::Eof),
        output: b"USING default\r\n",
    },
    Row {
        input: b"",
        ending: Ending::Ends,
        how: Some(End::Eof),
        output: b"",
    },
    Row {
        input: b"delete 7\r\ndel",
        ending: Ending::Fails,
        how: None,
        output: b"NOT_FOUND\r\n",
    },
];

#[test]
fn clients_are_told_what_the_hall_answers(rt: HostRuntime) -> Result<(), Fail> {
    let alloc = rt.alloc();
    for row in &ROWS {
        for piece_len in [1, 2, 7, 64] {
            let mut keeping = OneNode::<Queue>::new(alloc)?;
            assert!(rt;
                row.is_right(alloc, &mut keeping, piece_len)?,
                "{piece_len}"
            );
            let mut forgetting = OneForgettingNode::<Queue>::new(alloc)?;
            assert!(rt;
                row.is_right(alloc, &mut forgetting, piece_len)?,
                "{piece_len}"
            );
        }
    }
    Ok(())
}

/// Whether a client that goes while it waits leaves, and is told nothing.
fn leaves<D: DrivenDesk>(alloc: Global, desk: &mut D) -> Result<bool, Fail> {
    let mut client = client_of(alloc, desk, b"reserve\r\n", 64, Ending::CarriesOn)?;
    go(&mut client, desk, 5)?;
    let waits = matches!(client.conversation().stage(), Stage::Asked);
    client.leave();
    go(&mut client, desk, 5)?;
    Ok(waits && has_left(client, desk, None, b""))
}

#[test]
fn a_client_that_goes_while_it_waits_leaves(rt: HostRuntime) -> Result<(), Fail> {
    let mut keeping = OneNode::<Queue>::new(rt.alloc())?;
    assert!(rt; leaves(rt.alloc(), &mut keeping)?);
    let mut forgetting = OneForgettingNode::<Queue>::new(rt.alloc())?;
    assert!(rt; leaves(rt.alloc(), &mut forgetting)?);
    // nothing is kept of its session then, and a job goes to who is there
    assert!(rt; forgetting.hall.client(1).is_some());
    forgetting.hall.let_go(1);
    assert!(rt; forgetting.hall.client(1).is_none());
    let input = b"put 0 0 9 1\r\nx\r\nreserve\r\nquit\r\n";
    let output = b"INSERTED 1\r\nRESERVED 1 1\r\nx\r\n";
    assert!(rt; is_told(rt.alloc(), &mut forgetting, input, 9, output)?);
    Ok(())
}

/// Whether a client whose first operation is refused is told so.
fn is_told_of_refusal<D: DrivenDesk>(alloc: Global, desk: &mut D) -> Result<bool, Fail> {
    desk.refuse();
    is_told(alloc, desk, b"peek 1\r\nquit\r\n", 9, b"OUT_OF_MEMORY\r\n")
}

#[test]
fn a_refused_operation_is_told(rt: HostRuntime) -> Result<(), Fail> {
    let mut keeping = OneNode::<Queue>::new(rt.alloc())?;
    assert!(rt; is_told_of_refusal(rt.alloc(), &mut keeping)?);
    let mut forgetting = OneForgettingNode::<Queue>::new(rt.alloc())?;
    assert!(rt; is_told_of_refusal(rt.alloc(), &mut forgetting)?);
    Ok(())
}

/// So many sessions put a job each, and are let go then.
const SESSIONS: u32 = 20;

#[test]
fn jobs_are_there_after_their_slots_are_forgotten(rt: HostRuntime) -> Result<(), Fail> {
    let alloc = rt.alloc();
    let mut node = OneForgettingNode::<Queue>::new(alloc)?;
    for session in 1..=SESSIONS {
        let output = format!(in alloc; "INSERTED {session}\r\n")?;
        let input = b"put 0 0 9 1\r\nx\r\nquit\r\n";
        assert!(rt; is_told(alloc, &mut node, input, 5, output.as_bytes())?);
        node.hall.let_go(session);
        // the slots of its put and of its end were the last, and the first slot is 1
        assert_eq!(rt; node.hall.base(), 2 * u64::from(session) + 1);
    }
    let input = b"reserve\r\ndelete 1\r\npeek 1\r\npeek-ready\r\npeek 20\r\nquit\r\n";
    let output =
        b"RESERVED 1 1\r\nx\r\nDELETED\r\nNOT_FOUND\r\nFOUND 2 1\r\nx\r\nFOUND 20 1\r\nx\r\n";
    assert!(rt; is_told(alloc, &mut node, input, 9, output)?);
    assert_eq!(rt; node.hall.base(), 47);
    Ok(())
}
