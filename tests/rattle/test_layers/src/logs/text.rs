//! A log of three members and three commands.
use bean_words::{Body, Op};
use object::{Act, Command, Key};
use std::alloc::Global;
use std::test::Fail;

pub(crate) const TEXT: &[u8] =
    b"beanpax-log 2 1 1 1\n0 5 tick 2633a4e6 ee2140b6\n1 1 put 0 0 9 78 ee2140b6 330e09b8\n2 3 close 330e09b8 273c5c52\n";

/// How many bytes its head has, and its beginnings that end with its first, second and third command.
pub(crate) const ENDS: [usize; 4] = [20, 47, 82, 110];

fn command(session: u32, number: u64, act: Act<Op>) -> Result<Command<Op>, Fail> {
    Ok(Command::new(Key { session, number }, act).ok_or("no command")?)
}

/// Its commands.
pub(crate) fn commands(alloc: Global) -> Result<Vec<Command<Op>>, Fail> {
    let put = Op::Put {
        pri: 0,
        delay: 0,
        ttr: 9,
        body: Body::new(alloc, b"x")?,
    };
    let mut commands = Vec::with_capacity(alloc, 3)?;
    commands.push(command(0, 5, Act::Tick)?)?;
    commands.push(command(1, 1, Act::Do(put))?)?;
    commands.push(command(2, 3, Act::Close)?)?;
    Ok(commands)
}

/// How many commands, or lines, stand whole in so many first bytes of it.
pub(crate) fn lines_within(bytes: usize) -> usize {
    ENDS.iter().filter(|end| **end <= bytes).count()
}
