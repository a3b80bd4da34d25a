//! Which commands there are.
use object::{Act, Command, Key};

fn is_command(key: Key, act: Act<u8>) -> bool {
    Command::new(key, act).is_some()
}

/// Whether there is a command of this key that does 7, and has both.
fn does_seven(key: Key) -> bool {
    match Command::new(key, Act::Do(7u8)) {
        Some(command) => command.key() == key && *command.act() == Act::Do(7),
        None => false,
    }
}

/// Session and number of a key, whether a client has commands of it, and whether the clock has.
type Row = (u32, u64, bool, bool);

fn is_right(row: Row) -> bool {
    let (session, number, of_a_client, of_the_clock) = row;
    let key = Key { session, number };
    does_seven(key) == of_a_client
        && is_command(key, Act::Close) == of_a_client
        && is_command(key, Act::Tick) == of_the_clock
}

static ROWS: [Row; 8] = [
    (0, 0, false, false),
    (0, 1, false, true),
    (0, 1 << 40, false, true),
    (0, (1 << 40) + 1, false, false),
    (1, 0, false, false),
    (1, 1, true, false),
    (u32::MAX, 1 << 62, true, false),
    (1, (1 << 62) + 1, false, false),
];

#[test]
fn commands_have_their_limits(rt: HostRuntime) {
    for row in ROWS.iter() {
        assert!(rt; is_right(*row), "{} {}", row.0, row.1);
    }
}
