//! Commands as their lines are written.
use crate::draws::Draws;
use crate::head::Head;
use anyhow::Result;
use bean_codec::Profile;
use std::io::Write;

/// What a line asks for, but for `quit`, and for `reserve`, which may wait for ever.
#[derive(Clone, Copy)]
pub enum CommandKind {
    Put,
    Use,
    Watch,
    Ignore,
    ReserveWithTimeout,
    Delete,
    Touch,
    Release,
    Bury,
    Kick,
    KickJob,
    Peek,
    PeekReady,
    PeekDelayed,
    PeekBuried,
    ListTubes,
    ListTubeUsed,
    ListTubesWatched,
    PauseTube,
    ReserveJob,
    StatsJob,
    StatsTube,
    Stats,
}

// What stands behind a command's word.
#[derive(Clone, Copy)]
enum Argument {
    Id,
    Priority,
    Delay,
    TimeToRun,
    Timeout,
    Bound,
    Name,
    Pause,
}

// From these one is drawn.
static DRAWN: [CommandKind; 25] = [
    CommandKind::Put,
    CommandKind::Put,
    CommandKind::Put,
    CommandKind::Put,
    CommandKind::ReserveWithTimeout,
    CommandKind::ReserveWithTimeout,
    CommandKind::ReserveWithTimeout,
    CommandKind::ReserveWithTimeout,
    CommandKind::Use,
    CommandKind::Watch,
    CommandKind::Ignore,
    CommandKind::Delete,
    CommandKind::Touch,
    CommandKind::Release,
    CommandKind::Bury,
    CommandKind::Kick,
    CommandKind::KickJob,
    CommandKind::Peek,
    CommandKind::PeekReady,
    CommandKind::PeekDelayed,
    CommandKind::PeekBuried,
    CommandKind::ListTubes,
    CommandKind::ListTubeUsed,
    CommandKind::ListTubesWatched,
    CommandKind::PauseTube,
];

// These the extended profile alone knows.
static EXTENDED: [CommandKind; 4] = [
    CommandKind::ReserveJob,
    CommandKind::StatsJob,
    CommandKind::StatsTube,
    CommandKind::Stats,
];

impl CommandKind {
    /// A command of this profile. In the extended one it is with a chance of one in four one that the plain one doesn't
    /// know.
    pub fn draw(profile: Profile, draws: &mut Draws) -> CommandKind {
        match profile {
            Profile::Extended if draws.one_in(4) => draws.pick(&EXTENDED),
            _ => draws.pick(&DRAWN),
        }
    }

    /// A command whose line may be long: in the extended profile one that the plain one doesn't know.
    pub fn draw_long(profile: Profile, draws: &mut Draws) -> CommandKind {
        match profile {
            Profile::Plain => {
                draws.pick(&[CommandKind::ListTubes, CommandKind::Peek, CommandKind::Use])
            }
            Profile::Extended => draws.pick(&EXTENDED),
        }
    }

    fn word(self) -> &'static str {
        match self {
            CommandKind::Put => "put",
            CommandKind::Use => "use",
            CommandKind::Watch => "watch",
            CommandKind::Ignore => "ignore",
            CommandKind::ReserveWithTimeout => "reserve-with-timeout",
            CommandKind::Delete => "delete",
            CommandKind::Touch => "touch",
            CommandKind::Release => "release",
            CommandKind::Bury => "bury",
            CommandKind::Kick => "kick",
            CommandKind::KickJob => "kick-job",
            CommandKind::Peek => "peek",
            CommandKind::PeekReady => "peek-ready",
            CommandKind::PeekDelayed => "peek-delayed",
            CommandKind::PeekBuried => "peek-buried",
            CommandKind::ListTubes => "list-tubes",
            CommandKind::ListTubeUsed => "list-tube-used",
            CommandKind::ListTubesWatched => "list-tubes-watched",
            CommandKind::PauseTube => "pause-tube",
            CommandKind::ReserveJob => "reserve-job",
            CommandKind::StatsJob => "stats-job",
            CommandKind::StatsTube => "stats-tube",
            CommandKind::Stats => "stats",
        }
    }

    // Without the size of a put's body.
    fn arguments(self) -> &'static [Argument] {
        match self {
            CommandKind::Put => &[Argument::Priority, Argument::Delay, Argument::TimeToRun],
            CommandKind::Use | CommandKind::Watch | CommandKind::Ignore => &[Argument::Name],
            CommandKind::StatsTube => &[Argument::Name],
            CommandKind::ReserveWithTimeout => &[Argument::Timeout],
            CommandKind::Delete | CommandKind::Touch => &[Argument::Id],
            CommandKind::KickJob | CommandKind::Peek => &[Argument::Id],
            CommandKind::ReserveJob | CommandKind::StatsJob => &[Argument::Id],
            CommandKind::Release => &[Argument::Id, Argument::Priority, Argument::Delay],
            CommandKind::Bury => &[Argument::Id, Argument::Priority],
            CommandKind::Kick => &[Argument::Bound],
            CommandKind::PauseTube => &[Argument::Name, Argument::Pause],
            _ => &[],
        }
    }

    /// Which reply a good line may get.
    pub fn heads(self) -> &'static [Head] {
        match self {
            CommandKind::Put => &[Head::Inserted],
            CommandKind::Use | CommandKind::ListTubeUsed => &[Head::Using],
            CommandKind::Watch => &[Head::Watching],
            CommandKind::Ignore => &[Head::Watching, Head::NotIgnored],
            CommandKind::ReserveWithTimeout => {
                &[Head::Reserved, Head::DeadlineSoon, Head::TimedOut]
            }
            CommandKind::Delete => &[Head::Deleted, Head::NotFound],
            CommandKind::Touch => &[Head::Touched, Head::NotFound],
            CommandKind::Release => &[Head::Released, Head::NotFound],
            CommandKind::Bury => &[Head::Buried, Head::NotFound],
            CommandKind::Kick => &[Head::KickedCount],
            CommandKind::KickJob => &[Head::Kicked, Head::NotFound],
            CommandKind::PauseTube => &[Head::Paused, Head::NotFound],
            CommandKind::ListTubes | CommandKind::ListTubesWatched => &[Head::Tubes],
            CommandKind::ReserveJob => &[Head::Reserved, Head::NotFound],
            CommandKind::StatsJob => &[Head::JobReport, Head::NotFound],
            CommandKind::StatsTube => &[Head::TubeReport, Head::NotFound],
            CommandKind::Stats => &[Head::QueueReport],
            _ => &[Head::Found, Head::NotFound],
        }
    }

    /// Writes its word and its arguments. The line isn't ended, and a put has neither size nor body.
    pub fn write_words(self, draws: &mut Draws, out: &mut Vec<u8>) -> Result<()> {
        out.extend_from_slice(self.word().as_bytes())?;
        for argument in self.arguments() {
            let spaces = if draws.one_in(16) { "  " } else { " " };
            write!(out, "{spaces}{}", argument.draw(draws))?;
        }
        Ok(())
    }

    /// Writes a good line, and the body of a put.
    pub fn write(self, draws: &mut Draws, out: &mut Vec<u8>) -> Result<()> {
        self.write_words(draws, out)?;
        if let CommandKind::Put = self {
            let size = draws.below(40);
            write!(out, " {size}\r\n")?;
            write_body(draws, size, out)?;
        }
        Ok(out.extend_from_slice(b"\r\n")?)
    }
}

impl Argument {
    fn draw(self, draws: &mut Draws) -> &'static str {
        match self {
            Argument::Id => draws.pick(&[
                "1",
                "2",
                "3",
                "4",
                "5",
                "007",
                "0",
                "18446744073709551615",
            ]),
            Argument::Priority => draws.pick(&["0", "1", "2", "03", "4294967295"]),
            Argument::Delay => draws.pick(&["0", "0", "00", "1", "2", "9", "4294967295"]),
            Argument::TimeToRun => draws.pick(&["0", "1", "2", "60", "4294967295"]),
            Argument::Timeout => draws.pick(&["0", "0", "1", "2"]),
            Argument::Bound => draws.pick(&["0", "1", "2", "10", "4294967295"]),
            Argument::Name => draws.pick(&["a", "b", "default", "a-+/;.$_()9", "Z"]),
            Argument::Pause => draws.pick(&["0", "00", "1", "2", "4294967295"]),
        }
    }
}

/// So many bytes of a body.
pub fn write_body(draws: &mut Draws, size: usize, out: &mut Vec<u8>) -> Result<()> {
    for _ in 0..size {
        let byte = draws.pick(b"ab \r\n\x00\xff-19");
        out.push(byte)?;
    }
    Ok(())
}
