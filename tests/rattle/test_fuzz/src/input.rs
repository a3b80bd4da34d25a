//! What a client sends.
use crate::command_kind::CommandKind;
use crate::damage::{add_wrong_body, break_off, change_bytes, copy_with_cut, noise};
use crate::draws::Draws;
use crate::head::Head;
use crate::input_kind::InputKind;
use anyhow::Result;
use bean_codec::Profile;
use session::End;
use std::alloc::Global;

// How many commands most inputs have.
const COMMANDS: usize = 8;

// How many commands there are before a quit.
const BEFORE_QUIT: usize = 32;

// How long a line is with its CR LF: it may have 224 bytes.
static LINE_LENS: [usize; 8] = [223, 224, 225, 226, 300, 4096, 4097, 9000];

/// What a client sends.
#[derive(Drop)]
pub struct Input {
    pub bytes: Vec<u8>,
    /// Which heads each reply may have.
    replies: Vec<&'static [Head]>,
    /// How the session ends, where that and the replies are known.
    end: Option<End>,
}

impl Input {
    /// The input of this kind that is drawn, for a server that speaks this profile.
    pub fn draw(
        alloc: Global,
        profile: Profile,
        kind: InputKind,
        draws: &mut Draws,
    ) -> Result<Input> {
        match kind {
            InputKind::Good => Input::of_commands(alloc, profile, draws),
            InputKind::Pipelined => Input::with_quit(alloc, profile, draws),
            InputKind::LongLines => Input::of_long_lines(alloc, profile, draws),
            InputKind::BrokenOff | InputKind::ChangedBytes => {
                Input::damaged(alloc, profile, kind, draws)
            }
            InputKind::CutLines => Input::of_cut_lines(alloc, profile, draws),
            InputKind::WrongBodies => Input::of_wrong_bodies(alloc, profile, draws),
            InputKind::Noise => Ok(Input::unknown(noise(alloc, profile, draws)?, alloc)),
        }
    }

    // Nothing as yet, whose session ends so.
    fn new(alloc: Global, end: End) -> Input {
        Input {
            bytes: Vec::new(alloc),
            replies: Vec::new(alloc),
            end: Some(end),
        }
    }

    // Bytes of whose replies nothing is known.
    fn unknown(bytes: Vec<u8>, alloc: Global) -> Input {
        Input {
            bytes,
            replies: Vec::new(alloc),
            end: None,
        }
    }

    // Adds good commands.
    fn add_commands(&mut self, profile: Profile, count: usize, draws: &mut Draws) -> Result<()> {
        for _ in 0..count {
            let kind = CommandKind::draw(profile, draws);
            kind.write(draws, &mut self.bytes)?;
            self.replies.push(kind.heads())?;
        }
        Ok(())
    }

    fn of_commands(alloc: Global, profile: Profile, draws: &mut Draws) -> Result<Input> {
        let mut input = Input::new(alloc, End::Eof);
        input.add_commands(profile, COMMANDS, draws)?;
        Ok(input)
    }

    // What follows the quit has no reply.
    fn with_quit(alloc: Global, profile: Profile, draws: &mut Draws) -> Result<Input> {
        let mut input = Input::new(alloc, End::Quit);
        input.add_commands(profile, BEFORE_QUIT, draws)?;
        input.bytes.extend_from_slice(b"quit\r\n")?;
        let unheard = Input::of_commands(alloc, profile, draws)?;
        input.bytes.extend_from_slice(unheard.bytes.as_slice())?;
        Ok(input)
    }

    fn of_long_lines(alloc: Global, profile: Profile, draws: &mut Draws) -> Result<Input> {
        let mut input = Input::new(alloc, End::Eof);
        for _ in 0..COMMANDS {
            input.add_long_line(profile, draws)?;
        }
        Ok(input)
    }

    // A line of a drawn length. Spaces at its end count for nothing, as long as it isn't too long.
    fn add_long_line(&mut self, profile: Profile, draws: &mut Draws) -> Result<()> {
        let kind = CommandKind::draw_long(profile, draws);
        let len = draws.pick(&LINE_LENS);
        let before = self.bytes.len();
        kind.write_words(draws, &mut self.bytes)?;
        let used = self.bytes.len().saturating_sub(before).saturating_add(2);
        let filler = if len > 224 && draws.one_in(2) {
            b'x'
        } else {
            b' '
        };
        for _ in used..len {
            self.bytes.push(filler)?;
        }
        self.bytes.extend_from_slice(b"\r\n")?;
        let heads = if len > 224 {
            &[Head::BadFormat]
        } else {
            kind.heads()
        };
        Ok(self.replies.push(heads)?)
    }

    // Good commands to which something is done.
    fn damaged(
        alloc: Global,
        profile: Profile,
        kind: InputKind,
        draws: &mut Draws,
    ) -> Result<Input> {
        let mut bytes = Input::of_commands(alloc, profile, draws)?.bytes;
        match kind {
            InputKind::BrokenOff => break_off(&mut bytes, draws),
            _ => change_bytes(&mut bytes, draws),
        }
        Ok(Input::unknown(bytes, alloc))
    }

    // Of each line with its body some bytes are left out.
    fn of_cut_lines(alloc: Global, profile: Profile, draws: &mut Draws) -> Result<Input> {
        let mut bytes = Vec::new(alloc);
        for _ in 0..COMMANDS {
            let mut line = Vec::new(alloc);
            CommandKind::draw(profile, draws).write(draws, &mut line)?;
            copy_with_cut(line.as_slice(), draws, &mut bytes)?;
        }
        Ok(Input::unknown(bytes, alloc))
    }

    // Puts whose body has another length than their line says, among other commands.
    fn of_wrong_bodies(alloc: Global, profile: Profile, draws: &mut Draws) -> Result<Input> {
        let mut bytes = Vec::new(alloc);
        for _ in 0..COMMANDS {
            if draws.one_in(2) {
                add_wrong_body(draws, &mut bytes)?;
            } else {
                CommandKind::draw(profile, draws).write(draws, &mut bytes)?;
            }
        }
        Ok(Input::unknown(bytes, alloc))
    }

    /// How many replies are known beforehand.
    pub fn known(&self) -> usize {
        match self.end {
            Some(_) => self.replies.len(),
            None => 0,
        }
    }

    /// Whether its session may end so.
    pub fn may_end(&self, end: End) -> bool {
        self.end.is_none_or(|known| known == end)
    }

    /// Whether these may be the heads of its replies.
    pub fn may_get(&self, heads: &[Head]) -> bool {
        self.end.is_none()
            || (heads.len() == self.replies.len()
                && heads
                    .iter()
                    .zip(self.replies.iter())
                    .all(|(head, allowed)| allowed.contains(head)))
    }
}
