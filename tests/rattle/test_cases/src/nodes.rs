//! A world of nodes. A step is an event, or a question about what happened.
use crate::letter_words::{Known, tell_letter};
use crate::script::Stage;
use crate::spoken::{Spoken, command_of, key_of, tell_answer};
use crate::values::{count_of, node_of};
use anyhow::{Context, Result, bail};
use ballot::Members;
use object::{Command, Value};
use std::alloc::Global;
use world::{Event, World};

/// A world, and the commands that were submitted.
#[derive(Drop)]
pub struct Nodes<O: Spoken> {
    world: World<O>,
    known: Known<O::Op>,
}

impl<O: Spoken> Nodes<O> {
    /// So many nodes.
    pub fn new(alloc: Global, count: u8) -> Result<Nodes<O>> {
        let members = Members::new(count).context("no members")?;
        Ok(Nodes {
            world: World::new(alloc, members)?,
            known: Known::new(alloc),
        })
    }

    // Takes an event, and tells why it was refused, if it was.
    fn take(&mut self, event: Event<O::Op>, told: &mut String) -> Result<()> {
        self.learn(&event)?;
        if let Err(refusal) = self.world.step(event) {
            write!(told, "  refused: {refusal}\n")?;
        }
        Ok(())
    }

    // Keeps a command that is submitted, unless its key was submitted before.
    fn learn(&mut self, event: &Event<O::Op>) -> Result<()> {
        if let Event::Submit(_, command) = event {
            self.known.learn(command)?;
        }
        Ok(())
    }

    // Takes events up to the first that is refused, and tells which it is.
    fn run(&mut self, events: &[Event<O::Op>], told: &mut String) -> Result<()> {
        if let Err((place, refusal)) = self.world.run(events) {
            write!(told, "  refused at {place}: {refusal}\n")?;
        }
        Ok(())
    }

    // Takes an event, or several after the word `run`.
    fn go(&mut self, alloc: Global, step: &str, told: &mut String) -> Result<()> {
        match step.strip_prefix("run ") {
            Some(events) => self.run(events_of::<O>(alloc, events)?.as_slice(), told),
            None => self.take(event_of::<O>(alloc, step)?, told),
        }
    }

    // Does the same, and tells the letters and answers that come of it.
    fn go_and_tell(&mut self, alloc: Global, step: &str, told: &mut String) -> Result<()> {
        let letters = self.world.letters().len();
        let answers = self.world.answers().len();
        self.go(alloc, step, told)?;
        self.tell_letters(letters, told)?;
        self.tell_answers(answers, told)
    }

    // Tells what came after so many letters.
    fn tell_letters(&self, seen: usize, told: &mut String) -> Result<()> {
        for (number, letter) in self.world.letters().iter().enumerate().skip(seen) {
            tell_letter(&self.known, number, letter, told)?;
        }
        Ok(())
    }

    // Tells what came after so many answers.
    fn tell_answers(&self, seen: usize, told: &mut String) -> Result<()> {
        for answer in self.world.answers().iter().skip(seen) {
            tell_answer::<O>(answer, told)?;
        }
        Ok(())
    }

    // Tells the one order.
    fn tell_order(&self, told: &mut String) -> Result<()> {
        let order = self.world.order()?;
        self.tell_commands(order.as_slice(), told)
    }

    fn tell_commands(&self, commands: &[Command<O::Op>], told: &mut String) -> Result<()> {
        for command in commands {
            self.known.tell_between("  ", command, "\n", told)?;
        }
        Ok(())
    }

    // Tells what was submitted, and after how many answers.
    fn tell_submitted(&self, told: &mut String) -> Result<()> {
        for submission in self.world.submitted() {
            self.known
                .tell_between("  ", &submission.command, " after ", told)?;
            write!(told, "{}\n", submission.after)?;
        }
        Ok(())
    }

    // Tells whether a key stands in the order.
    fn tell_placed(&self, key: &str, told: &mut String) -> Result<()> {
        let is_placed = self.world.placed(key_of(key)?);
        let answer = if is_placed { "  yes\n" } else { "  no\n" };
        Ok(told.push_str(answer)?)
    }
}

impl<O: Spoken> Stage for Nodes<O> {
    fn step(&mut self, alloc: Global, step: &str, told: &mut String) -> Result<()> {
        match step.strip_prefix("placed ") {
            Some(key) => self.tell_placed(key, told),
            None if step == "order" => self.tell_order(told),
            None if step == "submitted" => self.tell_submitted(told),
            None => self.go_and_tell(alloc, step, told),
        }
    }
}

fn events_of<O: Spoken>(alloc: Global, text: &str) -> Result<Vec<Event<O::Op>>> {
    let mut events = Vec::new(alloc);
    for event in text.split("; ") {
        events.push(event_of::<O>(alloc, event)?)?;
    }
    Ok(events)
}

// The event of these words.
fn event_of<O: Spoken>(alloc: Global, text: &str) -> Result<Event<O::Op>> {
    let (word, rest) = text.split_once(' ').context("no event")?;
    match word {
        "submit" => submit_of::<O>(alloc, rest),
        "deliver" => delivery_of(rest),
        _ => node_event(word, node_of(rest)?),
    }
}

fn submit_of<O: Spoken>(alloc: Global, text: &str) -> Result<Event<O::Op>> {
    let (node, command) = text.split_once(' ').context("no command")?;
    let command = command_of::<O>(alloc, command)?;
    Ok(Event::Submit(node_of(node)?, command))
}

fn delivery_of<Op: Value>(letter: &str) -> Result<Event<Op>> {
    Ok(Event::Deliver(count_of(letter)?))
}

// What a node does by itself.
fn node_event<Op: Value>(word: &str, node: u8) -> Result<Event<Op>> {
    match word {
        "wake" => Ok(Event::Wake(node)),
        "nudge" => Ok(Event::Nudge(node)),
        "propose" => Ok(Event::Propose(node)),
        "perform" => Ok(Event::Perform(node)),
        "restart" => Ok(Event::Restart(node)),
        _ => bail!("no such event"),
    }
}
