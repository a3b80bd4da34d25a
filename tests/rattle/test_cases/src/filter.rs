//! An object behind its once-only filter. A step is a command.
use crate::script::Stage;
use crate::spoken::{Spoken, command_of, tell_answers};
use anyhow::Result;
use object::{Answer, Command, Effect, Once};
use std::alloc::Global;

impl<O: Spoken> Stage for Once<O> {
    fn step(&mut self, alloc: Global, step: &str, told: &mut String) -> Result<()> {
        let command = command_of::<O>(alloc, step)?;
        let mut answers = Vec::new(alloc);
        obey(self, &command, &mut answers, told)?;
        tell_answers::<O>(answers.as_slice(), told)
    }
}

// Obeys a command, and tells whether it is stale.
fn obey<O: Spoken>(
    filter: &mut Once<O>,
    command: &Command<O::Op>,
    answers: &mut Vec<Answer<O::Reply>>,
    told: &mut String,
) -> Result<()> {
    if filter.apply(command, answers)? == Effect::Stale {
        told.push_str("  stale\n")?;
    }
    Ok(())
}
