//! A register in words.
use crate::spoken::Spoken;
use crate::values::large;
use anyhow::{Result, bail};
use object::{Register, RegisterOp, RegisterReply};
use std::alloc::{AllocError, Global};

impl Spoken for Register {
    fn op_of(_alloc: Global, words: &[&str]) -> Result<RegisterOp> {
        match *words {
            ["read"] => Ok(RegisterOp::Read),
            ["write", value] => large(value).map(RegisterOp::Write),
            _ => bail!("no such operation"),
        }
    }

    fn tell_reply(reply: &RegisterReply, told: &mut String) -> Result<(), AllocError> {
        match reply {
            RegisterReply::Done => told.push_str("done"),
            RegisterReply::Value(value) => write!(told, "value {value}"),
        }
    }
}
