use object::{Act, Answer, Command, Key, RegisterOp, RegisterReply};
use recorder::Recorder;
use std::alloc::Global;
use std::test::Fail;

const FIRST: Key = Key {
    session: 1,
    number: 1,
};

const SECOND: Key = Key {
    session: 1,
    number: 2,
};

const OTHER: Key = Key {
    session: 2,
    number: 1,
};

/// A key that nothing happens to.
const UNKNOWN: Key = Key {
    session: 2,
    number: 2,
};

fn answer(to: Key, value: u64) -> Answer<RegisterReply> {
    let reply = RegisterReply::Value(value);
    Answer { to, reply }
}

/// A write of the number is submitted, where it is to be new or not.
fn submit(
    recorder: &mut Recorder<RegisterOp, RegisterReply>,
    key: Key,
    value: u64,
    is_new: bool,
) -> Result<(), Fail> {
    let act = Act::Do(RegisterOp::Write(value));
    let command = Command::new(key, act).ok_or("no command")?;
    if recorder.submit(&command)? != is_new {
        return Err("new or not".into());
    }
    Ok(())
}

/// A write of the number is submitted, which is to be new, and taken back.
fn withdraw(
    recorder: &mut Recorder<RegisterOp, RegisterReply>,
    key: Key,
    value: u64,
) -> Result<(), Fail> {
    let act = Act::Do(RegisterOp::Write(value));
    let command = Command::new(key, act).ok_or("no command")?;
    if !recorder.submit(&command)? {
        return Err("not new".into());
    }
    recorder.withdraw();
    Ok(())
}

/// A key that was submitted is answered, once or again.
fn give(
    recorder: &mut Recorder<RegisterOp, RegisterReply>,
    key: Key,
    value: u64,
    alloc: Global,
) -> Result<(), Fail> {
    let Some(_) = recorder.submission_of(key) else {
        return Err("not submitted".into());
    };
    let first = Answer {
        to: key,
        reply: RegisterReply::Value(value),
    };
    let second = Answer {
        to: key,
        reply: RegisterReply::Done,
    };
    let mut given = vec![in alloc; first, second]?;
    recorder.answer_all(&mut given);
    if !given.is_empty() {
        return Err("not emptied".into());
    }
    Ok(())
}

/// A key that was submitted takes effect, where that is to be new or not.
fn place(
    recorder: &mut Recorder<RegisterOp, RegisterReply>,
    key: Key,
    is_new: bool,
) -> Result<(), Fail> {
    let Some(_) = recorder.submission_of(key) else {
        return Err("not submitted".into());
    };
    if recorder.place(key) != is_new {
        return Err("new or not".into());
    }
    Ok(())
}

/// What a recorder is told.
enum Step {
    /// A write of the number is submitted, where it is to be new or not.
    Submit(Key, u64, bool),
    /// A write of the number is submitted and taken back.
    Withdraw(Key, u64),
    /// The number is given as an answer.
    Give(Key, u64),
}

static TOLD: [Step; 9] = [
    Step::Submit(FIRST, 5, true),
    Step::Submit(OTHER, 6, true),
    Step::Give(FIRST, 1),
    Step::Give(OTHER, 2),
    Step::Withdraw(SECOND, 9),
    Step::Submit(SECOND, 6, true),
    Step::Submit(FIRST, 7, false),
    Step::Give(OTHER, 4),
    Step::Give(SECOND, 5),
];

/// A recorder that was told these.
fn recorder_of(alloc: Global, steps: &[Step]) -> Result<Recorder<RegisterOp, RegisterReply>, Fail> {
    let mut recorder = Recorder::new(alloc);
    for step in steps {
        match step {
            Step::Submit(key, value, is_new) => submit(&mut recorder, *key, *value, *is_new)?,
            Step::Withdraw(key, value) => withdraw(&mut recorder, *key, *value)?,
            Step::Give(key, value) => give(&mut recorder, *key, *value, alloc)?,
        }
    }
    Ok(recorder)
}

/// What is known of a key: how many answers came before it was submitted, and the number that it was answered.
struct Known {
    key: Key,
    after: Option<usize>,
    value: Option<u64>,
}

static KNOWN: [Known; 4] = [
    Known {
        key: FIRST,
        after: Some(0),
        value: Some(1),
    },
    Known {
        key: OTHER,
        after: Some(0),
        value: Some(2),
    },
    Known {
        key: SECOND,
        after: Some(2),
        value: Some(5),
    },
    Known {
        key: UNKNOWN,
        after: None,
        value: None,
    },
];

/// Whether the recorder finds this of the key.
fn finds(recorder: &Recorder<RegisterOp, RegisterReply>, row: &Known) -> bool {
    let after = recorder.submission_of(row.key).map(|found| found.after);
    let reply = recorder.answer_to(row.key).copied();
    after == row.after && reply == row.value.map(RegisterReply::Value)
}

/// Whether the recorder finds what is known, and no more.
fn finds_all(alloc: Global, recorder: &Recorder<RegisterOp, RegisterReply>) -> Result<bool, Fail> {
    let answers = vec![in alloc; answer(FIRST, 1), answer(OTHER, 2), answer(SECOND, 5)]?;
    Ok(
        recorder.answers() == answers.as_slice()
            && recorder.submitted().len() == 3
            && KNOWN.iter().all(|row| finds(recorder, row)),
    )
}

#[test]
fn the_first_of_each_key_counts(rt: HostRuntime) -> Result<(), Fail> {
    let recorder = recorder_of(rt.alloc(), &TOLD)?;
    assert!(rt; finds_all(rt.alloc(), &recorder)?);
    Ok(())
}

/// A recorder of three commands, two of which were placed.
fn placed(alloc: Global) -> Result<Recorder<RegisterOp, RegisterReply>, Fail> {
    let mut recorder: Recorder<RegisterOp, RegisterReply> = Recorder::new(alloc);
    for key in [FIRST, SECOND, OTHER] {
        submit(&mut recorder, key, 5, true)?;
    }
    for (key, is_new) in [(OTHER, true), (FIRST, true), (OTHER, false)] {
        place(&mut recorder, key, is_new)?;
    }
    Ok(recorder)
}

/// Whether copies of the recorder's lists are alike, and none of its keys was answered.
fn copies_alike(recorder: &Recorder<RegisterOp, RegisterReply>) -> Result<bool, Fail> {
    let (submitted, answers, order) = recorder.copies()?;
    Ok(
        submitted.as_slice() == recorder.submitted()
            && answers.is_empty()
            && order.as_slice() == recorder.order(),
    )
}

#[test]
fn a_key_is_placed_once(rt: HostRuntime) -> Result<(), Fail> {
    let recorder = placed(rt.alloc())?;
    assert!(rt; recorder.is_placed(FIRST) && !recorder.is_placed(SECOND));
    assert!(rt; recorder.order() == [OTHER, FIRST].as_slice());
    assert!(rt; copies_alike(&recorder)?);
    Ok(())
}
