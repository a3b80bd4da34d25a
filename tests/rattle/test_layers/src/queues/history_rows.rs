//! What goes into a job's history, as a table.
use bean_words::{Body, Name};
use job_store::{History, Job, JobMap, Jobs, Mark, State};
use std::alloc::{AllocError, Global};
use std::test::Fail;

/// How often it was reserved, timed out, released, buried and kicked.
type Counts = [u32; 5];

fn counts_of(history: &History) -> Counts {
    [
        history.reserves,
        history.timeouts,
        history.releases,
        history.buries,
        history.kicks,
    ]
}

/// The marks of a job's life, and its delay and its counts after each.
static LIFE: [(Mark, u32, Counts); 12] = [
    (Mark::Nothing, 3, [0, 0, 0, 0, 0]),
    (Mark::Reserved, 3, [1, 0, 0, 0, 0]),
    (Mark::Nothing, 3, [1, 0, 0, 0, 0]),
    (Mark::Released { delay: 7 }, 7, [1, 0, 1, 0, 0]),
    (Mark::Kicked, 7, [1, 0, 1, 0, 1]),
    (Mark::Reserved, 7, [2, 0, 1, 0, 1]),
    (Mark::TimedOut, 7, [2, 1, 1, 0, 1]),
    (Mark::Reserved, 7, [3, 1, 1, 0, 1]),
    (Mark::Buried, 7, [3, 1, 1, 1, 1]),
    (Mark::Kicked, 7, [3, 1, 1, 1, 2]),
    (Mark::Reserved, 7, [4, 1, 1, 1, 2]),
    (Mark::Released { delay: 0 }, 0, [4, 1, 2, 1, 2]),
];

/// A map of one job, which was put in the second 2 with a delay of 3 seconds.
fn map_of_one(alloc: Global) -> Result<Jobs, AllocError> {
    let mut jobs = Jobs::new(alloc);
    let job = Job {
        tube: Name::default_tube(),
        pri: 5,
        ttr: 60,
        body: Body::new(alloc, b"hello")?,
        state: State::Ready,
        history: History::new(2, 3),
    };
    jobs.insert(1, job)?;
    Ok(jobs)
}

/// Whether the job was put in the second 2, and has this delay and these counts.
fn shows(jobs: &Jobs, delay: u32, counts: Counts) -> bool {
    match jobs.get(1) {
        Some(job) => {
            job.history.put_at == 2
                && job.history.delay == delay
                && counts_of(&job.history) == counts
        }
        None => false,
    }
}

/// The place of the first mark that the map takes otherwise: by a change of the state at even places, and of the
/// priority, too, at odd ones.
fn wrong_mark(jobs: &mut Jobs) -> Result<Option<usize>, AllocError> {
    for (place, (mark, delay, counts)) in LIFE.iter().enumerate() {
        if place % 2 == 0 {
            jobs.set_state(1, State::Ready, *mark)?;
        } else {
            jobs.set(1, 6, State::Ready, *mark)?;
        }
        if !shows(jobs, *delay, *counts) {
            return Ok(Some(place));
        }
    }
    Ok(None)
}

#[test]
fn a_life_is_counted(rt: HostRuntime) -> Result<(), Fail> {
    let mut jobs = map_of_one(rt.alloc())?;
    assert_eq!(rt; wrong_mark(&mut jobs)?, None);
    Ok(())
}

#[test]
fn a_trial_gives_the_history_back(rt: HostRuntime) -> Result<(), Fail> {
    let mut jobs = map_of_one(rt.alloc())?;
    jobs.set_state(1, State::Ready, Mark::Kicked)?;
    jobs.begin();
    jobs.set_state(1, State::Ready, Mark::Reserved)?;
    jobs.set(1, 6, State::Ready, Mark::Released { delay: 9 })?;
    assert!(rt; shows(&jobs, 9, [1, 0, 1, 0, 1]));
    jobs.roll_back();
    assert!(rt; shows(&jobs, 3, [0, 0, 0, 0, 1]));
    Ok(())
}

#[test]
fn the_greatest_count_stays(rt: HostRuntime) -> Result<(), Fail> {
    let history = History {
        kicks: u32::MAX - 1,
        ..History::new(2, 3)
    };
    let once = history.marked(Mark::Kicked);
    let twice = once.marked(Mark::Kicked);
    assert_eq!(rt; once.kicks, u32::MAX);
    assert_eq!(rt; twice.kicks, u32::MAX);
    Ok(())
}
