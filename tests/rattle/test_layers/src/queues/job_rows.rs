//! What a map of jobs finds and keeps, as tables.
ghost use Rattle.std.specs.Prelude.{◌≡◌, None};

use bean_words::{Body, Name};
use indexmap::IndexSet;
use job_store::{History, Job, JobMap, Jobs, Mark, State};
use object::Value;
use std::alloc::{AllocError, Global};
use std::collections::{BTreeMap, BTreeSet};
use std::test::Fail;

/// The id, the priority and the state of a job.
type Row = (u64, u32, State);

fn new_job(alloc: Global, tube: &Name, pri: u32, state: State) -> Result<Job, AllocError> {
    Ok(Job {
        tube: tube.copy()?,
        pri,
        ttr: 60,
        body: Body::new(alloc, b"hello")?,
        state,
        history: History::new(2, 3),
    })
}

/// A map of jobs of one tube.
fn map_of<M: JobMap>(alloc: Global, tube: &Name, rows: &[Row]) -> Result<M, AllocError> {
    let mut jobs = M::new(alloc);
    for (id, pri, state) in rows {
        jobs.insert(*id, new_job(alloc, tube, *pri, *state)?)?;
    }
    Ok(jobs)
}

fn row(id: u64, job: &Job) -> Row {
    (id, job.pri, job.state)
}

/// All its jobs, by rising id.
fn rows_of<M: JobMap>(alloc: Global, jobs: &M) -> Result<Vec<Row>, AllocError> {
    let mut rows = Vec::new(alloc);
    for (id, stored) in jobs.by_id() {
        rows.push(row(*id, stored.as_job()))?;
    }
    Ok(rows)
}

/// A look-up in a map of jobs of one tube.
enum LookUp {
    /// For one who watches no tube.
    BestReadyOfNone,
    /// For one who watches the tube.
    BestReady,
    /// For one who watches the tube, which is paused.
    BestReadyWherePaused,
    FirstReady,
    FirstDelayed,
    FirstBuried,
    /// What is due in this second.
    Due(u64),
    /// What this session has.
    FirstHeld(u32),
}

fn only(alloc: Global, tube: &Name) -> Result<IndexSet<Name>, AllocError> {
    let mut tubes = IndexSet::new(alloc);
    tubes.insert(tube.copy()?)?;
    Ok(tubes)
}

fn paused(alloc: Global, tube: &Name) -> Result<BTreeMap<Name, u64>, AllocError> {
    let mut seconds = BTreeMap::new(alloc);
    seconds.insert(tube.copy()?, 9)?;
    Ok(seconds)
}

fn id_of(found: Option<(u64, &Job)>) -> Option<u64> {
    found.map(|(id, _)| id)
}

/// The id of the job that is found.
fn found<M: JobMap>(
    alloc: Global,
    tube: &Name,
    jobs: &M,
    look_up: &LookUp,
) -> Result<Option<u64>, AllocError> {
    Ok(id_of(match look_up {
        LookUp::BestReadyOfNone => { jobs.best_ready(&IndexSet::new(alloc), &BTreeMap::new(alloc)) }
        LookUp::BestReady => jobs.best_ready(&only(alloc, tube)?, &BTreeMap::new(alloc)),
        LookUp::BestReadyWherePaused => {
            jobs.best_ready(&only(alloc, tube)?, &paused(alloc, tube)?)
        }
        LookUp::FirstReady => jobs.first_ready(tube),
        LookUp::FirstDelayed => jobs.first_delayed(tube),
        LookUp::FirstBuried => jobs.first_buried(tube),
        LookUp::Due(second) => jobs.due(*second),
        LookUp::FirstHeld(session) => jobs.first_held(*session),
    }))
}

static STORED: [Row; 8] = [
    (1, 5, State::Ready),
    (2, 3, State::Ready),
    (3, 3, State::Ready),
    (4, 0, State::Delayed { due: 9 }),
    (5, 0, State::Delayed { due: 8 }),
    (6, 0, State::Reserved { session: 7, due: 8 }),
    (7, 0, State::Buried { rank: 2 }),
    (8, 0, State::Buried { rank: 1 }),
];

/// Look-ups in the stored jobs, and the ids that they find.
static FOUND: [(LookUp, Option<u64>); 10] = [
    (LookUp::BestReadyOfNone, None),
    (LookUp::BestReady, Some(2)),
    (LookUp::BestReadyWherePaused, None),
    (LookUp::FirstReady, Some(2)),
    (LookUp::FirstDelayed, Some(5)),
    (LookUp::FirstBuried, Some(8)),
    (LookUp::Due(7), None),
    (LookUp::Due(8), Some(5)),
    (LookUp::FirstHeld(7), Some(6)),
    (LookUp::FirstHeld(8), None),
];

/// The place of the first look-up that finds another job.
fn wrong_look_up<M: JobMap>(
    alloc: Global,
    tube: &Name,
    jobs: &M,
    look_ups: &[(LookUp, Option<u64>)],
) -> Result<Option<usize>, AllocError> {
    for (place, (look_up, id)) in look_ups.iter().enumerate() {
        if found(alloc, tube, jobs, look_up)? != *id {
            return Ok(Some(place));
        }
    }
    Ok(None)
}

/// The same in a map of these jobs.
fn wrong_look_up_of<M: JobMap>(alloc: Global, rows: &[Row]) -> Result<Option<usize>, AllocError> {
    let tube = Name::default_tube();
    let jobs: M = map_of(alloc, &tube, rows)?;
    wrong_look_up(alloc, &tube, &jobs, &FOUND)
}

#[test]
fn look_ups_find_the_least(rt: HostRuntime) -> Result<(), Fail> {
    assert_eq!(rt; wrong_look_up_of::<Jobs>(rt.alloc(), &STORED)?, None);
    Ok(())
}

/// A change of a map of jobs of one tube.
enum Change {
    /// A new job.
    Insert(Row),
    /// A copy of a new job.
    InsertCopy(Row),
    /// The priority and the state of the job at the id.
    Set(Row),
    /// The state of the job at the id.
    SetState(u64, State),
}

fn insert<M: JobMap>(alloc: Global, tube: &Name, jobs: &mut M, row: Row) -> Result<(), AllocError>
    ensures { M.before jobs.new ≡ M.before jobs.old }
{
    let (id, pri, state) = row;
    let job = new_job(alloc, tube, pri, state)?;
    jobs.insert(id, job)
}

fn insert_copy<M: JobMap>(
    alloc: Global,
    tube: &Name,
    jobs: &mut M,
    row: Row,
) -> Result<(), AllocError>
    ensures { M.before jobs.new ≡ M.before jobs.old }
{
    let (id, pri, state) = row;
    let job = new_job(alloc, tube, pri, state)?;
    jobs.insert(id, job.copy()?)
}

fn make<M: JobMap>(
    alloc: Global,
    tube: &Name,
    jobs: &mut M,
    change: &Change,
) -> Result<(), AllocError>
    ensures { M.before jobs.new ≡ M.before jobs.old }
{
    match change {
        Change::Insert(row) => insert(alloc, tube, jobs, *row),
        Change::InsertCopy(row) => insert_copy(alloc, tube, jobs, *row),
        Change::Set((id, pri, state)) => jobs.set(*id, *pri, state.copy()?, Mark::Nothing),
        Change::SetState(id, state) => jobs.set_state(*id, *state, Mark::Nothing),
    }
}

fn make_all<M: JobMap>(
    alloc: Global,
    tube: &Name,
    jobs: &mut M,
    changes: &[Change],
) -> Result<(), AllocError>
    ensures { M.before jobs.new ≡ M.before jobs.old }
{
    for change in changes {
        make(alloc, tube, jobs, change)?;
    }
    Ok(())
}

/// What a map of jobs of one tube goes through.
enum Step {
    /// These are all its jobs.
    Holds(&'static [Row]),
    /// The priority of the job at the id.
    Get(u64, Option<u32>),
    /// A trial of changes, in which these are all its jobs, and its copy's. Then the changes are taken back.
    TakenBack(&'static [Change], &'static [Row]),
    /// A trial whose changes stay.
    Kept(&'static [Change]),
    /// The body of the job at the id, which is taken out.
    Remove(u64, &'static [u8]),
    /// No job at the id is taken out.
    RemoveNone(u64),
}

fn holds<M: JobMap>(alloc: Global, jobs: &M, rows: &[Row]) -> Result<bool, AllocError> {
    Ok(rows_of(alloc, jobs)?.as_slice() == rows)
}

/// Whether the map and its copy hold these jobs in the trial of the changes, which are then taken back.
fn is_taken_back<M: JobMap>(
    alloc: Global,
    tube: &Name,
    jobs: &mut M,
    changes: &[Change],
    rows: &[Row],
) -> Result<bool, AllocError> {
    jobs.begin();
    make_all(alloc, tube, jobs, changes)?;
    let is_changed = holds(alloc, jobs, rows)?;
    let is_copied = holds(alloc, &jobs.copy()?, rows)?;
    jobs.roll_back();
    Ok(is_changed && is_copied)
}

/// Makes these changes, which stay.
fn is_kept<M: JobMap>(
    alloc: Global,
    tube: &Name,
    jobs: &mut M,
    changes: &[Change],
) -> Result<bool, AllocError> {
    jobs.begin();
    make_all(alloc, tube, jobs, changes)?;
    jobs.commit();
    Ok(true)
}

/// Whether a job of this body is taken out.
fn is_removed<M: JobMap>(jobs: &mut M, id: u64, body: &[u8]) -> bool {
    match jobs.remove(id) {
        Some(job) => job.body.as_slice() == body,
        None => false,
    }
}

/// The step goes as it says.
fn goes<M: JobMap>(
    alloc: Global,
    tube: &Name,
    jobs: &mut M,
    step: &Step,
) -> Result<bool, AllocError> {
    match step {
        Step::Holds(rows) => holds(alloc, jobs, *rows),
        Step::Get(id, pri) => Ok(jobs.get(*id).map(|job| job.pri) == *pri),
        Step::TakenBack(changes, rows) => is_taken_back(alloc, tube, jobs, *changes, *rows),
        Step::Kept(changes) => is_kept(alloc, tube, jobs, *changes),
        Step::Remove(id, body) => Ok(is_removed(jobs, *id, *body)),
        Step::RemoveNone(id) => Ok(jobs.remove(*id).is_none()),
    }
}

/// The place of the first step that the map takes otherwise.
fn wrong_step<M: JobMap>(
    alloc: Global,
    tube: &Name,
    jobs: &mut M,
    steps: &[Step],
) -> Result<Option<usize>, AllocError> {
    for (place, step) in steps.iter().enumerate() {
        if !goes(alloc, tube, jobs, step)? {
            return Ok(Some(place));
        }
    }
    Ok(None)
}

static FIRST: [Row; 2] = [(1, 5, State::Ready), (2, 3, State::Ready)];

static CHANGES: [Step; 8] = [
    Step::Get(2, Some(3)),
    Step::Get(3, None),
    Step::TakenBack(
        &[
            Change::InsertCopy((3, 3, State::Ready)),
            Change::Insert((1, 3, State::Ready)),
            Change::Set((2, 0, State::Buried { rank: 4 })),
            Change::SetState(3, State::Delayed { due: 6 }),
        ],
        &[
            (1, 3, State::Ready),
            (2, 0, State::Buried { rank: 4 }),
            (3, 3, State::Delayed { due: 6 }),
        ],
    ),
    Step::Holds(&[(1, 5, State::Ready), (2, 3, State::Ready)]),
    Step::Kept(&[Change::Set((1, 4, State::Ready))]),
    Step::Holds(&[(1, 4, State::Ready), (2, 3, State::Ready)]),
    Step::Remove(2, b"hello"),
    Step::RemoveNone(2),
];

/// The place of the first change that a map of these jobs takes otherwise.
fn wrong_change_of<M: JobMap>(alloc: Global, rows: &[Row]) -> Result<Option<usize>, AllocError> {
    let tube = Name::default_tube();
    let mut jobs: M = map_of(alloc, &tube, rows)?;
    wrong_step(alloc, &tube, &mut jobs, &CHANGES)
}

#[test]
fn changes_stay_or_are_taken_back(rt: HostRuntime) -> Result<(), Fail> {
    assert_eq!(rt; wrong_change_of::<Jobs>(rt.alloc(), &FIRST)?, None);
    Ok(())
}

/// A priority and an id.
type Place = (u32, u64);

fn places_of(alloc: Global, places: &BTreeSet<Place>) -> Result<Vec<Place>, AllocError> {
    let mut list = Vec::new(alloc);
    for place in places {
        list.push(*place)?;
    }
    Ok(list)
}

/// The ready jobs of the tube that the map lends are these, or there are none and it lends nothing.
fn lends(alloc: Global, jobs: &Jobs, tube: &Name, places: &[Place]) -> Result<bool, AllocError>
    requires { jobs.now.before ≡ None }
{
    match jobs.ready(tube) {
        Some(lent) => Ok(!places.is_empty() && places_of(alloc, lent)?.as_slice() == places),
        None => Ok(places.is_empty()),
    }
}

#[test]
fn the_ready_jobs_of_a_tube_are_lent(rt: HostRuntime) -> Result<(), Fail> {
    let alloc = rt.alloc();
    let one = Name::new(alloc, b"a")?.ok_or("no name")?;
    let other = Name::new(alloc, b"b")?.ok_or("no name")?;
    let mut jobs = Jobs::new(alloc);
    jobs.insert(1, new_job(alloc, &one, 2, State::Ready)?)?;
    jobs.insert(2, new_job(alloc, &one, 1, State::Ready)?)?;
    assert!(rt; lends(alloc, &jobs, &one, &[(1, 2), (2, 1)])?);
    assert!(rt; lends(alloc, &jobs, &other, &[])?);
    assert!(rt; jobs.remove(2).is_some());
    assert!(rt; lends(alloc, &jobs, &one, &[(2, 1)])?);
    assert!(rt; jobs.remove(1).is_some());
    assert!(rt; lends(alloc, &jobs, &one, &[])?);
    Ok(())
}
