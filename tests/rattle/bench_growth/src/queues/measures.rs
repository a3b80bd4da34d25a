//! What is measured. Each writes a line before and after what is timed.

use super::clients::Clients;
use super::marks::Marks;
use bean_words::{Op, Reply};

/// The tubes that have the jobs, by their letters. The session that puts into a tube has its letter's number.
const TUBES: [u8; 10] = [b'a', b'b', b'c', b'd', b'e', b'f', b'g', b'h', b'i', b'j'];

/// The tubes on which others wait.
const OTHER_TUBES: [u8; 10] = [b'A', b'B', b'C', b'D', b'E', b'F', b'G', b'H', b'I', b'J'];

/// The session that reserves.
const WORKER: u32 = 1;

/// The sessions that wait on the other tubes stand between these numbers.
const FIRST_WAITING: u32 = 1_000;

const END_OF_WAITING: u32 = 2_000;

/// So many tubes beside these have a job each, which a session of its own has put, or are watched by one session.
const MORE_TUBES: u32 = 1_000;

const PUTTER: u32 = 2;

/// In so many seconds all jobs that are released are ready.
const SECONDS: u32 = 100;

/// So often the tubes are listed, and a tube is paused.
const LISTS: u32 = 1_000;

/// So many sessions have a job each that is due soon. The first has this number.
const FIRST_HOLDER: u32 = 100;

const HOLDERS: u32 = 65;

/// The numbered tubes that are watched at first, and those that are watched in the end.
const FEW_NUMBERED: u32 = 256;

const ALL_NUMBERED: u32 = 1_000;

/// So often a job is touched in each second.
const TOUCHES: u32 = 1_000;

/// So many jobs, in tens, are put into ten tubes, and then reserved and deleted one after another, while others wait.
/// Before them so many ids were given.
pub fn serve(
    rt: &HostRuntime,
    marks: Marks,
    clients: &mut Clients,
    jobs: u32,
    given: u64,
) -> Option<()> {
    let_others_wait(clients)?;
    for letter in TUBES {
        clients.use_tube(u32::from(letter), letter)?;
        clients.watch(WORKER, letter)?;
    }
    marks.tell(rt, "waiting")?;
    let tens = jobs / 10;
    put_tens(clients, tens)?;
    marks.tell(rt, "put")?;
    for job in 0..u64::from(tens) * 10 {
        clients.reserve(WORKER)?;
        let id = given.checked_add(job)?.checked_add(1)?;
        clients.delete(WORKER, id)?;
    }
    marks.tell(rt, "deleted")
}

/// The same, while a thousand tubes more have a job each, and are paused where that is asked for.
pub fn serve_beside(
    rt: &HostRuntime,
    marks: Marks,
    clients: &mut Clients,
    jobs: u32,
    are_paused: bool,
) -> Option<()> {
    for number in 0..MORE_TUBES {
        clients.put_into_other(PUTTER, number)?;
        if are_paused {
            clients.pause_other(PUTTER, number)?;
        }
    }
    serve(rt, marks, clients, jobs, u64::from(MORE_TUBES))
}

/// So many jobs that one session has are released with a delay, and then time goes on until all are ready.
pub fn release(rt: &HostRuntime, marks: Marks, clients: &mut Clients, jobs: u32) -> Option<()> {
    hold(clients, jobs)?;
    marks.tell(rt, "held")?;
    for job in 0..jobs {
        let release = Op::Release {
            id: u64::from(job) + 1,
            pri: 0,
            delay: job % SECONDS + 1,
        };
        clients.ask(WORKER, release)?;
        clients.expect(&Reply::Released)?;
    }
    marks.tell(rt, "released")?;
    for second in 0..u64::from(SECONDS) {
        clients.tick(second + 1)?;
    }
    marks.tell(rt, "ready")
}

/// One of so many jobs that one session has is touched again and again, while time goes on.
pub fn touch(rt: &HostRuntime, marks: Marks, clients: &mut Clients, jobs: u32) -> Option<()> {
    hold(clients, jobs)?;
    marks.tell(rt, "held")?;
    let id = u64::from(jobs / 2) + 1;
    for second in 0..u64::from(SECONDS) {
        clients.tick(second + 1)?;
        for _ in 0..TOUCHES {
            clients.ask(WORKER, Op::Touch(id))?;
            clients.expect(&Reply::Touched)?;
        }
    }
    marks.tell(rt, "touched")
}

/// One session watches a thousand tubes more, reserves a job of the last of them, and then ignores each again. It is told
/// each time how many it watches; one of them is the default tube.
pub fn watch(rt: &HostRuntime, marks: Marks, clients: &mut Clients) -> Option<()> {
    for number in 0..MORE_TUBES {
        clients.watch_other(WORKER, number)?;
        clients.expect(&Reply::Watching(u64::from(number) + 2))?;
    }
    marks.tell(rt, "watched")?;
    clients.put_into_other(PUTTER, MORE_TUBES - 1)?;
    clients.reserve(WORKER)?;
    clients.expect_job(1)?;
    for number in 0..MORE_TUBES {
        clients.ignore_other(WORKER, number)?;
        clients.expect(&Reply::Watching(u64::from(MORE_TUBES - number)))?;
    }
    marks.tell(rt, "ignored")
}

/// One session watches so many tubes, and puts, reserves and deletes a job again and again, a tenth of so many.
pub fn serve_watching(
    rt: &HostRuntime,
    marks: Marks,
    clients: &mut Clients,
    jobs: u32,
    more_tubes: u32,
) -> Option<()> {
    watch_others(clients, more_tubes)?;
    marks.tell(rt, "watched")?;
    serve_itself(clients, jobs / 10)?;
    marks.tell(rt, "served")
}

/// So many jobs, in tens, are put into ten tubes, and then the tubes are listed, and one is paused for no second, again
/// and again.
pub fn list(rt: &HostRuntime, marks: Marks, clients: &mut Clients, jobs: u32) -> Option<()> {
    use_tubes(clients)?;
    put_tens(clients, jobs / 10)?;
    marks.tell(rt, "filled")?;
    list_often(rt, marks, clients)?;
    pause_often(rt, marks, clients)
}

// By their bytes `default` stands after `d` and before `e`.
fn list_often(rt: &HostRuntime, marks: Marks, clients: &mut Clients) -> Option<()> {
    for _ in 0..LISTS {
        clients.list_letters(WORKER, b"abcd", b"efghij")?;
    }
    marks.tell(rt, "listed")
}

fn pause_often(rt: &HostRuntime, marks: Marks, clients: &mut Clients) -> Option<()> {
    for _ in 0..LISTS {
        clients.end_pause(WORKER, b'j')?;
    }
    marks.tell(rt, "paused")
}

/// One session watches 256 tubes more and lists them, and then 1,000 more than the first, and lists all tubes.
pub fn names(rt: &HostRuntime, marks: Marks, clients: &mut Clients) -> Option<()> {
    list_watched(clients)?;
    marks.tell(rt, "few")?;
    list_all(clients)?;
    marks.tell(rt, "all")
}

fn list_watched(clients: &mut Clients) -> Option<()> {
    watch_numbered(clients, 0, FEW_NUMBERED)?;
    clients.ask(WORKER, Op::ListTubesWatched)?;
    clients.expect_numbered(FEW_NUMBERED)
}

fn list_all(clients: &mut Clients) -> Option<()> {
    watch_numbered(clients, FEW_NUMBERED, ALL_NUMBERED)?;
    clients.ask(WORKER, Op::ListTubes)?;
    clients.expect_numbered(ALL_NUMBERED)
}

/// Some sessions have a job each for ten seconds, and wait for another: a second before those are over all are told so.
pub fn deadlines(rt: &HostRuntime, marks: Marks, clients: &mut Clients) -> Option<()> {
    hold_for_ten(clients)?;
    wait_for_another(clients)?;
    tell_deadlines(clients)?;
    marks.tell(rt, "told")
}

// Each of some sessions has a job for ten seconds.
fn hold_for_ten(clients: &mut Clients) -> Option<()> {
    for session in FIRST_HOLDER..FIRST_HOLDER + HOLDERS {
        clients.put_for(session, 10)?;
        clients.reserve(session)?;
    }
    Some(())
}

fn wait_for_another(clients: &mut Clients) -> Option<()> {
    for session in FIRST_HOLDER..FIRST_HOLDER + HOLDERS {
        clients.reserve(session)?;
    }
    Some(())
}

// Nobody is told after eight seconds, and all after nine.
fn tell_deadlines(clients: &mut Clients) -> Option<()> {
    clients.tick(8)?;
    clients.expect_deadlines(FIRST_HOLDER, 0)?;
    clients.tick(9)?;
    clients.expect_deadlines(FIRST_HOLDER, HOLDERS as usize)
}

// The sessions of the ten tubes use these.
fn use_tubes(clients: &mut Clients) -> Option<()> {
    for letter in TUBES {
        clients.use_tube(u32::from(letter), letter)?;
    }
    Some(())
}

// So many jobs are put into each of the ten tubes.
fn put_tens(clients: &mut Clients, tens: u32) -> Option<()> {
    for _ in 0..tens {
        put_ten(clients)?;
    }
    Some(())
}

fn put_ten(clients: &mut Clients) -> Option<()> {
    for letter in TUBES {
        clients.put(u32::from(letter))?;
    }
    Some(())
}

// One session watches so many tubes more.
fn watch_others(clients: &mut Clients, more_tubes: u32) -> Option<()> {
    for number in 0..more_tubes {
        clients.watch_other(WORKER, number)?;
    }
    Some(())
}

// One session watches the numbered tubes from the first number on and below the end.
fn watch_numbered(clients: &mut Clients, first: u32, end: u32) -> Option<()> {
    for number in first..end {
        clients.watch_numbered(WORKER, number)?;
    }
    Some(())
}

// One session puts so many jobs, each of which it reserves and deletes before the next one.
fn serve_itself(clients: &mut Clients, jobs: u32) -> Option<()> {
    for job in 0..jobs {
        serve_one(clients, u64::from(job) + 1)?;
    }
    Some(())
}

fn serve_one(clients: &mut Clients, id: u64) -> Option<()> {
    clients.put_as(WORKER, id)?;
    clients.reserve_as(WORKER, id)?;
    clients.delete(WORKER, id)
}

// Some sessions wait, each on one of the other tubes.
fn let_others_wait(clients: &mut Clients) -> Option<()> {
    for session in FIRST_WAITING..END_OF_WAITING {
        let letter = OTHER_TUBES[(session % 10) as usize];
        clients.watch(session, letter)?;
        clients.ignore_default(session)?;
        clients.reserve(session)?;
    }
    Some(())
}

// One session puts so many jobs, and reserves them.
fn hold(clients: &mut Clients, jobs: u32) -> Option<()> {
    for _ in 0..jobs {
        clients.put(WORKER)?;
        clients.reserve(WORKER)?;
    }
    Some(())
}
