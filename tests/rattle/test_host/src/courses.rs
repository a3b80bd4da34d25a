//! Courses of one to seven hosts, as seeds draw them: letters are lost, come again and come in any order, processes end
//! with what isn't synced, hosts are away or cut off, disks begin anew, and snapshots are handed on. All that is seen
//! comes of one order.
use crate::course::Course;
use crate::draws::Draws;
use crate::kinds::Counts;
use std::alloc::Global;
use std::test::Fail;

/// The seeds are those below this one.
const SEEDS: u64 = 300;

/// So many events are drawn from a seed.
const EVENTS: u32 = 2_000;

/// One course, after which all hosts come to the same slot.
fn run(alloc: Global, seed: u64) -> Result<Counts, Fail> {
    let mut draws = Draws::new(seed);
    let hosts = (seed % 7) as u8 + 1;
    let mut course = Course::new(alloc, hosts, seed, &mut draws)?;
    for _ in 0..EVENTS {
        course.step(&mut draws)?;
    }
    course.check()?;
    course.settle(&mut draws)?;
    course.check()?;
    Ok(course.counts)
}

#[test]
fn drawn_courses(rt: HostRuntime) -> Result<(), Fail> {
    let mut counts = Counts::new();
    for seed in 0..SEEDS {
        counts.add(&run(rt.alloc(), seed)?);
    }
    counts.tell(&rt)
}
