//! Two hundred sessions for two minutes at a hall that forgets, of one node, and of three that lose letters.
use crate::soak::crowd::Crowd;
use crate::soak::jobs::Place;
use std::alloc::Global;
use std::test::Fail;

/// So many seconds the sessions work.
const SECONDS: u32 = 120;

/// So many of the slots that were performed are kept at most, once a second is over.
const MOST_KEPT: u64 = 128;

/// What happened in all seconds.
#[derive(Debug, Drop)]
struct Soaked {
    /// How many commands were handed in.
    submitted: u64,
    /// How many jobs the sessions deleted.
    deleted: u64,
    /// How many jobs the last session reserved.
    gathered: u64,
    /// How many sessions left.
    left: u32,
    lost: u64,
    repeated: u64,
    /// The most slots that were kept once a second was over.
    kept: u64,
}

/// Sessions work at so many nodes, and after each second the hall keeps few slots, and nothing of those that left. Then
/// the last one reserves all jobs that weren't deleted.
fn soak(alloc: Global, nodes: u8, seed: u64) -> Result<Soaked, Fail> {
    let mut crowd = Crowd::new(alloc, nodes, seed)?;
    let kept = most_kept(&mut crowd)?;
    let left = crowd.left();
    crowd.end()?;
    let last = crowd.gather_jobs()?;
    let soaked = Soaked {
        submitted: crowd.cluster.submitted(),
        deleted: crowd.jobs.count(Place::Deleted),
        gathered: crowd.jobs.count(Place::Held(last)),
        left,
        lost: crowd.cluster.lost(),
        repeated: crowd.cluster.repeated(),
        kept,
    };
    if soaked.deleted.saturating_add(soaked.gathered) != crowd.jobs.len() {
        return Err("a job is lost".into());
    }
    Ok(soaked)
}

/// The sessions work in all seconds, and the hall forgets at the end of each. The most slots that it kept then.
fn most_kept(crowd: &mut Crowd) -> Result<u64, Fail> {
    let mut most = 0u64;
    for second in 0..SECONDS {
        crowd.work()?;
        let kept = crowd.cluster.forget();
        if kept > MOST_KEPT {
            return Err(Fail::new(format_args!("{kept} slots are kept after second {second}")));
        }
        if !crowd.is_kept_alone() {
            return Err("a session is kept that left".into());
        }
        most = most.max(kept);
    }
    Ok(most)
}

#[test]
fn one_node(rt: HostRuntime) -> Result<(), Fail> {
    let soaked = soak(rt.alloc(), 1, 1)?;
    assert!(rt; soaked.deleted > 600 && soaked.gathered > 30, "{soaked:?}");
    assert!(rt; soaked.left > 60, "{soaked:?}");
    Ok(())
}

#[test]
fn three_nodes_that_lose_letters(rt: HostRuntime) -> Result<(), Fail> {
    let soaked = soak(rt.alloc(), 3, 2)?;
    assert!(rt; soaked.deleted > 600 && soaked.gathered > 30, "{soaked:?}");
    assert!(rt; soaked.left > 60, "{soaked:?}");
    assert!(rt; soaked.lost > 60 && soaked.repeated > 200, "{soaked:?}");
    Ok(())
}
