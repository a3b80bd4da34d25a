//! What goes into a tube's counts, as a table.
use std::test::Fail;
use tube_store::{TubeCounts, TubeMark};

/// How many jobs were put and deleted, how often it was paused, and for how many seconds last.
type Counts = (u64, u64, u64, u32);

fn counts_of(counts: &TubeCounts) -> Counts {
    (counts.puts, counts.deletes, counts.pauses, counts.pause)
}

/// The counts of a tube that are told as these.
fn with_counts(counts: &Counts) -> TubeCounts {
    let (puts, deletes, pauses, pause) = *counts;
    TubeCounts {
        puts,
        deletes,
        pauses,
        pause,
    }
}

/// The marks of a tube's life, and its counts after each.
static LIFE: [(TubeMark, Counts); 7] = [
    (TubeMark::Put, (1, 0, 0, 0)),
    (TubeMark::Put, (2, 0, 0, 0)),
    (TubeMark::Deleted, (2, 1, 0, 0)),
    (TubeMark::Paused { seconds: 7 }, (2, 1, 1, 7)),
    (TubeMark::Put, (3, 1, 1, 7)),
    (TubeMark::Paused { seconds: 0 }, (3, 1, 2, 0)),
    (TubeMark::Deleted, (3, 2, 2, 0)),
];

/// One below the greatest count.
const NEARLY_GREATEST: u64 = 18_446_744_073_709_551_614;

/// The greatest one.
const GREATEST: u64 = 18_446_744_073_709_551_615;

/// Counts that are one below the greatest.
static NEARLY_FULL: Counts = (NEARLY_GREATEST, NEARLY_GREATEST, NEARLY_GREATEST, 5);

/// Each mark twice, and the counts after each, which begin one below the greatest.
static FULL: [(TubeMark, Counts); 6] = [
    (
        TubeMark::Put,
        (GREATEST, NEARLY_GREATEST, NEARLY_GREATEST, 5),
    ),
    (
        TubeMark::Put,
        (GREATEST, NEARLY_GREATEST, NEARLY_GREATEST, 5),
    ),
    (TubeMark::Deleted, (GREATEST, GREATEST, NEARLY_GREATEST, 5)),
    (TubeMark::Deleted, (GREATEST, GREATEST, NEARLY_GREATEST, 5)),
    (
        TubeMark::Paused {
            seconds: 4_294_967_295,
        },
        (GREATEST, GREATEST, GREATEST, 4_294_967_295),
    ),
    (
        TubeMark::Paused { seconds: 3 },
        (GREATEST, GREATEST, GREATEST, 3),
    ),
];

/// The place of the first mark after which the counts aren't those of the table.
fn wrong_mark(begun: TubeCounts, marks: &[(TubeMark, Counts)]) -> Option<usize> {
    let mut counts = begun;
    for (place, (mark, after)) in marks.iter().enumerate() {
        counts = counts.marked(*mark);
        if counts_of(&counts) != *after {
            return Some(place);
        }
    }
    None
}

#[test]
fn a_life_is_counted(rt: HostRuntime) -> Result<(), Fail> {
    assert_eq!(rt; wrong_mark(TubeCounts::none(), &LIFE), None);
    Ok(())
}

#[test]
fn the_greatest_count_of_a_tube_stays(rt: HostRuntime) -> Result<(), Fail> {
    assert_eq!(rt; wrong_mark(with_counts(&NEARLY_FULL), &FULL), None);
    Ok(())
}
