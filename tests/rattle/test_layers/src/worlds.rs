//! Worked rows of worlds: runs that a seed draws, restarts, and ways out. The expected values were worked out by hand.

mod always_rows;
mod limit_rows;
mod rescue_rows;
mod restart_rows;
mod schedule_rows;
mod world_rows;
