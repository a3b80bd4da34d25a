//! Worked rows of jobs, of their histories and of the counts of tubes, and both queues side by side. The expected values were
//! worked out by hand.

mod history_rows;
mod job_rows;
mod queue_draws;
mod tube_rows;
