//! Worked rows of a hall, and of one that is simulated. The expected values were worked out by hand.

mod hall_rows;
mod limit_rows;
mod stop_rows;
