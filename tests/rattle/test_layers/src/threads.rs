//! Runs of a cluster over pipes, threads and all. The expected values were worked out by hand.

mod attend_rows;
mod clients;
mod clusters;
mod desk_rows;
mod faults;
mod gates;
mod held_rows;
mod leader_rows;
mod leaving_rows;
mod memory_rows;
mod mishap_rows;
mod missed_rows;
mod narrow;
mod refused_rows;
mod served_rows;
mod soak_rows;
mod still_rows;
mod weighted_rows;
