//! Worked rows of keys, nodes and their parts, case by case. The expected values were worked out by hand.

mod command_rows;
mod leader_rows;
mod limit_rows;
mod network_rows;
mod node_rows;
mod recorder_rows;
mod replica_rows;
mod slot_rows;
mod weight_rows;
