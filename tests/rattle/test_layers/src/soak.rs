//! That a hall that forgets serves two hundred sessions for ten minutes of its clock, and keeps few slots.

mod cluster;
mod crowd;
mod draws;
mod jobs;
mod session;
mod soak;
