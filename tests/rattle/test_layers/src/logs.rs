//! Logs on disks that fail, from readers that break off, and in files. The expected texts were worked out by hand.

mod disk;
mod file_rows;
mod lock_rows;
mod read_rows;
mod text;
mod write_rows;
