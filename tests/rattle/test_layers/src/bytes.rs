//! Sessions over streams of bytes. The expected values were worked out by hand.

mod break_rows;
mod echo;
mod lent_rows;
mod limit_rows;
mod served_rows;
mod session_rows;
mod stream_rows;
