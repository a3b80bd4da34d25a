//! That a hall that forgets answers as one that keeps everything, for calls that are drawn.

mod begun_anew;
mod both;
mod draws;
mod one_by_one;
mod same_calls;
