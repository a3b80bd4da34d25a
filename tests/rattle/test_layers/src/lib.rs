//! Worked rows and drawn courses of the layers inside the program. The expected values were worked out by hand.
#![tactic(auto)]

#[cfg(test)]
mod bytes;
#[cfg(test)]
mod conversations;
#[cfg(test)]
mod halls;
#[cfg(test)]
mod logs;
#[cfg(test)]
mod nodes;
#[cfg(test)]
mod queues;
#[cfg(test)]
mod soak;
#[cfg(test)]
mod threads;
#[cfg(test)]
mod two_halls;
#[cfg(test)]
mod worlds;
