//! Hosts at a register, over a network that loses, repeats and reorders: worked courses, and drawn ones.
#![tactic(auto)]

#[cfg(test)]
mod clients;
#[cfg(test)]
mod coming_back;
#[cfg(test)]
mod course;
#[cfg(test)]
mod courses;
#[cfg(test)]
mod disk;
#[cfg(test)]
mod draws;
#[cfg(test)]
mod events;
#[cfg(test)]
mod kinds;
#[cfg(test)]
mod order;
#[cfg(test)]
mod post;
#[cfg(test)]
mod process;
#[cfg(test)]
mod seat;
#[cfg(test)]
mod three_hosts;
