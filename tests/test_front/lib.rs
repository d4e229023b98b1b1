//! The server and its client over a Unix socket, both ends in one process, each in a thread of its own; and what becomes of operations whose clients are gone.
#![tactic(auto)]

#[cfg(test)]
mod abandoned;
#[cfg(test)]
mod fakes;
#[cfg(test)]
mod gone;
#[cfg(test)]
mod holder;
#[cfg(test)]
mod lines;
#[cfg(test)]
mod most_gone;
#[cfg(test)]
mod peer;
#[cfg(test)]
mod server;
#[cfg(test)]
mod sockets;
#[cfg(test)]
mod steps;
#[cfg(test)]
mod talks;
#[cfg(test)]
mod two_drained;
