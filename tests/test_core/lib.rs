//! What no stored script can say of the manager: lists of events with what each is told, an operation through instances that change what is written, limits,
//! and refused memory. Stored scripts stand in the crate `examples`, what none of them can say of a script in `test_script`, and the tests of the crates that
//! stand alone in `test_leaves`.
#![tactic(auto)]

#[cfg(test)]
mod context_tests;
#[cfg(test)]
mod create_lists;
#[cfg(test)]
mod events;
#[cfg(test)]
mod hold_lists;
#[cfg(test)]
mod lines;
#[cfg(test)]
mod list_tests;
#[cfg(test)]
mod memory_tests;
#[cfg(test)]
mod operation_tests;
#[cfg(test)]
mod seen_tests;
#[cfg(test)]
mod teardown_lists;
#[cfg(test)]
mod told;
