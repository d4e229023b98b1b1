//! Lists of requests through the one-thread manager with the sample filters, each with what it is answered.
#![tactic(auto)]

#[cfg(test)]
mod about_tests;
#[cfg(test)]
mod asked;
#[cfg(test)]
mod binding_tests;
#[cfg(test)]
mod binds;
#[cfg(test)]
mod careless;
#[cfg(test)]
mod careless_tests;
#[cfg(test)]
mod declines;
#[cfg(test)]
mod forgets;
#[cfg(test)]
mod memory_tests;
#[cfg(test)]
mod order_tests;
#[cfg(test)]
mod own_filter_rows;
#[cfg(test)]
mod random_lists;
#[cfg(test)]
mod report_tests;
#[cfg(test)]
mod sample_tests;
#[cfg(test)]
mod samples;
#[cfg(test)]
mod says_about;
#[cfg(test)]
mod steps;
#[cfg(test)]
mod teardown_tests;
#[cfg(test)]
mod tells_apart;
#[cfg(test)]
mod two_drained;
