//! Workers that carry operations on, each in a thread of its own, and connections that attach, detach, unload and dismount beside them. Each test is bounded
//! in turns, and so in time. Beside them are rows of many steps, lists that other drivers play too, schedules by seed and by path, and rounds of random work.
#![tactic(auto)]

#[cfg(test)]
mod counts;
#[cfg(test)]
mod drained_turn;
#[cfg(test)]
mod ends;
#[cfg(test)]
mod fixture;
#[cfg(test)]
mod full_note;
#[cfg(test)]
mod full_queue;
#[cfg(test)]
mod hands;
#[cfg(test)]
mod held_beside;
#[cfg(test)]
mod holds;
#[cfg(test)]
mod in_flight;
#[cfg(test)]
mod keeper;
#[cfg(test)]
mod one_by_one;
#[cfg(test)]
mod one_place;
#[cfg(test)]
mod order_tests;
#[cfg(test)]
mod own_io;
#[cfg(test)]
mod own_turn;
#[cfg(test)]
mod put_aside;
#[cfg(test)]
mod random_lists;
#[cfg(test)]
mod same_worker;
#[cfg(test)]
mod schedules;
#[cfg(test)]
mod shifted;
#[cfg(test)]
mod side_by_side;
#[cfg(test)]
mod stress;
#[cfg(test)]
mod teardown_race;
#[cfg(test)]
mod teardown_schedules;
#[cfg(test)]
mod three_aside;
#[cfg(test)]
mod ties;
#[cfg(test)]
mod unlocked;
#[cfg(test)]
mod work_items;
