//! What a manager knows of its hands: which of their workers take jobs, and what a wait of no time is told.

ghost use Rattle.std.specs.Prelude.{◌≡◌};
ghost use Rattle.fm_lock.specs.Blanks.{IsBlankOf};

use crate::fixture::{begin, create, mounted, new_worker};
use crate::same_worker::{Watch, filters};
use crate::ties::Ties;
use fm_queue::JobQueue;
use fm_types::limits::PARTS;
use fm_types::{Status, WorkerId};
use std::alloc::Global;
use std::marker::Brand;
use std::sync::Wait;
use std::sync::ledger::{Blank, Ledger};
use std::time::{Clock, Duration};

/// How many hands there are: more than a word of 32 bits has places.
const HANDS: u8 = 40;

// Which workers take jobs, of as many as there are hands, once the second one says so.
fn takers<L: Ledger, R: Wait>(rt: &R, alloc: Global, blank: Blank) -> Result<Vec<u8>, Status>
    requires blank { IsBlankOf blank.name blank.parts L.name L.parts }
{
    let manager = mounted::<Ties, L, R>(rt, alloc, filters(alloc)?, blank)?;
    let mut hands = Vec::new(alloc);
    for _ in 0..HANDS {
        hands.push(manager.hire(rt)?)?;
    }
    if let Some(hand) = hands.get(1) {
        manager.takes_jobs(hand);
    }
    let mut taking = Vec::new(alloc);
    for at in 0..HANDS {
        if manager.is_taking_jobs(WorkerId(at)) {
            taking.push(at)?;
        }
    }
    Ok(taking)
}

#[test]
fn one_of_forty_takes_jobs(rt: HostRuntime) {
    match takers::<Brand, _>(&rt, rt.alloc(), Blank::new(PARTS)) {
        Ok(taking) => assert!(rt; taking.as_slice() == [1].as_slice()),
        Err(_) => assert!(rt; false),
    }
}

// What a client is told that waits for no time: of a create that it has carried on itself.
fn told_at_once<L: Ledger, R: Wait + Clock>(
    rt: &R,
    alloc: Global,
    blank: Blank,
) -> Result<Option<Status>, Status>
    requires blank { IsBlankOf blank.name blank.parts L.name L.parts }
{
    let manager = mounted::<Ties, L, R>(rt, alloc, filters(alloc)?, blank)?;
    let (queue, mut passes) = JobQueue::new(alloc, 1, 2)?;
    let hook = Watch::new();
    let mut client = new_worker(rt, alloc, &manager, &queue, &hook, &mut passes)?;
    client.stop_worker();
    let creating = begin(rt, &manager, &mut client, create(alloc, b"x")?)?;
    match client.wait_for(creating, Duration::from_millis(0))? {
        Some(answer) => Ok(Some(answer.status)),
        None => Ok(None),
    }
}

#[test]
fn a_wait_of_no_time_asks_once(rt: HostRuntime) {
    let told = told_at_once::<Brand, _>(&rt, rt.alloc(), Blank::new(PARTS));
    assert!(rt; matches!(told, Ok(Some(Status::Success))));
}
