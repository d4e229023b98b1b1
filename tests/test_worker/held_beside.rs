//! A read that its filter holds once the detach was asked for.

ghost use Rattle.std.specs.Prelude.{◌≡◌};
ghost use Rattle.fm_lock.specs.Blanks.{IsBlankOf};

use crate::fixture::{
    MemoryWorker, attach, carried, collect, create, mounted, new_worker, read, work_off,
};
use fm_callback_data::PreVerdict;
use fm_operations::FlowAction;
use fm_lock::Manager;
use fm_queue::JobQueue;
use fm_samples::{Hold, Sample};
use fm_types::limits::PARTS;
use fm_types::{InstanceId, Name, Status};
use fm_worker::NoHook;
use std::alloc::Global;
use std::marker::Brand;
use std::sync::Wait;
use std::sync::ledger::{Blank, Ledger};
use std::time::Clock;

/// That of a client or of a worker.
type OpenWorker<'a, L, R> = MemoryWorker<'a, Sample, L, R, NoHook>;

fn hold(alloc: Global) -> Result<Vec<(Name, Sample)>, Status> {
    let mut filters = Vec::new(alloc);
    filters.push((Name::read(b"hold")?, Sample::Hold(Hold)))?;
    Ok(filters)
}

// A read is in its preoperation when the detach is asked for, and is held after that. Whether that detach begins nothing, and the next one lets the read go.
fn hold_beside_detach<L: Ledger, R: Wait + Clock>(
    rt: &R,
    alloc: Global,
    manager: &Manager<Sample, L>,
    client: &mut OpenWorker<'_, L, R>,
    worker: &mut OpenWorker<'_, L, R>,
) -> Result<bool, Status> {
    attach(client, b"hold", b"100")?;
    carried(rt, manager, client, worker, create(alloc, b"x")?)?;
    let mut hand = manager.hire(rt)?;
    let reading = manager.begin(rt, read(0, 0))?;
    let FlowAction::Pre(_, lent) = manager.next(rt, &mut hand, reading)? else {
        return Ok(false);
    };
    let during = client.detach(InstanceId(0));
    let held = manager.pre_returned(rt, &mut hand, PreVerdict::Pending, lent);
    let after = client.detach(InstanceId(0));
    work_off(client, worker);
    let status = collect(rt, manager, reading)?.status;
    Ok(
        matches!(during, Err(Status::Busy(1)))
            && held.is_ok()
            && after.is_ok()
            && status == Status::Success
            && manager.retire(rt, hand).is_ok(),
    )
}

fn beside_day<L: Ledger, R: Wait + Clock>(
    rt: &R,
    alloc: Global,
    blank: Blank,
) -> Result<bool, Status>
    requires blank { IsBlankOf blank.name blank.parts L.name L.parts }
{
    let manager = mounted::<Sample, L, R>(rt, alloc, hold(alloc)?, blank)?;
    let (queue, mut passes) = JobQueue::new(alloc, 272, 4)?;
    let hook = NoHook;
    let mut client = new_worker(rt, alloc, &manager, &queue, &hook, &mut passes)?;
    let mut worker = new_worker(rt, alloc, &manager, &queue, &hook, &mut passes)?;
    hold_beside_detach(rt, alloc, &manager, &mut client, &mut worker)
}

#[test]
fn held_beside_a_detach(rt: HostRuntime) {
    let seen = beside_day::<Brand, _>(&rt, rt.alloc(), Blank::new(PARTS));
    assert!(rt; matches!(seen, Ok(true)));
}
