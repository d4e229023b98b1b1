//! A work item that cancels a held read, in a routine of the instance that holds it.

ghost use Rattle.std.specs.Prelude.{◌≡◌};
ghost use Rattle.fm_lock.specs.Blanks.{IsBlankOf};

use crate::fixture::{
    FILE, MemoryWorker, Numbers, Workers, attach, begin, carried, collect, create, end, folder,
    hands_of, make_workers, mounted, on_file, read, work_off,
};
use fm_callback_data::{FileRequest, PreVerdict};
use fm_filter::{Port, WorkItem};
use fm_operations::Hold as Held;
use fm_lock::Manager;
use fm_queue::JobQueue;
use fm_samples::{Hold, Sample};
use fm_types::limits::PARTS;
use fm_types::{FilterId, HandleId, InstanceId, Name, Status};
use fm_worker::NoHook;
use std::alloc::Global;
use std::marker::Brand;
use std::sync::Wait;
use std::sync::ledger::{Blank, Ledger};
use std::time::Clock;

/// That of a client or of a worker.
type OpenWorker<'a, L, R> = MemoryWorker<'a, Sample, L, R, NoHook>;

fn hold(alloc: Global) -> Result<Vec<(Name, Sample)>, Status> {
    let mut filters = Vec::new(alloc);
    filters.push((Name::read(b"hold")?, Sample::Hold(Hold)))?;
    Ok(filters)
}

// Closes the file, and unloads the filter.
fn leave<L: Ledger, R: Wait + Clock>(
    rt: &R,
    manager: &Manager<Sample, L>,
    client: &mut OpenWorker<'_, L, R>,
    worker: &mut OpenWorker<'_, L, R>,
) -> Result<(), Status> {
    carried(rt, manager, client, worker, on_file(FileRequest::Cleanup))?;
    carried(rt, manager, client, worker, on_file(FileRequest::Close))?;
    client.unload(FilterId(0))
}

/// Cancels the first read that its instance holds.
#[derive(Drop)]
struct Cancel;

impl WorkItem for Cancel {
    ghost use Rattle.std.specs.Prelude.{⊤};

    ghost works = { λ cancel old new. ⊤ };

    fn run<P: Port>(&self, port: &mut P) {
        if let Ok(Some(operation)) = port.first_held(Held::Pre) {
            let _ = port.resume_pre(operation, PreVerdict::Complete(Status::AccessDenied));
        }
    }
}

// What a work item on no instance, and on no handle, is refused with; and what a read is answered that one cancelled while it was held.
fn hold_and_cancel<L: Ledger, R: Wait + Clock>(
    rt: &R,
    alloc: Global,
    manager: &Manager<Sample, L>,
    client: &mut OpenWorker<'_, L, R>,
    worker: &mut OpenWorker<'_, L, R>,
) -> Result<[Status; 3], Status> {
    attach(client, b"hold", b"100")?;
    carried(rt, manager, client, worker, create(alloc, b"x")?)?;
    let reading = begin(rt, manager, client, read(0, 0))?;
    work_off(client, worker);
    let nowhere = refusal(client.run_work(InstanceId(1), None, &Cancel));
    let on_none = refusal(client.run_work(InstanceId(0), Some(HandleId(1)), &Cancel));
    client.run_work(InstanceId(0), Some(FILE), &Cancel)?;
    work_off(client, worker);
    Ok([nowhere, on_none, collect(rt, manager, reading)?.status])
}

fn refusal(done: Result<(), Status>) -> Status {
    match done {
        Ok(()) => Status::Success,
        Err(status) => status,
    }
}

fn cancelling_day<L: Ledger, R: Wait + Clock>(
    rt: &R,
    alloc: Global,
    blank: Blank,
) -> Result<([Status; 3], Numbers), Status>
    requires blank { IsBlankOf blank.name blank.parts L.name L.parts }
{
    let manager = mounted::<Sample, L, R>(rt, alloc, hold(alloc)?, blank)?;
    let (queue, mut passes) = JobQueue::new(alloc, 272, 6)?;
    let gate = NoHook;
    let below = folder(alloc)?;
    let Workers {
        mut client,
        mut first,
        second,
    } = make_workers(rt, alloc, &manager, &queue, &gate, &mut passes, below)?;
    let seen = hold_and_cancel(rt, alloc, &manager, &mut client, &mut first)?;
    leave(rt, &manager, &mut client, &mut first)?;
    let hands = hands_of(alloc, client, first, second)?;
    Ok((seen, end(manager, hands)?))
}

#[test]
fn a_work_item_cancels_a_held_read(rt: HostRuntime) {
    let seen = cancelling_day::<Brand, _>(&rt, rt.alloc(), Blank::new(PARTS));
    assert!(rt;
        matches!(
            seen,
            Ok((
                [Status::NoInstance, Status::NoHandle, Status::AccessDenied],
                Numbers {
                    born: 0,
                    cleaned: 0,
                    leaks: 0
                }
            ))
        )
    );
}
