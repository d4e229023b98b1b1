//! What a detach does with operations that its filter holds.

ghost use Rattle.std.specs.Prelude.{◌≡◌};
ghost use Rattle.fm_lock.specs.Blanks.{IsBlankOf};

use crate::fixture::{
    MemoryWorker, Numbers, Workers, attach, begin, carried, collect, create, end, folder, hands_of,
    make_workers, mounted, on_file, read, work_off,
};
use fm_callback_data::FileRequest;
use fm_lock::Manager;
use fm_queue::JobQueue;
use fm_samples::{Hold, Sample};
use fm_types::limits::PARTS;
use fm_types::{FilterId, InstanceId, Name, Status};
use fm_worker::NoHook;
use std::alloc::Global;
use std::marker::Brand;
use std::sync::Wait;
use std::sync::ledger::{Blank, Ledger};
use std::time::Clock;

/// That of a client or of a worker.
type OpenWorker<'a, L, R> = MemoryWorker<'a, Sample, L, R, NoHook>;

fn hold(alloc: Global) -> Result<Vec<(Name, Sample)>, Status> {
    let mut filters = Vec::new(alloc);
    filters.push((Name::read(b"hold")?, Sample::Hold(Hold)))?;
    Ok(filters)
}

/// Whether a read is done when its worker has ended, and when the detach has ended; and what it is answered.
#[derive(Clone, Copy)]
struct Resumed {
    held: Option<bool>,
    queued: Option<bool>,
    status: Status,
}

// A read is held, and its worker has ended. The detach resumes it, which makes a job of it, and the worker carries it on.
fn hold_and_detach<L: Ledger, R: Wait + Clock>(
    rt: &R,
    alloc: Global,
    manager: &Manager<Sample, L>,
    client: &mut OpenWorker<'_, L, R>,
    worker: &mut OpenWorker<'_, L, R>,
) -> Result<Resumed, Status> {
    attach(client, b"hold", b"100")?;
    carried(rt, manager, client, worker, create(alloc, b"x")?)?;
    let reading = begin(rt, manager, client, read(0, 0))?;
    work_off(client, worker);
    let held = manager.is_done(rt, reading);
    client.detach(InstanceId(0))?;
    let queued = manager.is_done(rt, reading);
    work_off(client, worker);
    Ok(Resumed {
        held,
        queued,
        status: collect(rt, manager, reading)?.status,
    })
}

// Closes the file, and unloads the filter.
fn leave<L: Ledger, R: Wait + Clock>(
    rt: &R,
    manager: &Manager<Sample, L>,
    client: &mut OpenWorker<'_, L, R>,
    worker: &mut OpenWorker<'_, L, R>,
) -> Result<(), Status> {
    carried(rt, manager, client, worker, on_file(FileRequest::Cleanup))?;
    carried(rt, manager, client, worker, on_file(FileRequest::Close))?;
    client.unload(FilterId(0))
}

fn holding_day<L: Ledger, R: Wait + Clock>(
    rt: &R,
    alloc: Global,
    blank: Blank,
) -> Result<(Resumed, Numbers), Status>
    requires blank { IsBlankOf blank.name blank.parts L.name L.parts }
{
    let manager = mounted::<Sample, L, R>(rt, alloc, hold(alloc)?, blank)?;
    let (queue, mut passes) = JobQueue::new(alloc, 272, 6)?;
    let gate = NoHook;
    let below = folder(alloc)?;
    let Workers {
        mut client,
        mut first,
        second,
    } = make_workers(rt, alloc, &manager, &queue, &gate, &mut passes, below)?;
    let seen = hold_and_detach(rt, alloc, &manager, &mut client, &mut first)?;
    leave(rt, &manager, &mut client, &mut first)?;
    let hands = hands_of(alloc, client, first, second)?;
    Ok((seen, end(manager, hands)?))
}

#[test]
fn detach_resumes(rt: HostRuntime) {
    let seen = holding_day::<Brand, _>(&rt, rt.alloc(), Blank::new(PARTS));
    assert!(rt;
        matches!(
            seen,
            Ok((
                Resumed {
                    held: Some(false),
                    queued: Some(false),
                    status: Status::Success
                },
                Numbers {
                    born: 0,
                    cleaned: 0,
                    leaks: 0
                }
            ))
        )
    );
}
