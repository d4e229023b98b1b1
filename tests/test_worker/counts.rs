//! What workers' callbacks count.

ghost use Rattle.std.specs.Prelude.{◌≡◌};
ghost use Rattle.fm_lock.specs.Blanks.{IsBlankOf};

use crate::fixture::{
    LOOKS, MemoryWorker, Numbers, Workers, attach, begin, collect, create, end, folder, hands_of,
    make_workers, mounted, on_file, read,
};
use fm_callback_data::FileRequest;
use fm_lock::Manager;
use fm_queue::JobQueue;
use fm_samples::{Meter, Sample};
use fm_types::limits::PARTS;
use fm_types::{FilterId, Name, OpId, Status};
use fm_worker::NoHook;
use std::alloc::Global;
use std::marker::Brand;
use std::sync::Wait;
use std::sync::ledger::{Blank, Ledger};
use std::thread;
use std::thread::Threads;
use std::time::{Clock, Duration};

/// How many reads there are.
const READS: usize = 100;

/// That of a client or of a worker.
type OpenWorker<'a, L, R> = MemoryWorker<'a, Sample, L, R, NoHook>;

fn meter(alloc: Global) -> Result<Vec<(Name, Sample)>, Status> {
    let mut filters = Vec::new(alloc);
    filters.push((Name::read(b"meter")?, Sample::Meter(Meter::new(alloc))))?;
    Ok(filters)
}

// The reads, all under way at once, and then the answers of all.
fn read_all<L: Ledger, R: Wait + Clock>(
    rt: &R,
    alloc: Global,
    manager: &Manager<Sample, L>,
    client: &mut OpenWorker<'_, L, R>,
) -> Result<(), Status> {
    let mut reads: Vec<OpId> = Vec::with_capacity(alloc, READS)?;
    for _ in 0..READS {
        reads.push(begin(rt, manager, client, read(0, 0))?)?;
    }
    for operation in reads {
        collect(rt, manager, operation)?;
    }
    Ok(())
}

// Unloads the filter. The worker that carried the close on may still clean up after it, and till then this is refused with 34.
fn unload<L: Ledger, R: Wait + Clock>(
    rt: &R,
    client: &mut OpenWorker<'_, L, R>,
) -> Result<(), Status> {
    for _ in 0..LOOKS {
        match client.unload(FilterId(0)) {
            Err(Status::Busy(_)) => thread::sleep(rt, Duration::from_millis(1)),
            ended => return ended,
        }
    }
    Err(Status::WrongStep)
}

// A file is created and read, closed, and its filter is unloaded: what the filter has counted.
fn ask<L: Ledger, R: Wait + Clock>(
    rt: &R,
    alloc: Global,
    manager: &Manager<Sample, L>,
    client: &mut OpenWorker<'_, L, R>,
) -> Result<u64, Status> {
    attach(client, b"meter", b"100")?;
    client.answer(create(alloc, b"x")?)?;
    read_all(rt, alloc, manager, client)?;
    client.answer(on_file(FileRequest::Cleanup))?;
    client.answer(on_file(FileRequest::Close))?;
    unload(rt, client)?;
    Ok(manager.total(rt, FilterId(0)))
}

// The client asks, and then has both workers end.
fn ask_two<L: Ledger, R: Wait + Clock>(
    rt: &R,
    alloc: Global,
    manager: &Manager<Sample, L>,
    client: &mut OpenWorker<'_, L, R>,
) -> Result<u64, Status> {
    let counted = ask(rt, alloc, manager, client);
    client.stop_worker();
    client.stop_worker();
    counted
}

fn meter_day<L: Ledger + Send + Sync, R: Threads + Wait + Clock + Sync>(
    rt: &R,
    alloc: Global,
    blank: Blank,
) -> Result<(u64, Numbers), Status>
    requires blank { IsBlankOf blank.name blank.parts L.name L.parts }
{
    let manager = mounted::<Sample, L, R>(rt, alloc, meter(alloc)?, blank)?;
    let (queue, mut passes) = JobQueue::new(alloc, 272, 6)?;
    let hook = NoHook;
    let below = folder(alloc)?;
    let Workers {
        mut client,
        mut first,
        mut second,
    } = make_workers(rt, alloc, &manager, &queue, &hook, &mut passes, below)?;
    let (counted, _) = thread::join(
        rt,
        || ask_two(rt, alloc, &manager, &mut client),
        || thread::join(rt, || first.work(), || second.work()),
    );
    let hands = hands_of(alloc, client, first, second)?;
    Ok((counted?, end(manager, hands)?))
}

#[test]
fn meter_total(rt: HostRuntime) {
    let seen = meter_day::<Brand, _>(&rt, rt.alloc(), Blank::new(PARTS));
    assert!(rt;
        matches!(seen, Ok((100, Numbers { born, cleaned, leaks: 0 })) if born == cleaned && born > 0)
    );
}
