//! A teardown in the middle of reads that two workers carry on.

ghost use Rattle.std.specs.Prelude.{◌≡◌};
ghost use Rattle.fm_lock.specs.Blanks.{IsBlankOf};

use crate::fixture::{
    Folder, MemoryWorker, Numbers, Workers, alone, attach, begin, create, end, folder, hands_of,
    make_workers, mounted, on_file, read,
};
use fm_callback_data::FileRequest;
use fm_lock::{Hand, Manager};
use fm_queue::JobQueue;
use fm_samples::{Carry, Meter, Sample};
use fm_types::limits::PARTS;
use fm_types::{FilterId, InstanceId, Name, OpId, Status};
use fm_worker::{CallbackHook, NoHook};
use std::alloc::Global;
use std::marker::Brand;
use std::sync::Wait;
use std::sync::ledger::{Blank, Ledger};
use std::thread;
use std::thread::Threads;
use std::time::Clock;

/// How often a teardown races.
const ROUNDS: u32 = 50;

/// How many reads are begun before it, and after it.
const READS: usize = 10;

/// That of a client or of a worker.
type OpenWorker<'a, L, R> = MemoryWorker<'a, Sample, L, R, NoHook>;

/// Begins so many reads.
pub fn begin_reads<L: Ledger, R: Wait, G: CallbackHook>(
    rt: &R,
    manager: &Manager<Sample, L>,
    client: &mut MemoryWorker<'_, Sample, L, R, G>,
    begun: &mut Vec<OpId>,
    reads: usize,
) -> Result<(), Status> {
    for _ in 0..reads {
        begun.push(begin(rt, manager, client, read(0, 0))?)?;
    }
    Ok(())
}

/// The teardown of both instances, as far as it goes now.
pub fn tear_down<L: Ledger, R: Wait, G: CallbackHook>(
    client: &mut MemoryWorker<'_, Sample, L, R, G>,
) {
    let _ = client.detach(InstanceId(0));
    let _ = client.detach(InstanceId(1));
}

// Reads, the start of the teardown, more reads and the file's cleanup; then both workers end.
fn race<L: Ledger, R: Wait>(
    rt: &R,
    manager: &Manager<Sample, L>,
    client: &mut OpenWorker<'_, L, R>,
    begun: &mut Vec<OpId>,
) -> Result<(), Status> {
    begin_reads(rt, manager, client, begun, READS)?;
    tear_down(client);
    begin_reads(rt, manager, client, begun, READS)?;
    begun.push(begin(rt, manager, client, on_file(FileRequest::Cleanup))?)?;
    Ok(())
}

fn race_two<L: Ledger, R: Wait>(
    rt: &R,
    manager: &Manager<Sample, L>,
    client: &mut OpenWorker<'_, L, R>,
    begun: &mut Vec<OpId>,
) -> Result<(), Status> {
    let raced = race(rt, manager, client, begun);
    client.stop_worker();
    client.stop_worker();
    raced
}

/// All answers are collected, the file is closed, and the rest of both teardowns and both unloads follow.
pub fn leave<L: Ledger, R: Wait + Clock, G: CallbackHook>(
    rt: &R,
    manager: &Manager<Sample, L>,
    client: &mut MemoryWorker<'_, Sample, L, R, G>,
    begun: Vec<OpId>,
) -> Result<(), Status> {
    for operation in begun {
        alone(rt, manager, client, operation)?;
    }
    let close = manager.begin(rt, on_file(FileRequest::Close))?;
    alone(rt, manager, client, close)?;
    tear_down(client);
    client.unload(FilterId(0))?;
    client.unload(FilterId(1))
}

/// Two filters with contexts.
pub fn filters(alloc: Global) -> Result<Vec<(Name, Sample)>, Status> {
    let mut filters = Vec::new(alloc);
    filters.push((Name::read(b"carry")?, Sample::Carry(Carry::new(alloc))))?;
    filters.push((Name::read(b"meter")?, Sample::Meter(Meter::new(alloc))))?;
    Ok(filters)
}

/// Both instances, and a file that was read once, so that there are contexts before the race.
pub fn open<L: Ledger, R: Wait + Clock, G: CallbackHook>(
    rt: &R,
    alloc: Global,
    manager: &Manager<Sample, L>,
    client: &mut MemoryWorker<'_, Sample, L, R, G>,
) -> Result<(), Status> {
    attach(client, b"carry", b"200")?;
    attach(client, b"meter", b"100")?;
    let creating = manager.begin(rt, create(alloc, b"x")?)?;
    alone(rt, manager, client, creating)?;
    let reading = manager.begin(rt, read(0, 0))?;
    alone(rt, manager, client, reading)?;
    Ok(())
}

// The race, with both workers in threads of their own, and then the rest: the hands of all three.
fn race_and_leave<L: Ledger + Send + Sync, R: Threads + Wait + Clock + Sync>(
    rt: &R,
    alloc: Global,
    manager: &Manager<Sample, L>,
    workers: Workers<'_, Sample, L, R, NoHook, Folder>,
) -> Result<Vec<Hand<L>>, Status> {
    let Workers {
        mut client,
        mut first,
        mut second,
    } = workers;
    open(rt, alloc, manager, &mut client)?;
    let mut begun = Vec::with_capacity(alloc, 2 * READS + 1)?;
    let (raced, _) = thread::join(
        rt,
        || race_two(rt, manager, &mut client, &mut begun),
        || thread::join(rt, || first.work(), || second.work()),
    );
    raced?;
    leave(rt, manager, &mut client, begun)?;
    hands_of(alloc, client, first, second)
}

fn racing_round<L: Ledger + Send + Sync, R: Threads + Wait + Clock + Sync>(
    rt: &R,
    alloc: Global,
    blank: Blank,
) -> Result<Numbers, Status>
    requires blank { IsBlankOf blank.name blank.parts L.name L.parts }
{
    let manager = mounted::<Sample, L, R>(rt, alloc, filters(alloc)?, blank)?;
    let (queue, mut passes) = JobQueue::new(alloc, 272, 6)?;
    let gate = NoHook;
    let below = folder(alloc)?;
    let workers = make_workers(rt, alloc, &manager, &queue, &gate, &mut passes, below)?;
    let hands = race_and_leave(rt, alloc, &manager, workers)?;
    end(manager, hands)
}

#[test]
fn teardown_race(rt: HostRuntime) {
    for _ in 0..ROUNDS {
        let seen = racing_round::<Brand, _>(&rt, rt.alloc(), Blank::new(PARTS));
        assert!(rt;
            matches!(seen, Ok(Numbers { born, cleaned, leaks: 0 }) if born == cleaned && born > 0)
        );
    }
}
