//! A client that waits, in a thread of its own, for its synchronized read, which a lower instance holds and another thread lets go: its turn comes while it waits.

ghost use Rattle.std.specs.Prelude.{◌≡◌};
ghost use Rattle.fm_lock.specs.Blanks.{IsBlankOf};

use crate::fixture::{
    LOOKS, MemoryWorker, Workers, attach, begin, create, folder, make_workers, mounted, on_file,
    read, work_off,
};
use crate::same_worker::{Watch, filters};
use crate::ties::Ties;
use fm_callback_data::FileRequest;
use fm_lock::Manager;
use fm_queue::JobQueue;
use fm_types::limits::PARTS;
use fm_types::{OpId, Status, WorkerId};
use std::alloc::Global;
use std::marker::Brand;
use std::sync::Wait;
use std::sync::ledger::{Blank, Ledger};
use std::thread;
use std::thread::Threads;
use std::time::{Clock, Duration};

/// The number of the read: the create is operation 0.
const READING: OpId = OpId(1);

/// How many seconds a client waits that says for how long.
const PATIENCE: u64 = 20;

/// That of a client or of a worker.
type Own<'a, L, R> = MemoryWorker<'a, Ties, L, R, Watch>;

/// How the client waits.
#[derive(Clone, Copy)]
enum Waits {
    /// As long as it takes.
    Ever,
    /// For a time that is long enough.
    Long,
}

// The client's read: the queue is full, so it carries the read on itself, up to where it is held, and waits.
fn ask<L: Ledger, R: Wait + Clock>(
    client: &mut Own<'_, L, R>,
    waits: Waits,
) -> Result<Status, Status> {
    match waits {
        Waits::Ever => Ok(client.answer(read(0, 0))?.status),
        Waits::Long => {
            let reading = client.begin(read(0, 0))?;
            match client.wait_for(reading, Duration::from_secs(PATIENCE))? {
                Some(answer) => Ok(answer.status),
                None => Err(Status::WrongStep),
            }
        }
    }
}

// Waits until the read is there, and flushes until it is over, a millisecond apart.
fn let_go<L: Ledger, R: Wait + Clock>(
    rt: &R,
    manager: &Manager<Ties, L>,
    other: &mut Own<'_, L, R>,
) -> Result<(), Status> {
    let mut has_begun = false;
    for _ in 0..LOOKS {
        match manager.is_done(rt, READING) {
            Some(false) => {
                has_begun = true;
                other.answer(on_file(FileRequest::Flush))?;
            }
            None if !has_begun => {}
            _ => return Ok(()),
        }
        thread::sleep(rt, Duration::from_millis(1));
    }
    Err(Status::WrongStep)
}

// Both at once: what the client was told, and which worker made the postoperation.
fn own_turn<L: Ledger + Send + Sync, R: Threads + Wait + Clock + Sync>(
    rt: &R,
    alloc: Global,
    blank: Blank,
    waits: Waits,
) -> Result<(Status, u64), Status>
    requires blank { IsBlankOf blank.name blank.parts L.name L.parts }
{
    let manager = mounted::<Ties, L, R>(rt, alloc, filters(alloc)?, blank)?;
    let (queue, mut passes) = JobQueue::new(alloc, 1, 6)?;
    let hook = Watch::new();
    let below = folder(alloc)?;
    let Workers {
        mut client,
        first: mut other,
        second: mut worker,
    } = make_workers(rt, alloc, &manager, &queue, &hook, &mut passes, below)?;
    attach(&mut client, b"own", b"200")?;
    attach(&mut client, b"holds", b"100")?;
    client.stop_worker();
    begin(rt, &manager, &mut worker, create(alloc, b"x")?)?;
    let (told, gone) = thread::join(
        rt,
        || ask(&mut client, waits),
        || let_go(rt, &manager, &mut other),
    );
    gone?;
    Ok((told?, hook.last()))
}

#[test]
fn a_client_takes_its_own_turn(rt: HostRuntime) {
    for waits in [Waits::Ever, Waits::Long] {
        let seen = own_turn::<Brand, _>(&rt, rt.alloc(), Blank::new(PARTS), waits);
        assert!(rt; matches!(seen, Ok((_, 3))));
    }
}

/// What has the client look for its turn.
#[derive(Clone, Copy)]
enum Looks {
    /// It puts what it set aside.
    Puts,
    /// It puts all of it.
    PutsAll,
    /// It works, up to a Stop.
    Works,
}

// The client carries its read on, up to where it is held, and looks too early. Once another thread has let the read go, it looks again. Whether the read is done
// before that and after it.
fn look_again<L: Ledger, R: Wait + Clock>(
    rt: &R,
    alloc: Global,
    blank: Blank,
    looks: Looks,
) -> Result<[Option<bool>; 2], Status>
    requires blank { IsBlankOf blank.name blank.parts L.name L.parts }
{
    let manager = mounted::<Ties, L, R>(rt, alloc, filters(alloc)?, blank)?;
    let (queue, mut passes) = JobQueue::new(alloc, 1, 6)?;
    let hook = Watch::new();
    let below = folder(alloc)?;
    let Workers {
        mut client,
        first: mut other,
        second: mut worker,
    } = make_workers(rt, alloc, &manager, &queue, &hook, &mut passes, below)?;
    attach(&mut client, b"own", b"200")?;
    attach(&mut client, b"holds", b"100")?;
    client.stop_worker();
    begin(rt, &manager, &mut worker, create(alloc, b"x")?)?;
    let reading = begin(rt, &manager, &mut client, read(0, 0))?;
    client.put_aside();
    begin(rt, &manager, &mut other, on_file(FileRequest::Flush))?;
    let resumed = manager.is_done(rt, reading);
    match looks {
        Looks::Puts => client.put_aside(),
        Looks::PutsAll => client.put_all_aside(),
        Looks::Works => client.work(),
    }
    Ok([resumed, manager.is_done(rt, reading)])
}

#[test]
fn a_turn_that_was_looked_for_too_early(rt: HostRuntime) {
    for looks in [Looks::Puts, Looks::PutsAll, Looks::Works] {
        let seen = look_again::<Brand, _>(&rt, rt.alloc(), Blank::new(PARTS), looks);
        assert!(rt; matches!(seen, Ok([Some(false), Some(true)])));
    }
}

// The same of two reads: the client looks once, when both are let go. Whether they are done before that and after it.
fn look_at_two<L: Ledger, R: Wait + Clock>(
    rt: &R,
    alloc: Global,
    blank: Blank,
) -> Result<[Option<bool>; 4], Status>
    requires blank { IsBlankOf blank.name blank.parts L.name L.parts }
{
    let manager = mounted::<Ties, L, R>(rt, alloc, filters(alloc)?, blank)?;
    let (queue, mut passes) = JobQueue::new(alloc, 1, 6)?;
    let hook = Watch::new();
    let below = folder(alloc)?;
    let Workers {
        mut client,
        first: mut other,
        second: mut worker,
    } = make_workers(rt, alloc, &manager, &queue, &hook, &mut passes, below)?;
    attach(&mut client, b"own", b"200")?;
    attach(&mut client, b"holds", b"100")?;
    client.stop_worker();
    begin(rt, &manager, &mut worker, create(alloc, b"x")?)?;
    let one = begin(rt, &manager, &mut client, read(0, 0))?;
    let two = begin(rt, &manager, &mut client, read(0, 0))?;
    begin(rt, &manager, &mut other, on_file(FileRequest::Flush))?;
    begin(rt, &manager, &mut other, on_file(FileRequest::Flush))?;
    let early = (manager.is_done(rt, one), manager.is_done(rt, two));
    client.put_aside();
    Ok([
        early.0,
        early.1,
        manager.is_done(rt, one),
        manager.is_done(rt, two),
    ])
}

#[test]
fn two_turns_of_one_client(rt: HostRuntime) {
    let seen = look_at_two::<Brand, _>(&rt, rt.alloc(), Blank::new(PARTS));
    assert!(rt;
        matches!(
            seen,
            Ok([Some(false), Some(false), Some(true), Some(true)])
        )
    );
}

// A worker carries a read on, up to where it is held, and ends at its Stop. Whether it takes jobs then, and whether the read is done: once it was let go, and once
// the worker has looked for its turn as a client does.
fn turn_behind_a_stop<L: Ledger, R: Wait + Clock>(
    rt: &R,
    alloc: Global,
    blank: Blank,
) -> Result<(bool, [Option<bool>; 2]), Status>
    requires blank { IsBlankOf blank.name blank.parts L.name L.parts }
{
    let manager = mounted::<Ties, L, R>(rt, alloc, filters(alloc)?, blank)?;
    let (queue, mut passes) = JobQueue::new(alloc, 272, 6)?;
    let hook = Watch::new();
    let below = folder(alloc)?;
    let Workers {
        mut client,
        first: mut worker,
        second: mut other,
    } = make_workers(rt, alloc, &manager, &queue, &hook, &mut passes, below)?;
    attach(&mut client, b"own", b"200")?;
    attach(&mut client, b"holds", b"100")?;
    begin(rt, &manager, &mut client, create(alloc, b"x")?)?;
    work_off(&mut client, &mut worker);
    let reading = begin(rt, &manager, &mut client, read(0, 0))?;
    work_off(&mut client, &mut worker);
    let takes_jobs = manager.is_taking_jobs(WorkerId(0));
    begin(rt, &manager, &mut client, on_file(FileRequest::Flush))?;
    work_off(&mut client, &mut other);
    work_off(&mut client, &mut other);
    let resumed = manager.is_done(rt, reading);
    worker.put_aside();
    Ok((takes_jobs, [resumed, manager.is_done(rt, reading)]))
}

#[test]
fn a_turn_behind_a_workers_stop(rt: HostRuntime) {
    let seen = turn_behind_a_stop::<Brand, _>(&rt, rt.alloc(), Blank::new(PARTS));
    assert!(rt; matches!(seen, Ok((false, [Some(false), Some(true)]))));
}
