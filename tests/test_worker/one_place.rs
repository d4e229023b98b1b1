//! Two clients that wait at one place: their operations' numbers are 32 apart.

ghost use Rattle.std.specs.Prelude.{◌≡◌};
ghost use Rattle.fm_lock.specs.Blanks.{IsBlankOf};

use crate::fixture::{
    MemoryWorker, Workers, attach, begin, create, folder, make_workers, mounted, on_file, read,
    work_off,
};
use crate::same_worker::{Watch, filters};
use crate::ties::Ties;
use fm_callback_data::FileRequest;
use fm_lock::Manager;
use fm_queue::JobQueue;
use fm_types::limits::PARTS;
use fm_types::{OpId, Status};
use std::alloc::Global;
use std::marker::Brand;
use std::sync::Wait;
use std::sync::ledger::{Blank, Ledger};
use std::thread;
use std::thread::Threads;
use std::time::{Clock, Duration};

/// How many operations lie between both.
const APART: usize = 31;

/// That of a client or of a worker.
type Own<'a, L, R> = MemoryWorker<'a, Ties, L, R, Watch>;

// Two reads that are held, and as many creates between them as have the second come to the place of the first.
fn begin_two<L: Ledger, R: Wait>(
    rt: &R,
    alloc: Global,
    manager: &Manager<Ties, L>,
    client: &mut Own<'_, L, R>,
    worker: &mut Own<'_, L, R>,
) -> Result<(OpId, OpId), Status> {
    attach(client, b"holds", b"100")?;
    begin(rt, manager, client, create(alloc, b"x")?)?;
    work_off(client, worker);
    let first = begin(rt, manager, client, read(0, 0))?;
    for _ in 0..APART {
        begin(rt, manager, client, create(alloc, b"x")?)?;
    }
    let second = begin(rt, manager, client, read(0, 0))?;
    work_off(client, worker);
    Ok((first, second))
}

// Lets both go, the first one first, once their clients are asleep. The job of a read comes behind the Stop that its flush was put with.
fn let_go<L: Ledger, R: Wait + Clock>(
    rt: &R,
    client: &mut Own<'_, L, R>,
    worker: &mut Own<'_, L, R>,
) -> Result<(), Status> {
    for _ in 0..2 {
        thread::sleep(rt, Duration::from_millis(200));
        client.begin(on_file(FileRequest::Flush))?;
        work_off(client, worker);
        work_off(client, worker);
    }
    Ok(())
}

// What both are told. The client of the later one begins to wait first.
fn wait_for_two<L: Ledger + Send + Sync, R: Threads + Wait + Clock + Sync>(
    rt: &R,
    alloc: Global,
    blank: Blank,
) -> Result<[Status; 2], Status>
    requires blank { IsBlankOf blank.name blank.parts L.name L.parts }
{
    let manager = mounted::<Ties, L, R>(rt, alloc, filters(alloc)?, blank)?;
    let (queue, mut passes) = JobQueue::new(alloc, 272, 6)?;
    let hook = Watch::new();
    let below = folder(alloc)?;
    let Workers {
        mut client,
        first: mut worker,
        second: _,
    } = make_workers(rt, alloc, &manager, &queue, &hook, &mut passes, below)?;
    let (first, second) = begin_two(rt, alloc, &manager, &mut client, &mut worker)?;
    let (later, (earlier, gone)) = thread::join(
        rt,
        || manager.wait_reply(rt, second),
        || {
            thread::join(
                rt,
                || {
                    thread::sleep(rt, Duration::from_millis(50));
                    manager.wait_reply(rt, first)
                },
                || let_go(rt, &mut client, &mut worker),
            )
        },
    );
    gone?;
    Ok([earlier?.status, later?.status])
}

#[test]
fn two_clients_at_one_place(rt: HostRuntime) {
    let seen = wait_for_two::<Brand, _>(&rt, rt.alloc(), Blank::new(PARTS));
    assert!(rt; matches!(seen, Ok([Status::Success, Status::Success])));
}
