//! A synchronized postoperation comes back to the worker that made its preoperation.

ghost use Rattle.std.specs.Prelude.{◌≡◌};
ghost use Rattle.fm_lock.specs.Blanks.{IsBlankOf};

use crate::fixture::{
    Workers, attach, begin, collect, create, folder, make_workers, mounted, on_file, read, work_off,
};
use crate::ties::Ties;
use fm_callback_data::FileRequest;
use fm_device::Device;
use fm_operations::FlowAction;
use fm_lock::Manager;
use fm_queue::JobQueue;
use fm_types::limits::PARTS;
use fm_types::{Name, OpId, Status, WorkerId};
use fm_worker::CallbackHook;
use std::alloc::Global;
use std::marker::Brand;
use std::sync::Wait;
use std::sync::atomic::{AtomicU64, Ordering};
use std::sync::ledger::{Blank, Ledger};
use std::time::Clock;

/// Notes which worker made the last postoperation: its number and 1, and 0 before the first.
#[derive(Drop)]
pub struct Watch {
    posts: AtomicU64,
}

impl Watch {
    /// Before the first postoperation.
    pub fn new() -> Watch {
        Watch {
            posts: AtomicU64::new(0),
        }
    }

    /// The number of the worker that made the last postoperation, and 1.
    pub fn last(&self) -> u64 {
        self.posts.load(Ordering::SeqCst)
    }
}

impl CallbackHook for Watch {
    fn before(&self, worker: WorkerId, action: &FlowAction) {
        if matches!(action, FlowAction::Post(..)) {
            self.posts.store(u64::from(worker.0) + 1, Ordering::SeqCst);
        }
    }
}

/// The filters of reads: one that asks for its own worker, one that holds, and one that asks for any worker.
pub fn filters(alloc: Global) -> Result<Vec<(Name, Ties)>, Status> {
    let mut filters = Vec::new(alloc);
    filters.push((Name::read(b"own")?, Ties::Own))?;
    filters.push((Name::read(b"holds")?, Ties::Holds))?;
    filters.push((Name::read(b"asks")?, Ties::Asks))?;
    Ok(filters)
}

/// Posts at a manager of both filters.
pub type Tied<'a, L, R, D> = Workers<'a, Ties, L, R, Watch, D>;

/// A read is synchronized at the first worker and held there, and a flush on the second one resumes it: the job of the read is queued then.
pub fn hold_and_resume<L: Ledger, R: Wait, D: Device>(
    rt: &R,
    alloc: Global,
    manager: &Manager<Ties, L>,
    workers: &mut Tied<'_, L, R, D>,
) -> Result<OpId, Status> {
    let client = &mut workers.client;
    attach(client, b"own", b"200")?;
    attach(client, b"holds", b"100")?;
    begin(rt, manager, client, create(alloc, b"x")?)?;
    work_off(client, &mut workers.first);
    let reading = begin(rt, manager, client, read(0, 0))?;
    work_off(client, &mut workers.first);
    begin(rt, manager, client, on_file(FileRequest::Flush))?;
    work_off(client, &mut workers.second);
    Ok(reading)
}

/// Which worker the manager names, what the read is answered, and whose postoperation it was.
#[derive(Clone, Copy)]
struct Seen {
    named: Option<WorkerId>,
    status: Status,
    last: u64,
}

// The second worker carries the read to its base, and puts it back; the first one makes its postoperation.
fn come_home<L: Ledger, R: Wait + Clock, D: Device>(
    rt: &R,
    alloc: Global,
    manager: &Manager<Ties, L>,
    workers: &mut Tied<'_, L, R, D>,
    hook: &Watch,
) -> Result<Seen, Status> {
    let reading = hold_and_resume(rt, alloc, manager, workers)?;
    work_off(&mut workers.client, &mut workers.second);
    let named = manager.sync_worker(rt, reading);
    work_off(&mut workers.client, &mut workers.first);
    let status = collect(rt, manager, reading)?.status;
    Ok(Seen {
        named,
        status,
        last: hook.last(),
    })
}

fn homing_day<L: Ledger, R: Wait + Clock>(
    rt: &R,
    alloc: Global,
    blank: Blank,
) -> Result<Seen, Status>
    requires blank { IsBlankOf blank.name blank.parts L.name L.parts }
{
    let manager = mounted::<Ties, L, R>(rt, alloc, filters(alloc)?, blank)?;
    let (queue, mut passes) = JobQueue::new(alloc, 272, 6)?;
    let hook = Watch::new();
    let below = folder(alloc)?;
    let mut workers = make_workers(rt, alloc, &manager, &queue, &hook, &mut passes, below)?;
    come_home(rt, alloc, &manager, &mut workers, &hook)
}

#[test]
fn synchronized_postoperation_comes_home(rt: HostRuntime) {
    let seen = homing_day::<Brand, _>(&rt, rt.alloc(), Blank::new(PARTS));
    assert!(rt;
        matches!(
            seen,
            Ok(Seen {
                named: Some(WorkerId(0)),
                status: Status::FileNotFound,
                last: 1
            })
        )
    );
}
