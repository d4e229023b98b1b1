//! Callbacks of two workers run at the same time.

ghost use Rattle.std.specs.Prelude.{◌≡◌};
ghost use Rattle.fm_lock.specs.Blanks.{IsBlankOf};

use crate::fixture::{
    Folder, MemoryWorker, Workers, attach, begin, collect, create, folder, make_workers, mounted,
    read, shift, write,
};
use fm_callback_data::Params;
use fm_operations::FlowAction;
use fm_lock::Manager;
use fm_queue::JobQueue;
use fm_samples::Sample;
use fm_types::limits::PARTS;
use fm_types::{Status, WorkerId};
use fm_worker::CallbackHook;
use std::alloc::Global;
use std::marker::Brand;
use std::sync::Wait;
use std::sync::atomic::{AtomicBool, Ordering};
use std::sync::ledger::{Blank, Ledger};
use std::thread;
use std::thread::Threads;
use std::time::{Clock, Duration};

/// How often a callback looks for the other one, a millisecond apart.
const LOOKS: u32 = 10_000;

/// The preoperation of a read waits for that of a write, and the other way round.
#[derive(Drop)]
struct Meeting<'a, R> {
    rt: &'a R,
    reads: AtomicBool,
    writes: AtomicBool,
    missed: AtomicBool,
}

impl<'a, R> Meeting<'a, R> {
    /// Before the first callback.
    fn new(rt: &'a R) -> Meeting<'a, R> {
        Meeting {
            rt,
            reads: AtomicBool::new(false),
            writes: AtomicBool::new(false),
            missed: AtomicBool::new(false),
        }
    }

    // Whether both came, and neither left before the other came.
    fn have_met(&self) -> bool {
        self.reads.load(Ordering::SeqCst)
            && self.writes.load(Ordering::SeqCst)
            && !self.missed.load(Ordering::SeqCst)
    }
}

impl<R: Clock> Meeting<'_, R> {
    // Comes, and waits until the other is there.
    fn meet(&self, own: &AtomicBool, other: &AtomicBool) {
        own.store(true, Ordering::SeqCst);
        for _ in 0..LOOKS {
            if other.load(Ordering::SeqCst) {
                return;
            }
            thread::sleep(self.rt, Duration::from_millis(1));
        }
        self.missed.store(true, Ordering::SeqCst);
    }
}

impl<R: Clock + Sync> CallbackHook for Meeting<'_, R> {
    fn before(&self, _worker: WorkerId, action: &FlowAction) {
        let FlowAction::Pre(_, lent) = action else {
            return;
        };
        match lent.params() {
            Params::Read { .. } => self.meet(&self.reads, &self.writes),
            Params::Write { .. } => self.meet(&self.writes, &self.reads),
            _ => {}
        }
    }
}

// A read and a write, each carried on by the worker that takes it.
fn ask<L: Ledger, R: Wait + Clock, G: CallbackHook>(
    rt: &R,
    alloc: Global,
    manager: &Manager<Sample, L>,
    client: &mut MemoryWorker<'_, Sample, L, R, G>,
) -> Result<(), Status> {
    attach(client, b"shift", b"100")?;
    client.answer(create(alloc, b"x")?)?;
    let reading = begin(rt, manager, client, read(0, 0))?;
    let writing = begin(rt, manager, client, write(alloc, b"a")?)?;
    collect(rt, manager, reading)?;
    collect(rt, manager, writing)?;
    Ok(())
}

// The client asks, and then has both workers end.
fn ask_two<L: Ledger, R: Wait + Clock, G: CallbackHook>(
    rt: &R,
    alloc: Global,
    manager: &Manager<Sample, L>,
    client: &mut MemoryWorker<'_, Sample, L, R, G>,
) -> Result<(), Status> {
    let asked = ask(rt, alloc, manager, client);
    client.stop_worker();
    client.stop_worker();
    asked
}

// The client asks, while both workers work, each in a thread of its own.
fn ask_beside<L: Ledger + Send + Sync, R: Threads + Wait + Clock + Sync, G: CallbackHook>(
    rt: &R,
    alloc: Global,
    manager: &Manager<Sample, L>,
    workers: Workers<'_, Sample, L, R, G, Folder>,
) -> Result<(), Status> {
    let Workers {
        mut client,
        mut first,
        mut second,
    } = workers;
    let (asked, _) = thread::join(
        rt,
        || ask_two(rt, alloc, manager, &mut client),
        || thread::join(rt, || first.work(), || second.work()),
    );
    asked
}

// Whether the two callbacks have met.
fn meeting_day<L: Ledger + Send + Sync, R: Threads + Wait + Clock + Sync>(
    rt: &R,
    alloc: Global,
    blank: Blank,
) -> Result<bool, Status>
    requires blank { IsBlankOf blank.name blank.parts L.name L.parts }
{
    let manager = mounted::<Sample, L, R>(rt, alloc, shift(alloc)?, blank)?;
    let (queue, mut passes) = JobQueue::new(alloc, 272, 6)?;
    let hook = Meeting::new(rt);
    let below = folder(alloc)?;
    let workers = make_workers(rt, alloc, &manager, &queue, &hook, &mut passes, below)?;
    ask_beside(rt, alloc, &manager, workers)?;
    Ok(hook.have_met())
}

#[test]
fn two_callbacks_meet(rt: HostRuntime) {
    let seen = meeting_day::<Brand, _>(&rt, rt.alloc(), Blank::new(PARTS));
    assert!(rt; matches!(seen, Ok(true)));
}
