//! What workers' callbacks change.

ghost use Rattle.std.specs.Prelude.{◌≡◌};
ghost use Rattle.fm_lock.specs.Blanks.{IsBlankOf};

use crate::fixture::{
    Folder, MemoryWorker, VOLUME, Workers, attach, carried, create, folder, make_workers, mounted,
    read, shift, write,
};
use fm_base::Base;
use fm_callback_data::Answer;
use fm_lock::Manager;
use fm_queue::JobQueue;
use fm_samples::Sample;
use fm_types::limits::PARTS;
use fm_types::{Bytes, RelPath, Status};
use fm_worker::NoHook;
use std::alloc::Global;
use std::marker::Brand;
use std::sync::Wait;
use std::sync::ledger::{Blank, Ledger};
use std::time::Clock;

/// That of a client or of a worker.
type OpenWorker<'a, L, R> = MemoryWorker<'a, Sample, L, R, NoHook>;

/// What a client is told of a create, a write of three bytes and a read of them, and what the file holds below the worker then.
#[derive(Drop)]
struct Shifted {
    made: Answer,
    written: Answer,
    got: Answer,
    below: Bytes,
}

// What the file holds below a worker that has ended.
fn held<L: Ledger, R: Wait>(worker: OpenWorker<'_, L, R>) -> Result<Bytes, Status> {
    let (_, mut below) = worker.into_parts();
    match below.of(VOLUME) {
        Some(base) => base.read(&RelPath::read(b"x")?, 0, 9),
        None => Err(Status::NoVolume),
    }
}

// The three operations, each by a job of its own.
fn shift_bytes<L: Ledger, R: Wait + Clock>(
    rt: &R,
    alloc: Global,
    manager: &Manager<Sample, L>,
    workers: Workers<'_, Sample, L, R, NoHook, Folder>,
) -> Result<Shifted, Status> {
    let Workers {
        mut client,
        first: mut worker,
        second: _,
    } = workers;
    attach(&mut client, b"shift", b"100")?;
    let made = carried(rt, manager, &mut client, &mut worker, create(alloc, b"x")?)?;
    let written = carried(
        rt,
        manager,
        &mut client,
        &mut worker,
        write(alloc, b"ab\xff")?,
    )?;
    let got = carried(rt, manager, &mut client, &mut worker, read(0, 5))?;
    Ok(Shifted {
        made,
        written,
        got,
        below: held(worker)?,
    })
}

fn shift_day<L: Ledger, R: Wait + Clock>(
    rt: &R,
    alloc: Global,
    blank: Blank,
) -> Result<Shifted, Status>
    requires blank { IsBlankOf blank.name blank.parts L.name L.parts }
{
    let manager = mounted::<Sample, L, R>(rt, alloc, shift(alloc)?, blank)?;
    let (queue, mut passes) = JobQueue::new(alloc, 272, 6)?;
    let hook = NoHook;
    let below = folder(alloc)?;
    let workers = make_workers(rt, alloc, &manager, &queue, &hook, &mut passes, below)?;
    shift_bytes(rt, alloc, &manager, workers)
}

// Whether an answer is Success with that number and those bytes.
fn is(answer: &Answer, information: u64, bytes: &[u8]) -> bool {
    answer.status == Status::Success
        && answer.information == information
        && answer.bytes.as_slice() == bytes
}

#[test]
fn shift_by_a_worker(rt: HostRuntime) {
    let seen = shift_day::<Brand, _>(&rt, rt.alloc(), Blank::new(PARTS));
    let Ok(seen) = seen else {
        assert!(rt; false);
        return;
    };
    assert!(rt; is(&seen.made, 0, b""));
    assert!(rt; is(&seen.written, 3, b""));
    assert!(rt; is(&seen.got, 3, b"ab\xff"));
    assert!(rt; seen.below.as_slice() == b"bc\x00".as_slice());
}
