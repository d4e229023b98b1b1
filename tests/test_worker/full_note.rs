//! A client that has noted as many operations as there may be, all of which are over, and begins one more. It forgets those, and so the last one's turn comes.

ghost use Rattle.std.specs.Prelude.{◌≡◌};
ghost use Rattle.fm_lock.specs.Blanks.{IsBlankOf};

use crate::fixture::{
    MemoryWorker, Workers, attach, begin, collect, create, folder, make_workers, mounted, on_file,
    read,
};
use crate::same_worker::{Watch, filters};
use crate::ties::Ties;
use fm_callback_data::FileRequest;
use fm_lock::Manager;
use fm_queue::JobQueue;
use fm_types::limits::{OPERATIONS, PARTS};
use fm_types::Status;
use std::alloc::Global;
use std::marker::Brand;
use std::sync::Wait;
use std::sync::ledger::{Blank, Ledger};
use std::time::Clock;

/// That of a client.
type Own<'a, L, R> = MemoryWorker<'a, Ties, L, R, Watch>;

// The client carries a read on, up to where it is held, and another thread lets it go and carries it to its end: the client still has it noted.
fn note_one<L: Ledger, R: Wait + Clock>(
    rt: &R,
    manager: &Manager<Ties, L>,
    client: &mut Own<'_, L, R>,
    other: &mut Own<'_, L, R>,
) -> Result<(), Status> {
    let reading = begin(rt, manager, client, read(0, 0))?;
    other.answer(on_file(FileRequest::Flush))?;
    collect(rt, manager, reading)?;
    Ok(())
}

// The last read is the client's turn alone, once another thread has let it go. Whether it is done before the client looks, and after it.
fn look_at_last<L: Ledger, R: Wait + Clock>(
    rt: &R,
    alloc: Global,
    blank: Blank,
) -> Result<[Option<bool>; 2], Status>
    requires blank { IsBlankOf blank.name blank.parts L.name L.parts }
{
    let manager = mounted::<Ties, L, R>(rt, alloc, filters(alloc)?, blank)?;
    let (queue, mut passes) = JobQueue::new(alloc, 1, 6)?;
    let hook = Watch::new();
    let below = folder(alloc)?;
    let Workers {
        mut client,
        first: mut other,
        second: mut worker,
    } = make_workers(rt, alloc, &manager, &queue, &hook, &mut passes, below)?;
    attach(&mut client, b"holds", b"100")?;
    client.stop_worker();
    let creating = begin(rt, &manager, &mut worker, create(alloc, b"x")?)?;
    collect(rt, &manager, creating)?;
    for _ in 0..OPERATIONS {
        note_one(rt, &manager, &mut client, &mut other)?;
    }
    attach(&mut client, b"own", b"200")?;
    let last = begin(rt, &manager, &mut client, read(0, 0))?;
    other.answer(on_file(FileRequest::Flush))?;
    let resumed = manager.is_done(rt, last);
    client.put_aside();
    Ok([resumed, manager.is_done(rt, last)])
}

#[test]
fn what_is_over_makes_room(rt: HostRuntime) {
    let seen = look_at_last::<Brand, _>(&rt, rt.alloc(), Blank::new(PARTS));
    assert!(rt; matches!(seen, Ok([Some(false), Some(true)])));
}
