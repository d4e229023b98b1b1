//! A queue that is full: an operation is carried on by whoever begins it, and one that a callback resumes by whoever made the callback. What is then a client's
//! turn alone the client does itself.

ghost use Rattle.std.specs.Prelude.{◌≡◌};
ghost use Rattle.fm_lock.specs.Blanks.{IsBlankOf};

use crate::fixture::{
    MemoryWorker, VOLUME, attach, begin, create, mounted, new_worker, on_file, read,
};
use crate::same_worker::{Watch, filters};
use crate::ties::Ties;
use fm_callback_data::{FileRequest, Request};
use fm_lock::Manager;
use fm_queue::JobQueue;
use fm_types::Status;
use fm_types::limits::PARTS;
use std::alloc::Global;
use std::marker::Brand;
use std::sync::Wait;
use std::sync::ledger::{Blank, Ledger};

/// Whether an operation is done: a listing that is a job, a read that was begun after it, and the same read after a flush.
#[derive(Clone, Copy)]
struct Seen {
    queued: Option<bool>,
    held: Option<bool>,
    resumed: Option<bool>,
}

// The listing takes the queue's only place, so that all others are carried on by the client itself. No worker is there.
fn carry_alone<L: Ledger, R: Wait>(
    rt: &R,
    alloc: Global,
    manager: &Manager<Ties, L>,
    client: &mut MemoryWorker<'_, Ties, L, R, Watch>,
) -> Result<Seen, Status> {
    attach(client, b"holds", b"100")?;
    let listing = begin(rt, manager, client, Request::List { volume: VOLUME })?;
    begin(rt, manager, client, create(alloc, b"x")?)?;
    let reading = begin(rt, manager, client, read(0, 0))?;
    let held = manager.is_done(rt, reading);
    begin(rt, manager, client, on_file(FileRequest::Flush))?;
    Ok(Seen {
        queued: manager.is_done(rt, listing),
        held,
        resumed: manager.is_done(rt, reading),
    })
}

fn crowded_day<L: Ledger, R: Wait>(rt: &R, alloc: Global, blank: Blank) -> Result<Seen, Status>
    requires blank { IsBlankOf blank.name blank.parts L.name L.parts }
{
    let manager = mounted::<Ties, L, R>(rt, alloc, filters(alloc)?, blank)?;
    let (queue, mut passes) = JobQueue::new(alloc, 1, 2)?;
    let hook = Watch::new();
    let mut client = new_worker(rt, alloc, &manager, &queue, &hook, &mut passes)?;
    carry_alone(rt, alloc, &manager, &mut client)
}

#[test]
fn full_queue_is_carried_on_here(rt: HostRuntime) {
    let seen = crowded_day::<Brand, _>(&rt, rt.alloc(), Blank::new(PARTS));
    assert!(rt;
        matches!(
            seen,
            Ok(Seen {
                queued: Some(false),
                held: Some(false),
                resumed: Some(true)
            })
        )
    );
}

/// Whether the read is done once another thread has resumed it, and once the client has looked; and which worker made its postoperation.
#[derive(Clone, Copy)]
struct Bound {
    resumed: Option<bool>,
    looked: Option<bool>,
    last: u64,
}

// The read is synchronized at the client and held there. The other thread resumes it and carries it to its base: its postoperation is the client's alone.
fn come_back<L: Ledger, R: Wait>(
    rt: &R,
    alloc: Global,
    manager: &Manager<Ties, L>,
    client: &mut MemoryWorker<'_, Ties, L, R, Watch>,
    other: &mut MemoryWorker<'_, Ties, L, R, Watch>,
    hook: &Watch,
) -> Result<Bound, Status> {
    attach(client, b"own", b"200")?;
    attach(client, b"holds", b"100")?;
    begin(rt, manager, client, Request::List { volume: VOLUME })?;
    begin(rt, manager, client, create(alloc, b"x")?)?;
    let reading = begin(rt, manager, client, read(0, 0))?;
    begin(rt, manager, other, on_file(FileRequest::Flush))?;
    let resumed = manager.is_done(rt, reading);
    client.put_aside();
    Ok(Bound {
        resumed,
        looked: manager.is_done(rt, reading),
        last: hook.last(),
    })
}

fn bound_day<L: Ledger, R: Wait>(rt: &R, alloc: Global, blank: Blank) -> Result<Bound, Status>
    requires blank { IsBlankOf blank.name blank.parts L.name L.parts }
{
    let manager = mounted::<Ties, L, R>(rt, alloc, filters(alloc)?, blank)?;
    let (queue, mut passes) = JobQueue::new(alloc, 1, 4)?;
    let hook = Watch::new();
    let mut client = new_worker(rt, alloc, &manager, &queue, &hook, &mut passes)?;
    let mut other = new_worker(rt, alloc, &manager, &queue, &hook, &mut passes)?;
    come_back(rt, alloc, &manager, &mut client, &mut other, &hook)
}

#[test]
fn clients_own_turn(rt: HostRuntime) {
    let seen = bound_day::<Brand, _>(&rt, rt.alloc(), Blank::new(PARTS));
    assert!(rt;
        matches!(
            seen,
            Ok(Bound {
                resumed: Some(false),
                looked: Some(true),
                last: 1
            })
        )
    );
}
