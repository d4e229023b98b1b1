//! A read that its client carried on itself, up to where it is held, and whose next turn is the client's alone. Another client detaches the instance whose
//! postoperation that would be: it is drained early, and then anybody may carry the read on. Of two such reads one detach drains both.

ghost use Rattle.std.specs.Prelude.{◌≡◌};
ghost use Rattle.fm_lock.specs.Blanks.{IsBlankOf};

use crate::fixture::{
    Folder, MemoryWorker, Workers, attach, begin, create, folder, make_workers, mounted, on_file,
    read, work_off,
};
use crate::same_worker::{Tied, Watch, filters};
use crate::ties::Ties;
use fm_callback_data::{Answer, FileRequest};
use fm_lock::Manager;
use fm_queue::JobQueue;
use fm_types::limits::PARTS;
use fm_types::{OpId, Status};
use std::alloc::Global;
use std::marker::Brand;
use std::sync::Wait;
use std::sync::ledger::{Blank, Ledger};
use std::time::{Clock, Duration};

/// That of a client or of a worker.
type Own<'a, L, R> = MemoryWorker<'a, Ties, L, R, Watch>;

/// Whether the read is done when the flush has let it go, after the detach and the jobs that came of it, and what its client is told then.
#[derive(Drop)]
struct Seen {
    resumed: Option<bool>,
    carried: Option<bool>,
    told: Result<Option<Answer>, Status>,
}

// Fills a queue of that many places, begins the read, which its client then carries on, and has the worker take the Stops.
fn carry_alone<L: Ledger, R: Wait>(
    client: &mut Own<'_, L, R>,
    worker: &mut Own<'_, L, R>,
    places: usize,
) -> Result<OpId, Status> {
    for _ in 0..places {
        client.stop_worker();
    }
    let reading = client.begin(read(0, 0))?;
    for _ in 0..places {
        worker.work();
    }
    Ok(reading)
}

// The worker flushes for another client, and drops the job of the read, which is its own client's turn.
fn let_go<L: Ledger, R: Wait>(
    other: &mut Own<'_, L, R>,
    worker: &mut Own<'_, L, R>,
) -> Result<(), Status> {
    other.begin(on_file(FileRequest::Flush))?;
    work_off(other, worker);
    work_off(other, worker);
    Ok(())
}

// All of it. Above the instance that is detached there may be another one that asks for its postoperation.
fn drain<L: Ledger, R: Wait + Clock>(
    rt: &R,
    alloc: Global,
    manager: &Manager<Ties, L>,
    workers: &mut Tied<'_, L, R, Folder>,
    has_upper: bool,
) -> Result<Seen, Status> {
    let Workers {
        client,
        first: other,
        second: worker,
    } = workers;
    begin(rt, manager, client, create(alloc, b"x")?)?;
    work_off(client, worker);
    let tied = attach(client, b"own", b"200")?;
    attach(client, b"holds", b"100")?;
    if has_upper {
        attach(client, b"asks", b"300")?;
    }
    let reading = carry_alone(client, worker, 2)?;
    let_go(other, worker)?;
    let resumed = manager.is_done(rt, reading);
    other.detach(tied)?;
    work_off(other, worker);
    Ok(Seen {
        resumed,
        carried: manager.is_done(rt, reading),
        told: client.wait_for(reading, Duration::from_millis(100)),
    })
}

fn drained_day<L: Ledger, R: Wait + Clock>(
    rt: &R,
    alloc: Global,
    blank: Blank,
    has_upper: bool,
) -> Result<Seen, Status>
    requires blank { IsBlankOf blank.name blank.parts L.name L.parts }
{
    let manager = mounted::<Ties, L, R>(rt, alloc, filters(alloc)?, blank)?;
    let (queue, mut passes) = JobQueue::new(alloc, 2, 6)?;
    let hook = Watch::new();
    let below = folder(alloc)?;
    let mut workers = make_workers(rt, alloc, &manager, &queue, &hook, &mut passes, below)?;
    drain(rt, alloc, &manager, &mut workers, has_upper)
}

#[test]
fn drained_turn_is_a_job_again(rt: HostRuntime) {
    for has_upper in [false, true] {
        let seen = drained_day::<Brand, _>(&rt, rt.alloc(), Blank::new(PARTS), has_upper);
        assert!(rt;
            matches!(
                seen,
                Ok(Seen {
                    resumed: Some(false),
                    carried: Some(true),
                    told: Ok(Some(Answer {
                        status: Status::Success,
                        ..
                    }))
                })
            )
        );
    }
}

/// Which of two reads are done: before the detach, and after it and the jobs that came of it.
type Done = [Option<bool>; 2];

// Two reads at once, and one detach. The queue has room for what the detach lets go of, and for a Stop.
fn drain_both<L: Ledger, R: Wait + Clock>(
    rt: &R,
    alloc: Global,
    manager: &Manager<Ties, L>,
    workers: &mut Tied<'_, L, R, Folder>,
) -> Result<(Done, Done), Status> {
    let Workers {
        client,
        first: other,
        second: worker,
    } = workers;
    begin(rt, manager, client, create(alloc, b"x")?)?;
    work_off(client, worker);
    let tied = attach(client, b"own", b"200")?;
    attach(client, b"holds", b"100")?;
    let one = carry_alone(client, worker, 3)?;
    let two = carry_alone(client, worker, 3)?;
    let_go(other, worker)?;
    let_go(other, worker)?;
    let before = [manager.is_done(rt, one), manager.is_done(rt, two)];
    other.detach(tied)?;
    work_off(other, worker);
    Ok((
        before,
        [manager.is_done(rt, one), manager.is_done(rt, two)],
    ))
}

fn both_day<L: Ledger, R: Wait + Clock>(
    rt: &R,
    alloc: Global,
    blank: Blank,
) -> Result<(Done, Done), Status>
    requires blank { IsBlankOf blank.name blank.parts L.name L.parts }
{
    let manager = mounted::<Ties, L, R>(rt, alloc, filters(alloc)?, blank)?;
    let (queue, mut passes) = JobQueue::new(alloc, 3, 6)?;
    let hook = Watch::new();
    let below = folder(alloc)?;
    let mut workers = make_workers(rt, alloc, &manager, &queue, &hook, &mut passes, below)?;
    drain_both(rt, alloc, &manager, &mut workers)
}

#[test]
fn two_turns_are_drained(rt: HostRuntime) {
    let seen = both_day::<Brand, _>(&rt, rt.alloc(), Blank::new(PARTS));
    assert!(rt;
        matches!(
            seen,
            Ok(([Some(false), Some(false)], [Some(true), Some(true)]))
        )
    );
}
