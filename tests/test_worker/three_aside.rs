//! Three jobs that are set aside: all are put at once where there is room for all, and one after the other where there is room for one. And a Stop that waits for
//! room.

ghost use Rattle.std.specs.Prelude.{◌≡◌, All, IfSome};
ghost use Rattle.fm_queue.specs.Passes.{IsPassOf};
ghost use Rattle.fm_lock.specs.Blanks.{IsBlankOf};

use crate::fixture::{
    LOOKS, MemoryWorker, attach, begin, create, mounted, new_worker, read,
};
use crate::same_worker::{Watch, filters};
use crate::ties::Ties;
use fm_callback_data::{Completion, PreVerdict};
use fm_operations::FlowAction;
use fm_lock::{Hand, Manager};
use fm_queue::{Job, JobPass, JobQueue};
use fm_types::limits::PARTS;
use fm_types::{OpId, Status};
use std::alloc::Global;
use std::marker::Brand;
use std::sync::Wait;
use std::sync::ledger::{Blank, Ledger};
use std::thread;
use std::thread::Threads;
use std::time::{Clock, Duration};

/// How many are set aside.
const ASIDE: usize = 3;

/// That of a client.
type Own<'a, L, R> = MemoryWorker<'a, Ties, L, R, Watch>;

// Takes a pass of the queue.
fn take_pass(queue: &JobQueue, passes: &mut Vec<JobPass>) -> Option<JobPass>
    requires own { All (λ pass. IsPassOf queue.now pass) passes.old.items }
    ensures own { All (λ pass. IsPassOf queue.now pass) passes.new.items }
    ensures taken { IfSome result (λ pass. IsPassOf queue.now pass) }
{
    passes.pop()
}

// A read that is tied to that hand, whose worker takes jobs. The client, who finds the queue full, carries it to its base, and sets it aside.
fn put_one_aside<L: Ledger, R: Wait>(
    rt: &R,
    manager: &Manager<Ties, L>,
    client: &mut Own<'_, L, R>,
    hand: &mut Hand<L>,
) -> Result<OpId, Status> {
    let reading = manager.begin(rt, read(0, 0))?;
    let FlowAction::Pre(_, lent) = manager.next(rt, hand, reading)? else {
        return Err(Status::WrongStep);
    };
    let tied = PreVerdict::Synchronize(Completion {
        number: 7,
        context: None,
    });
    if let Err(refused) = manager.pre_returned(rt, hand, tied, lent) {
        return Err(refused.status);
    }
    client.submit(reading);
    Ok(reading)
}

// Fills the queue with Stops, opens the file, and sets three reads aside.
fn put_three_aside<L: Ledger, R: Wait>(
    rt: &R,
    alloc: Global,
    manager: &Manager<Ties, L>,
    client: &mut Own<'_, L, R>,
    places: usize,
) -> Result<Vec<OpId>, Status> {
    for _ in 0..places {
        client.stop_worker();
    }
    begin(rt, manager, client, create(alloc, b"x")?)?;
    attach(client, b"own", b"200")?;
    let mut hand = manager.hire(rt)?;
    manager.takes_jobs(&hand);
    let mut aside = Vec::with_capacity(alloc, ASIDE)?;
    for _ in 0..ASIDE {
        aside.push(put_one_aside(rt, manager, client, &mut hand)?)?;
    }
    Ok(aside)
}

// Whether the jobs come that are waited for: so many Stops, and then those. Each is looked for ten seconds at most, a millisecond apart.
fn come<R: Wait + Clock>(
    rt: &R,
    queue: &JobQueue,
    pass: &mut JobPass,
    stops: usize,
    jobs: &[OpId],
) -> bool
    requires own { IsPassOf queue.now pass.old }
    ensures own { IsPassOf queue.now pass.new }
{
    for _ in 0..stops {
        if next_job(rt, queue, pass) != Some(Job::Stop) {
            return false;
        }
    }
    for operation in jobs {
        if next_job(rt, queue, pass) != Some(Job::Run(*operation)) {
            return false;
        }
    }
    true
}

// The next job, if one comes.
fn next_job<R: Wait + Clock>(rt: &R, queue: &JobQueue, pass: &mut JobPass) -> Option<Job>
    requires own { IsPassOf queue.now pass.old }
    ensures own { IsPassOf queue.now pass.new }
{
    for _ in 0..LOOKS {
        if let Some(job) = queue.try_take(rt, pass) {
            return Some(job);
        }
        thread::sleep(rt, Duration::from_millis(1));
    }
    None
}

/// What has room for one job alone.
#[derive(Clone, Copy)]
enum Put {
    /// What is set aside: once there is room for all of it, and at once.
    Once,
    /// The same, as room comes.
    All,
    /// A Stop, as room comes.
    Stop,
}

// Whether each job comes, in its order, while another thread takes what is in front of it.
fn is_put<L: Ledger + Send + Sync, R: Threads + Wait + Clock + Sync>(
    rt: &R,
    alloc: Global,
    blank: Blank,
    put: Put,
) -> Result<bool, Status>
    requires blank { IsBlankOf blank.name blank.parts L.name L.parts }
{
    let places = if matches!(put, Put::Once) { ASIDE } else { 1 };
    let manager = mounted::<Ties, L, R>(rt, alloc, filters(alloc)?, blank)?;
    let (queue, mut passes) = JobQueue::new(alloc, places, 4)?;
    let hook = Watch::new();
    let Some(mut pass) = take_pass(&queue, &mut passes) else {
        return Err(Status::TooMany);
    };
    let mut client = new_worker(rt, alloc, &manager, &queue, &hook, &mut passes)?;
    let aside = put_three_aside(rt, alloc, &manager, &mut client, places)?;
    let jobs = aside.as_slice();
    match put {
        Put::Once => {
            let are_taken = come(rt, &queue, &mut pass, places, &[]);
            client.put_aside();
            let queued = [
                queue.try_take(rt, &mut pass),
                queue.try_take(rt, &mut pass),
                queue.try_take(rt, &mut pass),
            ];
            Ok(are_taken && queued.iter().zip(jobs).all(|(job, operation)| *job == Some(Job::Run(*operation))))
        }
        Put::All => {
            let (_, is_well) = thread::join(
                rt,
                || client.put_all_aside(),
                || come(rt, &queue, &mut pass, 1, jobs),
            );
            Ok(is_well)
        }
        Put::Stop => {
            let (_, is_well) = thread::join(
                rt,
                || client.stop_worker(),
                || {
                    thread::sleep(rt, Duration::from_millis(20));
                    come(rt, &queue, &mut pass, 2, &[])
                },
            );
            Ok(is_well)
        }
    }
}

#[test]
fn all_are_put_where_there_is_room(rt: HostRuntime) {
    assert!(rt; is_put::<Brand, _>(&rt, rt.alloc(), Blank::new(PARTS), Put::Once) == Ok(true));
}

#[test]
fn all_are_put_as_room_comes(rt: HostRuntime) {
    assert!(rt; is_put::<Brand, _>(&rt, rt.alloc(), Blank::new(PARTS), Put::All) == Ok(true));
}

#[test]
fn a_stop_waits_for_room(rt: HostRuntime) {
    assert!(rt; is_put::<Brand, _>(&rt, rt.alloc(), Blank::new(PARTS), Put::Stop) == Ok(true));
}
