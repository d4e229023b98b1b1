//! A job that can't be put back, since the queue is full: it is set aside, and put once there is room, at the worker's Stop at the latest.

ghost use Rattle.std.specs.Prelude.{◌≡◌, All, IfSome};
ghost use Rattle.fm_queue.specs.Passes.{IsPassOf};
ghost use Rattle.fm_lock.specs.Blanks.{IsBlankOf};

use crate::fixture::{
    Folder, Workers, attach, begin, create, folder, make_workers, mounted, on_file, read, work_off,
};
use crate::same_worker::{Tied, Watch, filters};
use crate::ties::Ties;
use fm_callback_data::{Answer, BaseCall, Completion, FileRequest, Params, PostVerdict, PreVerdict};
use fm_device::Device;
use fm_operations::FlowAction;
use fm_lock::{Hand, Manager};
use fm_queue::{Job, JobPass, JobQueue};
use fm_types::limits::PARTS;
use fm_types::{OpId, Status};
use std::alloc::Global;
use std::marker::Brand;
use std::sync::Wait;
use std::sync::ledger::{Blank, Ledger};

/// A file system that has the queue filled by a Stop while it reads, as another thread may at that moment.
#[derive(Drop)]
struct Filling<'a, R: Wait> {
    rt: &'a R,
    queue: &'a JobQueue,
    pass: JobPass,
    below: Folder,
    ghost own: { IsPassOf queue.now pass },
}

impl<R: Wait> Device for Filling<'_, R> {
    ghost use Rattle.std.specs.Prelude.{⊤};

    ghost carries = { λ _ _ _ _. ⊤ };

    fn call(&mut self, call: &BaseCall) -> Answer {
        if matches!(call.params(), Params::Read { .. }) {
            let _ = self.queue.put(self.rt, &mut self.pass, Job::Stop);
        }
        self.below.call(call)
    }
}

// Takes a pass of the queue.
fn take_pass(queue: &JobQueue, passes: &mut Vec<JobPass>) -> Option<JobPass>
    requires own { All (λ pass. IsPassOf queue.now pass) passes.old.items }
    ensures own { All (λ pass. IsPassOf queue.now pass) passes.new.items }
    ensures taken { IfSome result (λ pass. IsPassOf queue.now pass) }
{
    passes.pop()
}

// One callback of the read by that hand, of a preoperation that answers so.
fn answer_pre<L: Ledger, R: Wait>(
    rt: &R,
    manager: &Manager<Ties, L>,
    hand: &mut Hand<L>,
    reading: OpId,
    verdict: PreVerdict,
) -> Result<(), Status> {
    let FlowAction::Pre(_, lent) = manager.next(rt, hand, reading)? else {
        return Err(Status::WrongStep);
    };
    match manager.pre_returned(rt, hand, verdict, lent) {
        Ok(()) => Ok(()),
        Err(refused) => Err(refused.status),
    }
}

// A read that is tied to that hand, whose worker takes jobs, and is held below. A flush by the second worker lets it go.
fn tie<L: Ledger, R: Wait, D: Device>(
    rt: &R,
    alloc: Global,
    manager: &Manager<Ties, L>,
    workers: &mut Tied<'_, L, R, D>,
    hand: &mut Hand<L>,
) -> Result<OpId, Status> {
    let client = &mut workers.client;
    attach(client, b"own", b"200")?;
    attach(client, b"holds", b"100")?;
    begin(rt, manager, client, create(alloc, b"x")?)?;
    work_off(client, &mut workers.second);
    manager.takes_jobs(hand);
    let reading = manager.begin(rt, read(0, 0))?;
    let tied = PreVerdict::Synchronize(Completion {
        number: 7,
        context: None,
    });
    answer_pre(rt, manager, hand, reading, tied)?;
    answer_pre(rt, manager, hand, reading, PreVerdict::Pending)?;
    begin(rt, manager, client, on_file(FileRequest::Flush))?;
    work_off(client, &mut workers.second);
    Ok(reading)
}

// The postoperation of the read, by that hand.
fn answer_post<L: Ledger, R: Wait>(
    rt: &R,
    manager: &Manager<Ties, L>,
    hand: &mut Hand<L>,
    reading: OpId,
) -> Result<(), Status> {
    let FlowAction::Post(_, lent, _) = manager.next(rt, hand, reading)? else {
        return Err(Status::WrongStep);
    };
    match manager.post_returned(rt, hand, PostVerdict::Finished, Some(lent)) {
        Ok(()) => Ok(()),
        Err(refused) => Err(refused.status),
    }
}

// Whether the read's job comes behind the Stop that filled the queue: the second worker had it put at its own Stop.
fn is_put<R: Wait>(rt: &R, queue: &JobQueue, pass: &mut JobPass, reading: OpId) -> bool {
    let stop = queue.try_take(rt, pass);
    let next = queue.try_take(rt, pass);
    stop == Some(Job::Stop) && next == Some(Job::Run(reading))
}

// The second worker carries the read to its base, can't put it back, and takes the Stop before the one that fills the queue. Whether the read's job is queued then;
// its postoperation is that of the hand which it is tied to.
fn set_aside<L: Ledger, R: Wait, D: Device>(
    rt: &R,
    alloc: Global,
    manager: &Manager<Ties, L>,
    queue: &JobQueue,
    pass: &mut JobPass,
    workers: Tied<'_, L, R, D>,
) -> Result<bool, Status> {
    let mut workers = workers;
    let mut hand = manager.hire(rt)?;
    let reading = tie(rt, alloc, manager, &mut workers, &mut hand)?;
    work_off(&mut workers.client, &mut workers.second);
    let is_queued = is_put(rt, queue, pass, reading);
    answer_post(rt, manager, &mut hand, reading)?;
    Ok(is_queued)
}

// With room for two jobs: a job and a Stop.
fn aside_day<L: Ledger, R: Wait>(rt: &R, alloc: Global, blank: Blank) -> Result<bool, Status>
    requires blank { IsBlankOf blank.name blank.parts L.name L.parts }
{
    let manager = mounted::<Ties, L, R>(rt, alloc, filters(alloc)?, blank)?;
    let (queue, mut passes) = JobQueue::new(alloc, 2, 10)?;
    let hook = Watch::new();
    let jobs = &queue;
    let (Some(pass), Some(mut looks)) = (take_pass(jobs, &mut passes), take_pass(jobs, &mut passes))
    else {
        return Err(Status::TooMany);
    };
    let below = Filling {
        rt,
        queue: jobs,
        pass,
        below: folder(alloc)?,
    };
    let workers = make_workers(rt, alloc, &manager, jobs, &hook, &mut passes, below)?;
    set_aside(rt, alloc, &manager, jobs, &mut looks, workers)
}

#[test]
fn set_aside_and_put_later(rt: HostRuntime) {
    let seen = aside_day::<Brand, _>(&rt, rt.alloc(), Blank::new(PARTS));
    assert!(rt; matches!(seen, Ok(true)));
}
