//! A detach beside reads under orders that seeds pick, and a client that the hook has to pass over.

ghost use Rattle.std.specs.Prelude.{◌≡◌};
ghost use Rattle.fm_lock.specs.Blanks.{IsBlankOf};

use crate::fixture::{
    Folder, MemoryWorker, Numbers, Workers, begin, end, folder, hands_of, make_workers, mounted,
    on_file, read,
};
use crate::teardown_race::{begin_reads, filters, leave, open};
use fm_callback_data::FileRequest;
use fm_lock::{Hand, Manager};
use fm_queue::JobQueue;
use fm_samples::Sample;
use test_schedule::{Chooser, Next, Schedule, ScheduleHook};
use fm_types::limits::PARTS;
use fm_types::{InstanceId, OpId, Status, WorkerId};
use std::alloc::Global;
use std::marker::Brand;
use std::sync::Wait;
use std::sync::ledger::{Blank, Ledger};
use std::thread;
use std::thread::Threads;
use std::time::{Clock, Duration};

/// How many seeds are tried.
const SEEDS: u64 = 8;

/// How many reads are begun beside the detach.
const READS: usize = 3;

/// How many milliseconds the hook waits for a thread that doesn't come: where none waits for another one, and where one does.
const LONG: u64 = 20_000;

const SHORT: u64 = 20;

/// The workers' numbers, in the order in which they are hired.
const FIRST: WorkerId = WorkerId(0);

const SECOND: WorkerId = WorkerId(1);

const CLIENT: WorkerId = WorkerId(2);

/// A worker before the hook.
type Scheduled<'a, L, R> = MemoryWorker<'a, Sample, L, R, ScheduleHook<'a, R>>;

/// What the client does beside both workers.
#[derive(Clone, Copy, Debug, PartialEq, Eq)]
enum Beside {
    /// It detaches both instances, one after the other.
    Detach,
    /// It has a worker read, and waits for the answer without leaving the hook.
    Read,
}

/// What a run was: its schedule, and what the manager's report says of contexts.
#[derive(Drop)]
struct Run {
    schedule: Schedule,
    numbers: Numbers,
}

impl Run {
    // Whether every context was cleaned up, of those that there were, and no reference was left behind.
    fn is_clean(&self) -> bool {
        self.numbers.born > 0
            && self.numbers.born == self.numbers.cleaned
            && self.numbers.leaks == 0
    }
}

// The last jobs: the file's cleanup, and a Stop for each worker.
fn put_last<L: Ledger, R: Wait + Clock + Sync>(
    rt: &R,
    manager: &Manager<Sample, L>,
    client: &mut Scheduled<'_, L, R>,
    begun: &mut Vec<OpId>,
) -> Result<(), Status> {
    begun.push(begin(rt, manager, client, on_file(FileRequest::Cleanup))?)?;
    client.stop_worker();
    client.stop_worker();
    Ok(())
}

// What a worker's thread does.
fn work<L: Ledger, R: Wait + Clock + Sync>(
    hook: &ScheduleHook<'_, R>,
    number: WorkerId,
    worker: &mut Scheduled<'_, L, R>,
) {
    hook.enter(number);
    worker.work();
    hook.leave(number);
}

// The detach of both instances, each as far as it goes when its turn comes.
fn detach<L: Ledger, R: Wait + Clock + Sync>(
    hook: &ScheduleHook<'_, R>,
    client: &mut Scheduled<'_, L, R>,
) {
    hook.pause(CLIENT, 0);
    let _ = client.detach(InstanceId(0));
    hook.pause(CLIENT, 1);
    let _ = client.detach(InstanceId(1));
}

// Detaches, when all jobs are put.
fn put_and_detach<L: Ledger, R: Wait + Clock + Sync>(
    rt: &R,
    manager: &Manager<Sample, L>,
    hook: &ScheduleHook<'_, R>,
    client: &mut Scheduled<'_, L, R>,
    begun: &mut Vec<OpId>,
) -> Result<(), Status> {
    let put = put_last(rt, manager, client, begun);
    hook.enter(CLIENT);
    detach(hook, client);
    hook.leave(CLIENT);
    put
}

// Has a worker carry a read on, and waits for its answer. Refused with 30 if none comes.
fn read_by_a_worker<L: Ledger, R: Wait + Clock + Sync>(
    rt: &R,
    manager: &Manager<Sample, L>,
    client: &mut Scheduled<'_, L, R>,
) -> Result<(), Status> {
    let reading = begin(rt, manager, client, read(0, 0))?;
    match client.wait_for(reading, Duration::from_millis(LONG))? {
        Some(_) => Ok(()),
        None => Err(Status::WrongStep),
    }
}

// Reads and waits, while workers wait for jobs.
fn wait_and_put<L: Ledger, R: Wait + Clock + Sync>(
    rt: &R,
    manager: &Manager<Sample, L>,
    hook: &ScheduleHook<'_, R>,
    client: &mut Scheduled<'_, L, R>,
    begun: &mut Vec<OpId>,
) -> Result<(), Status> {
    hook.enter(CLIENT);
    let answered = read_by_a_worker(rt, manager, client);
    let put = put_last(rt, manager, client, begun);
    hook.leave(CLIENT);
    answered?;
    put
}

// What the client's thread does.
fn go_beside<L: Ledger, R: Wait + Clock + Sync>(
    rt: &R,
    manager: &Manager<Sample, L>,
    hook: &ScheduleHook<'_, R>,
    client: &mut Scheduled<'_, L, R>,
    begun: &mut Vec<OpId>,
    beside: Beside,
) -> Result<(), Status> {
    match beside {
        Beside::Detach => put_and_detach(rt, manager, hook, client, begun),
        Beside::Read => wait_and_put(rt, manager, hook, client, begun),
    }
}

// All three at once, and then the rest: the hands.
fn go_and_leave<'a, L: Ledger + Send + Sync, R: Threads + Wait + Clock + Sync>(
    rt: &R,
    alloc: Global,
    manager: &Manager<Sample, L>,
    hook: &ScheduleHook<'a, R>,
    workers: Workers<'a, Sample, L, R, ScheduleHook<'a, R>, Folder>,
    beside: Beside,
) -> Result<Vec<Hand<L>>, Status> {
    let Workers {
        mut client,
        mut first,
        mut second,
    } = workers;
    open(rt, alloc, manager, &mut client)?;
    let mut begun = Vec::new(alloc);
    begin_reads(rt, manager, &mut client, &mut begun, READS)?;
    hook.expect(3);
    let (gone, _) = thread::join(
        rt,
        || go_beside(rt, manager, hook, &mut client, &mut begun, beside),
        || {
            thread::join(
                rt,
                || work(hook, FIRST, &mut first),
                || work(hook, SECOND, &mut second),
            )
        },
    );
    gone?;
    leave(rt, manager, &mut client, begun)?;
    hands_of(alloc, client, first, second)
}

// One run, with a manager and filters of its own.
fn run_at<L: Ledger + Send + Sync, R: Threads + Wait + Clock + Sync>(
    rt: &R,
    alloc: Global,
    blank: Blank,
    seed: u64,
    beside: Beside,
    patience: u64,
) -> Result<Run, Status>
    requires blank { IsBlankOf blank.name blank.parts L.name L.parts }
{
    let manager = mounted::<Sample, L, R>(rt, alloc, filters(alloc)?, blank)?;
    let (queue, mut passes) = JobQueue::new(alloc, 272, 6)?;
    let patience = Duration::from_millis(patience);
    let hook = ScheduleHook::new(rt, alloc, patience, Chooser::Seed(seed));
    let below = folder(alloc)?;
    let workers = make_workers(rt, alloc, &manager, &queue, &hook, &mut passes, below)?;
    let hands = go_and_leave(rt, alloc, &manager, &hook, workers, beside)?;
    let numbers = end(manager, hands)?;
    Ok(Run {
        schedule: hook.into_schedule(),
        numbers,
    })
}

fn one_run<R: Threads + Wait + Clock + Sync>(
    rt: &R,
    alloc: Global,
    seed: u64,
    beside: Beside,
    patience: u64,
) -> Result<Run, Status> {
    run_at::<Brand, R>(rt, alloc, Blank::new(PARTS), seed, beside, patience)
}

// How many drains met at the hook in a run.
fn drains(run: &Run) -> usize {
    run.schedule
        .went
        .iter()
        .filter(|went| matches!(went.next, Next::Drain(_)))
        .count()
}

// How many drains a detach under a seed has. Refused with 30 if it doesn't end well, or a second run has another order.
fn repeats<R: Threads + Wait + Clock + Sync>(
    rt: &R,
    alloc: Global,
    seed: u64,
) -> Result<usize, Status> {
    let once = one_run(rt, alloc, seed, Beside::Detach, LONG)?;
    let again = one_run(rt, alloc, seed, Beside::Detach, LONG)?;
    let is_well = once.is_clean()
        && again.is_clean()
        && once.schedule.is_repeatable()
        && again.schedule.is_repeatable()
        && once.schedule.choices.as_slice() == again.schedule.choices.as_slice()
        && once.schedule.went.as_slice() == again.schedule.went.as_slice();
    if is_well {
        Ok(drains(&once))
    } else {
        Err(Status::WrongStep)
    }
}

#[test]
fn detach_under_seeds(rt: HostRuntime) {
    let mut all = 0;
    for seed in 0..SEEDS {
        let drains = repeats(&rt, rt.alloc(), seed);
        assert!(rt; drains.is_ok());
        all += drains.unwrap_or(0);
    }
    assert!(rt; all > 0);
}

// The client has its turn while it waits for the workers. They go on all the same, and it gets its answer.
#[test]
fn waiting_client_is_passed_over(rt: HostRuntime) {
    let seen = one_run(&rt, rt.alloc(), 0, Beside::Read, SHORT);
    assert!(rt; matches!(&seen, Ok(run) if run.is_clean() && run.schedule.passed_over > 0));
}
