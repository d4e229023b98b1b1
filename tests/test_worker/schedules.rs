//! Filters under many orders of their callbacks: by seeds, and by a search over all.

ghost use Rattle.std.specs.Prelude.{◌≡◌};
ghost use Rattle.fm_lock.specs.Blanks.{IsBlankOf};

use crate::fixture::{
    Folder, MemoryWorker, Numbers, Workers, alone, attach, begin, collect, create, end, folder,
    hands_of, make_workers, mounted, on_file, read,
};
use crate::unlocked::Unlocked;
use fm_callback_data::FileRequest;
use fm_lock::{Hand, Manager};
use fm_queue::JobQueue;
use test_schedule::{Chooser, Schedule, ScheduleHook, Went};
use fm_types::limits::PARTS;
use fm_types::{FilterId, Name, OpId, Status, WorkerId};
use std::alloc::Global;
use std::marker::Brand;
use std::sync::atomic::{AtomicU64, Ordering};
use std::sync::ledger::{Blank, Ledger};
use std::sync::{Arc, Wait};
use std::thread;
use std::thread::Threads;
use std::time::{Clock, Duration};

/// How many seconds the hook waits for a thread that doesn't come. None waits for another one here.
const PATIENCE: u64 = 20;

/// How many seeds are tried.
const SEEDS: u64 = 16;

/// How many orders a search may see.
const ORDERS: u64 = 1_000;

/// A worker of a manager of the filter, before the hook.
type Scheduled<'a, L, R> = MemoryWorker<'a, Unlocked, L, R, ScheduleHook<'a, R>>;

/// What a run was: its schedule, how many reads the filter counted, and what the manager's report says of contexts.
#[derive(Drop)]
struct Run {
    schedule: Schedule,
    counted: u64,
    numbers: Numbers,
}

impl Run {
    // Whether choices alone made its order, and nothing was left behind.
    fn is_clean(&self) -> bool {
        self.schedule.is_repeatable()
            && self.numbers.born == self.numbers.cleaned
            && self.numbers.leaks == 0
    }
}

// The filter, its instance, and a file.
fn open<L: Ledger, R: Wait + Clock + Sync>(
    rt: &R,
    alloc: Global,
    manager: &Manager<Unlocked, L>,
    client: &mut Scheduled<'_, L, R>,
) -> Result<(), Status> {
    attach(client, b"unlocked", b"100")?;
    let creating = manager.begin(rt, create(alloc, b"x")?)?;
    alone(rt, manager, client, creating)?;
    Ok(())
}

// Begins so many reads.
fn begin_reads<L: Ledger, R: Wait + Clock + Sync>(
    rt: &R,
    alloc: Global,
    manager: &Manager<Unlocked, L>,
    client: &mut Scheduled<'_, L, R>,
    reads: usize,
) -> Result<Vec<OpId>, Status> {
    let mut begun = Vec::new(alloc);
    for _ in 0..reads {
        begun.push(begin(rt, manager, client, read(0, 0))?)?;
    }
    Ok(begun)
}

// Collects the answers, closes the file and unloads the filter.
fn leave<L: Ledger, R: Wait + Clock + Sync>(
    rt: &R,
    manager: &Manager<Unlocked, L>,
    client: &mut Scheduled<'_, L, R>,
    begun: Vec<OpId>,
) -> Result<(), Status> {
    for operation in begun {
        collect(rt, manager, operation)?;
    }
    let cleanup = manager.begin(rt, on_file(FileRequest::Cleanup))?;
    alone(rt, manager, client, cleanup)?;
    let close = manager.begin(rt, on_file(FileRequest::Close))?;
    alone(rt, manager, client, close)?;
    client.unload(FilterId(0))
}

// What a worker's thread does.
fn work<L: Ledger, R: Wait + Clock + Sync>(
    hook: &ScheduleHook<'_, R>,
    number: WorkerId,
    worker: &mut Scheduled<'_, L, R>,
) {
    hook.enter(number);
    worker.work();
    hook.leave(number);
}

// Reads that two workers carry on, each in a thread of its own: the hands of all.
fn read_by_two<'a, L: Ledger + Send + Sync, R: Threads + Wait + Clock + Sync>(
    rt: &R,
    alloc: Global,
    manager: &Manager<Unlocked, L>,
    hook: &ScheduleHook<'a, R>,
    workers: Workers<'a, Unlocked, L, R, ScheduleHook<'a, R>, Folder>,
    reads: usize,
) -> Result<Vec<Hand<L>>, Status> {
    let Workers {
        mut client,
        mut first,
        mut second,
    } = workers;
    open(rt, alloc, manager, &mut client)?;
    let begun = begin_reads(rt, alloc, manager, &mut client, reads)?;
    client.stop_worker();
    client.stop_worker();
    hook.expect(2);
    thread::join(
        rt,
        || work(hook, WorkerId(0), &mut first),
        || work(hook, WorkerId(1), &mut second),
    );
    leave(rt, manager, &mut client, begun)?;
    hands_of(alloc, client, first, second)
}

fn filters(alloc: Global, counted: &Arc<AtomicU64>) -> Result<Vec<(Name, Unlocked)>, Status> {
    let mut filters = Vec::new(alloc);
    let filter = Unlocked::new(Arc::try_clone(counted)?);
    filters.push((Name::read(b"unlocked")?, filter))?;
    Ok(filters)
}

// One run, with a manager and a filter of its own.
fn run_at<L: Ledger + Send + Sync, R: Threads + Wait + Clock + Sync>(
    rt: &R,
    alloc: Global,
    blank: Blank,
    chooser: Chooser,
    reads: usize,
) -> Result<Run, Status>
    requires blank { IsBlankOf blank.name blank.parts L.name L.parts }
{
    let counted = Arc::new(alloc, AtomicU64::new(0))?;
    let manager = mounted::<Unlocked, L, R>(rt, alloc, filters(alloc, &counted)?, blank)?;
    let (queue, mut passes) = JobQueue::new(alloc, 272, 6)?;
    let hook = ScheduleHook::new(rt, alloc, Duration::from_secs(PATIENCE), chooser);
    let below = folder(alloc)?;
    let workers = make_workers(rt, alloc, &manager, &queue, &hook, &mut passes, below)?;
    let hands = read_by_two(rt, alloc, &manager, &hook, workers, reads)?;
    let numbers = end(manager, hands)?;
    Ok(Run {
        schedule: hook.into_schedule(),
        counted: counted.load(Ordering::SeqCst),
        numbers,
    })
}

fn one_run<R: Threads + Wait + Clock + Sync>(
    rt: &R,
    alloc: Global,
    chooser: Chooser,
    reads: usize,
) -> Result<Run, Status> {
    run_at::<Brand, R>(rt, alloc, Blank::new(PARTS), chooser, reads)
}

// The order of three reads by a seed, which a second run repeats.
fn order_of<R: Threads + Wait + Clock + Sync>(
    rt: &R,
    alloc: Global,
    seed: u64,
) -> Result<Vec<Went>, Status> {
    let once = one_run(rt, alloc, Chooser::Seed(seed), 3)?;
    let again = one_run(rt, alloc, Chooser::Seed(seed), 3)?;
    if !once.is_clean() || !again.is_clean() || once.counted != again.counted {
        return Err(Status::WrongStep);
    }
    if once.schedule.choices.as_slice() != again.schedule.choices.as_slice()
        || once.schedule.went.as_slice() != again.schedule.went.as_slice()
    {
        return Err(Status::WrongStep);
    }
    Ok(once.schedule.went)
}

// How many orders the seeds make.
fn orders<R: Threads + Wait + Clock + Sync>(rt: &R, alloc: Global) -> Result<usize, Status> {
    let mut seen: Vec<Vec<Went>> = Vec::new(alloc);
    for seed in 0..SEEDS {
        let order = order_of(rt, alloc, seed)?;
        if !seen
            .iter()
            .any(|known| known.as_slice() == order.as_slice())
        {
            seen.push(order)?;
        }
    }
    Ok(seen.len())
}

#[test]
fn seeds_repeat_their_orders(rt: HostRuntime) {
    let seen = orders(&rt, rt.alloc());
    assert!(rt; matches!(seen, Ok(orders) if orders >= 8));
}

// A run by a path whose first option isn't there: whether it says so, and what comes next by it.
fn strays<R: Threads + Wait + Clock + Sync>(
    rt: &R,
    alloc: Global,
) -> Result<(bool, Option<Status>), Status> {
    let mut path = Vec::new(alloc);
    path.push(7)?;
    let run = one_run(rt, alloc, Chooser::Path(path), 2)?;
    Ok((
        run.schedule.is_repeatable(),
        run.schedule.next_path(alloc).err(),
    ))
}

#[test]
fn a_path_that_strays(rt: HostRuntime) {
    let seen = strays(&rt, rt.alloc());
    assert!(rt; matches!(seen, Ok((false, Some(Status::BadRequest)))));
}

/// What a search found: how many orders there are, and how many of them lose a read.
#[derive(Clone, Copy, Debug, PartialEq, Eq)]
struct Found {
    orders: u64,
    losing: u64,
}

// Adds a run of two reads, and says what the next one is.
fn search_on<R: Threads + Wait + Clock + Sync>(
    rt: &R,
    alloc: Global,
    path: Vec<usize>,
    found: &mut Found,
) -> Result<Option<Vec<usize>>, Status> {
    let run = one_run(rt, alloc, Chooser::Path(path), 2)?;
    if !run.is_clean() {
        return Err(Status::WrongStep);
    }
    found.orders = found.orders.saturating_add(1);
    if run.counted != 2 {
        found.losing = found.losing.saturating_add(1);
    }
    run.schedule.next_path(alloc)
}

// All orders of two reads.
fn search<R: Threads + Wait + Clock + Sync>(rt: &R, alloc: Global) -> Result<Found, Status> {
    let mut found = Found {
        orders: 0,
        losing: 0,
    };
    let mut path = Vec::new(alloc);
    for _ in 0..ORDERS {
        match search_on(rt, alloc, path, &mut found)? {
            Some(next) => path = next,
            None => return Ok(found),
        }
    }
    Err(Status::TooMany)
}

// Two steps of one read and two of the other come in 6 orders, and in 2 of them the reads come one after the other.
#[test]
fn two_reads_in_every_order(rt: HostRuntime) {
    let found = search(&rt, rt.alloc());
    assert!(rt;
        matches!(
            found,
            Ok(Found {
                orders: 6,
                losing: 4
            })
        )
    );
}
