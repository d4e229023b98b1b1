//! Jobs that are put one by one, each at another moment of its taker's way to sleep: none is left in the queue while the taker sleeps.

ghost use Rattle.std.specs.Prelude.{◌≡◌, All, IfSome};
ghost use Rattle.fm_queue.specs.Passes.{IsPassOf};

use crate::fixture::LOOKS;
use fm_queue::{Job, JobPass, JobQueue};
use fm_types::OpId;
use std::alloc::Global;
use std::sync::Wait;
use std::sync::atomic::{AtomicU64, Ordering};
use std::thread;
use std::thread::Threads;
use std::time::{Clock, Duration};

/// How many jobs are put, and how many loads lie between two of them at most: about as long as a taker looks before it sleeps.
const JOBS: u64 = 1_000;

const LONGEST: u64 = 30_000;

// Takes a pass of the queue.
fn take_pass(queue: &JobQueue, passes: &mut Vec<JobPass>) -> Option<JobPass>
    requires own { All (λ pass. IsPassOf queue.now pass) passes.old.items }
    ensures own { All (λ pass. IsPassOf queue.now pass) passes.new.items }
    ensures taken { IfSome result (λ pass. IsPassOf queue.now pass) }
{
    passes.pop()
}

// Takes jobs up to a Stop, and counts them.
fn take_all<R: Wait>(rt: &R, queue: &JobQueue, pass: &mut JobPass, taken: &AtomicU64)
    requires own { IsPassOf queue.now pass.old }
    ensures own { IsPassOf queue.now pass.new }
{
    'jobs: for _ in rt.forever() {
        if queue.take(rt, pass) == Job::Stop {
            break 'jobs;
        }
        taken.fetch_add(1, Ordering::SeqCst);
    }
}

// Whether so many jobs are taken before ten seconds have gone.
fn is_taken<R: Wait + Clock>(rt: &R, taken: &AtomicU64, count: u64) -> bool {
    for _ in 0..LONGEST {
        if taken.load(Ordering::SeqCst) == count {
            return true;
        }
    }
    for _ in 0..LOOKS {
        if taken.load(Ordering::SeqCst) == count {
            return true;
        }
        thread::sleep(rt, Duration::from_millis(1));
    }
    false
}

// Puts the jobs, each once the one before is taken and some loads were made. Whether each was taken.
fn put_all<R: Wait + Clock>(
    rt: &R,
    queue: &JobQueue,
    pass: &mut JobPass,
    taken: &AtomicU64,
) -> bool
    requires own { IsPassOf queue.now pass.old }
    ensures own { IsPassOf queue.now pass.new }
{
    let mut is_well = true;
    'jobs: for number in 0..JOBS {
        for _ in 0..number.wrapping_mul(7919) % LONGEST {
            if taken.load(Ordering::SeqCst) > JOBS {
                break 'jobs;
            }
        }
        let _ = queue.put(rt, pass, Job::Run(OpId(number)));
        if !is_taken(rt, taken, number.saturating_add(1)) {
            is_well = false;
            break 'jobs;
        }
    }
    let _ = queue.put(rt, pass, Job::Stop);
    is_well
}

// Both at once.
fn are_taken<R: Threads + Wait + Clock + Sync>(rt: &R, alloc: Global) -> Option<bool> {
    let (queue, mut passes) = JobQueue::new(alloc, 4, 4).ok()?;
    let mut takes = take_pass(&queue, &mut passes)?;
    let mut puts = take_pass(&queue, &mut passes)?;
    let taken = AtomicU64::new(0);
    let (_, is_well) = thread::join(
        rt,
        || take_all(rt, &queue, &mut takes, &taken),
        || put_all(rt, &queue, &mut puts, &taken),
    );
    Some(is_well)
}

#[test]
fn none_is_left_while_its_taker_sleeps(rt: HostRuntime) {
    assert!(rt; are_taken(&rt, rt.alloc()) == Some(true));
}
