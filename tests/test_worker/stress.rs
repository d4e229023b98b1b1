//! A client's random requests beside another's attaches, detaches and unloads of all samples, while two workers carry operations on, with queues of several
//! lengths. Each round must end, every context must be cleaned up, and there must have been some.

ghost use Rattle.std.specs.Prelude.{◌≡◌};
ghost use Rattle.fm_lock.specs.Blanks.{IsBlankOf};

use crate::fixture::{
    Folder, MemoryWorker, Numbers, VOLUME, Workers, create, end, folder, make_workers, mounted,
    new_worker,
};
use fm_altitude::Altitude;
use fm_callback_data::{FileRequest, Request};
use fm_lock::{Hand, Manager};
use fm_queue::JobQueue;
use fm_samples::{Carry, Guard, Hold, Meter, Sample, Shift, Stay};
use fm_types::limits::PARTS;
use fm_types::{Bytes, FilterId, HandleId, InstanceId, Name, Status};
use fm_worker::NoHook;
use std::alloc::Global;
use std::marker::Brand;
use std::sync::Wait;
use std::sync::atomic::{AtomicBool, AtomicU64, Ordering};
use std::sync::ledger::{Blank, Ledger};
use std::thread;
use std::thread::Threads;
use std::time::Clock;

/// How many requests the client makes in a round.
const REQUESTS: u64 = 120;

/// How many places the queues have, and how many rounds are made with each.
const PLACES: [usize; 3] = [1, 8, 272];

const ROUNDS: u64 = 4;

/// The samples' names, and the altitudes at which they are attached.
const NAMES: [&[u8]; 6] = [b"guard", b"meter", b"shift", b"hold", b"carry", b"stay"];

const ALTITUDES: [&[u8]; 4] = [b"100", b"200", b"300.5", b"400"];

/// How often the owner lets others run at most, until the client has asked for something more: a read that a filter holds is let go by the owner's next turns.
const PATIENCE: u64 = 200;

/// What the client and the owner tell each other: that the owner has begun, how many requests were made, and that there come no more.
#[derive(Drop)]
struct Race {
    has_begun: AtomicBool,
    asked: AtomicU64,
    is_over: AtomicBool,
}

/// That of a client or of a worker.
type OpenWorker<'a, L, R> = MemoryWorker<'a, Sample, L, R, NoHook>;

/// Numbers that look random, and are the same for the same seed.
#[derive(Clone, Copy)]
struct Random {
    state: u64,
}

impl Random {
    // A number below that limit.
    fn below(&mut self, limit: u64) -> u64 {
        let mut next = self.state;
        next ^= next << 13;
        next ^= next >> 7;
        next ^= next << 17;
        self.state = next;
        next.checked_rem(limit).unwrap_or(0)
    }
}

fn filters(alloc: Global) -> Result<Vec<(Name, Sample)>, Status> {
    let samples = [
        Sample::Guard(Guard),
        Sample::Meter(Meter::new(alloc)),
        Sample::Shift(Shift::new(alloc)),
        Sample::Hold(Hold),
        Sample::Carry(Carry::new(alloc)),
        Sample::Stay(Stay),
    ];
    let mut filters = Vec::new(alloc);
    for (name, sample) in NAMES.into_iter().zip(samples) {
        filters.push((Name::read(name)?, sample))?;
    }
    Ok(filters)
}

// Any request of one of the first handles.
fn request_of(alloc: Global, random: &mut Random) -> Result<Request, Status> {
    let handle = HandleId(random.below(4));
    let request = match random.below(8) {
        0 => return create(alloc, b"x"),
        1 | 2 | 3 => FileRequest::Read { offset: 0, len: 4 },
        4 | 5 => FileRequest::Write {
            offset: random.below(4),
            bytes: Bytes::copy_of(alloc, b"ab")?,
        },
        6 => FileRequest::Flush,
        _ => FileRequest::QuerySize,
    };
    Ok(Request::OnHandle { handle, request })
}

// The client's requests from the owner's beginning on, each after the answer of the one before; the first of them is a write, while `meter` is attached. How many were
// answered.
fn ask_all<L: Ledger, R: Wait>(
    rt: &R,
    alloc: Global,
    client: &mut OpenWorker<'_, L, R>,
    seed: u64,
    race: &Race,
) -> Result<u64, Status> {
    let mut random = Random { state: seed };
    let mut answered = 0_u64;
    client.answer(create(alloc, b"x")?)?;
    'begin: for _ in rt.forever() {
        if race.has_begun.load(Ordering::SeqCst) {
            break 'begin;
        }
        thread::yield_now();
    }
    client.answer(Request::OnHandle {
        handle: HandleId(0),
        request: FileRequest::Write {
            offset: 0,
            bytes: Bytes::copy_of(alloc, b"ab")?,
        },
    })?;
    for asked in 1..=REQUESTS {
        race.asked.store(asked, Ordering::SeqCst);
        if client.answer(request_of(alloc, &mut random)?).is_ok() {
            answered = answered.saturating_add(1);
        }
    }
    Ok(answered)
}

// Closes the handles that were given.
fn close_all<L: Ledger, R: Wait>(
    client: &mut OpenWorker<'_, L, R>,
    handles: u64,
) -> Result<(), Status> {
    for number in 0..handles {
        let handle = HandleId(number);
        for request in [FileRequest::Cleanup, FileRequest::Close] {
            client.answer(Request::OnHandle { handle, request })?;
        }
    }
    Ok(())
}

fn ask_and_close<L: Ledger, R: Wait>(
    rt: &R,
    alloc: Global,
    manager: &Manager<Sample, L>,
    client: &mut OpenWorker<'_, L, R>,
    seed: u64,
    race: &Race,
) -> Result<u64, Status> {
    let answered = ask_all(rt, alloc, client, seed, race)?;
    close_all(client, manager.handles_given(rt))?;
    Ok(answered)
}

fn ask_and_tell<L: Ledger, R: Wait>(
    rt: &R,
    alloc: Global,
    manager: &Manager<Sample, L>,
    client: &mut OpenWorker<'_, L, R>,
    seed: u64,
    race: &Race,
) -> Result<u64, Status> {
    let answered = ask_and_close(rt, alloc, manager, client, seed, race);
    race.is_over.store(true, Ordering::SeqCst);
    answered
}

// One of the last instances, or one that isn't there.
fn instance_of<L: Ledger, R: Wait>(
    rt: &R,
    manager: &Manager<Sample, L>,
    random: &mut Random,
) -> InstanceId {
    let last = manager.instances(rt);
    let back = usize::try_from(random.below(6)).unwrap_or(0);
    InstanceId(u16::try_from(last.saturating_sub(back)).unwrap_or(0))
}

// Any filter that may have been loaded: there are at most 16 loads.
fn filter_of(random: &mut Random) -> FilterId {
    FilterId(u8::try_from(random.below(16)).unwrap_or(0))
}

// Loads or attaches any filter.
fn attach_any<L: Ledger, R: Wait>(
    owner: &mut OpenWorker<'_, L, R>,
    random: &mut Random,
) -> Result<(), Status> {
    let named = usize::try_from(random.below(6)).unwrap_or(0);
    let placed = usize::try_from(random.below(4)).unwrap_or(0);
    let name = Name::read(NAMES[named % 6])?;
    let _ = owner.load(&name);
    let altitude = Altitude::read(ALTITUDES[placed % 4])?;
    let _ = owner.attach(filter_of(random), VOLUME, name, altitude)?;
    Ok(())
}

// Waits until the client has asked for something more, but not for ever. How many requests there are then.
fn wait_for_more(race: &Race, seen: u64) -> u64 {
    'waits: for _ in 0..PATIENCE {
        if race.asked.load(Ordering::SeqCst) != seen {
            break 'waits;
        }
        thread::yield_now();
    }
    race.asked.load(Ordering::SeqCst)
}

// Attaches `meter`, whose contexts there are to be, and waits for a write.
fn begin<L: Ledger, R: Wait>(
    rt: &R,
    owner: &mut OpenWorker<'_, L, R>,
    race: &Race,
) -> Result<(), Status> {
    let name = Name::read(b"meter")?;
    let filter = owner.load(&name)?;
    let _ = owner.attach(filter, VOLUME, name, Altitude::read(b"250")?)?;
    race.has_begun.store(true, Ordering::SeqCst);
    'waits: for _ in rt.forever() {
        if race.asked.load(Ordering::SeqCst) > 0 || race.is_over.load(Ordering::SeqCst) {
            break 'waits;
        }
        thread::yield_now();
    }
    Ok(())
}

// Attaches and detaches until the client is over. What is refused is asked for again later, or never.
fn manage<L: Ledger, R: Wait>(
    rt: &R,
    manager: &Manager<Sample, L>,
    owner: &mut OpenWorker<'_, L, R>,
    seed: u64,
    race: &Race,
) {
    let mut random = Random { state: seed };
    let mut seen = 0;
    let _ = begin(rt, owner, race);
    race.has_begun.store(true, Ordering::SeqCst);
    'turns: for _ in rt.forever() {
        if race.is_over.load(Ordering::SeqCst) {
            break 'turns;
        }
        seen = wait_for_more(race, seen);
        match random.below(16) {
            0..=9 => {
                let _ = attach_any(owner, &mut random);
            }
            15 => {
                let _ = owner.unload(filter_of(&mut random));
            }
            _ => {
                let _ = owner.detach(instance_of(rt, manager, &mut random));
            }
        }
    }
}

// Every filter is unloaded.
fn unload_all<L: Ledger, R: Wait>(filters: usize, owner: &mut OpenWorker<'_, L, R>) {
    for filter in 0..u8::try_from(filters).unwrap_or(u8::MAX) {
        let _ = owner.force_unload(FilterId(filter));
    }
}

// After the client's last answer every filter is unloaded, and both workers end.
fn manage_and_finish<L: Ledger, R: Wait>(
    rt: &R,
    manager: &Manager<Sample, L>,
    owner: &mut OpenWorker<'_, L, R>,
    seed: u64,
    race: &Race,
) {
    manage(rt, manager, owner, seed, race);
    unload_all(manager.filters(rt), owner);
    owner.stop_worker();
    owner.stop_worker();
}

// Unloads what a worker was still cleaning up of, and hands out the hands of all four.
fn leave<L: Ledger, R: Wait>(
    alloc: Global,
    filters: usize,
    workers: Workers<'_, Sample, L, R, NoHook, Folder>,
    owner: OpenWorker<'_, L, R>,
) -> Result<Vec<Hand<L>>, Status> {
    let Workers {
        client,
        first,
        second,
    } = workers;
    let mut owner = owner;
    unload_all(filters, &mut owner);
    let mut hands = Vec::with_capacity(alloc, 4)?;
    hands.push(client.into_parts().0)?;
    hands.push(first.into_parts().0)?;
    hands.push(second.into_parts().0)?;
    hands.push(owner.into_parts().0)?;
    Ok(hands)
}

// All four at once, and then the rest: how many requests were answered, and the hands.
fn race_and_leave<L: Ledger + Send + Sync, R: Threads + Wait + Clock + Sync>(
    rt: &R,
    alloc: Global,
    manager: &Manager<Sample, L>,
    workers: Workers<'_, Sample, L, R, NoHook, Folder>,
    owner: OpenWorker<'_, L, R>,
    seed: u64,
) -> Result<(u64, Vec<Hand<L>>), Status> {
    let Workers {
        mut client,
        mut first,
        mut second,
    } = workers;
    let mut owner = owner;
    let race = Race {
        has_begun: AtomicBool::new(false),
        asked: AtomicU64::new(0),
        is_over: AtomicBool::new(false),
    };
    let (answered, _) = thread::join(
        rt,
        || ask_and_tell(rt, alloc, manager, &mut client, seed, &race),
        || {
            thread::join(
                rt,
                || manage_and_finish(rt, manager, &mut owner, seed.wrapping_add(1), &race),
                || thread::join(rt, || first.work(), || second.work()),
            )
        },
    );
    let workers = Workers {
        client,
        first,
        second,
    };
    let hands = leave(alloc, manager.filters(rt), workers, owner)?;
    Ok((answered?, hands))
}

fn stress_round<L: Ledger + Send + Sync, R: Threads + Wait + Clock + Sync>(
    rt: &R,
    alloc: Global,
    blank: Blank,
    places: usize,
    seed: u64,
) -> Result<(u64, Numbers), Status>
    requires blank { IsBlankOf blank.name blank.parts L.name L.parts }
{
    let manager = mounted::<Sample, L, R>(rt, alloc, filters(alloc)?, blank)?;
    let (queue, mut passes) = JobQueue::new(alloc, places, 8)?;
    let hook = NoHook;
    let below = folder(alloc)?;
    let workers = make_workers(rt, alloc, &manager, &queue, &hook, &mut passes, below)?;
    let owner = new_worker(rt, alloc, &manager, &queue, &hook, &mut passes)?;
    let (answered, hands) = race_and_leave(rt, alloc, &manager, workers, owner, seed)?;
    Ok((answered, end(manager, hands)?))
}

#[test]
fn stress(rt: HostRuntime) {
    let mut all_born = 0_u64;
    for places in PLACES {
        for seed in 1..=ROUNDS {
            let seen = stress_round::<Brand, _>(&rt, rt.alloc(), Blank::new(PARTS), places, seed);
            assert!(rt;
                matches!(seen, Ok((answered, Numbers { born, cleaned, leaks: 0 })) if born == cleaned && answered > 0)
            );
            all_born = all_born.saturating_add(seen.map_or(0, |(_, numbers)| numbers.born));
        }
    }
    assert!(rt; all_born > 0);
}
