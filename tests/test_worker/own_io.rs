//! What a filter begins for itself: a scanner reads what is opened, below itself, by another worker. And which workers may wait for such an operation.

ghost use Rattle.std.specs.Prelude.{◌≡◌, All};
ghost use Rattle.fm_queue.specs.Passes.{IsPassOf};
ghost use Rattle.fm_lock.specs.Blanks.{IsBlankOf};

use crate::fixture::{attach, await_workers, create, mounted, on_file, read};
use fm_callback_data::{Answer, BaseCall, FileRequest, Params};
use fm_device::Device;
use fm_lock::{Hand, Manager};
use fm_queue::{JobPass, JobQueue};
use fm_samples::{Meter, Sample, Scan, Shift};
use fm_types::limits::PARTS;
use fm_types::{Bytes, FilterId, Name, Status};
use fm_worker::{NoHook, Worker};
use std::alloc::Global;
use std::marker::Brand;
use std::sync::Wait;
use std::sync::ledger::{Blank, Ledger};
use std::thread;
use std::thread::Threads;
use std::time::Clock;

/// A file system in which each file has the same bytes, whichever thread asks.
#[derive(Drop)]
struct SameBytes {
    alloc: Global,
    bytes: [u8; 4],
}

impl Device for SameBytes {
    ghost use Rattle.std.specs.Prelude.{⊤};

    ghost carries = { λ _ _ _ _. ⊤ };

    fn call(&mut self, call: &BaseCall) -> Answer {
        let bytes = match call.params() {
            Params::Read { .. } => self.bytes.as_slice(),
            _ => &[],
        };
        match Bytes::copy_of(self.alloc, bytes) {
            Ok(bytes) => Answer {
                status: Status::Success,
                information: bytes.len() as u64,
                bytes,
            },
            Err(_) => Answer {
                status: Status::NoMemory,
                information: 0,
                bytes: Bytes::new(self.alloc),
            },
        }
    }
}

/// That of a client or of a worker.
type SameWorker<'a, L, R> = Worker<'a, Sample, L, R, NoHook, SameBytes>;

// The filters, the scanner first.
fn filters(alloc: Global) -> Result<Vec<(Name, Sample)>, Status> {
    let mut filters = Vec::new(alloc);
    filters.push((Name::read(b"scan")?, Sample::Scan(Scan::new(alloc))))?;
    filters.push((Name::read(b"shift")?, Sample::Shift(Shift::new(alloc))))?;
    filters.push((Name::read(b"meter")?, Sample::Meter(Meter::new(alloc))))?;
    Ok(filters)
}

// A thread's worker above that file system.
fn new_worker<'a, L: Ledger, R: Wait>(
    rt: &'a R,
    alloc: Global,
    manager: &'a Manager<Sample, L>,
    queue: &'a JobQueue,
    bytes: [u8; 4],
    passes: &mut Vec<JobPass>,
) -> Result<SameWorker<'a, L, R>, Status>
    requires { All (λ pass. IsPassOf queue.now pass) passes.old.items }
    ensures { All (λ pass. IsPassOf queue.now pass) passes.new.items }
{
    Worker::new(rt, manager, queue, &NoHook, alloc, passes, SameBytes { alloc, bytes })
}

// What a read of a file is answered that was opened by this client.
fn read_opened<L: Ledger, R: Wait>(
    alloc: Global,
    client: &mut SameWorker<'_, L, R>,
) -> Result<Status, Status> {
    client.answer(create(alloc, b"x")?)?;
    let status = client.answer(read(0, 4))?.status;
    client.answer(on_file(FileRequest::Cleanup))?;
    client.answer(on_file(FileRequest::Close))?;
    Ok(status)
}

// A scanner alone, and no worker that could carry its read on.
fn nobody_carries<L: Ledger, R: Wait>(
    rt: &R,
    alloc: Global,
    blank: Blank,
) -> Result<Status, Status>
    requires blank { IsBlankOf blank.name blank.parts L.name L.parts }
{
    let manager = mounted::<Sample, L, R>(rt, alloc, filters(alloc)?, blank)?;
    let (queue, mut passes) = JobQueue::new(alloc, 272, 2)?;
    let mut client = new_worker(rt, alloc, &manager, &queue, *b"foul", &mut passes)?;
    attach(&mut client, b"scan", b"100")?;
    read_opened(alloc, &mut client)
}

#[test]
fn a_file_passes_that_nobody_can_scan(rt: HostRuntime) {
    let seen = nobody_carries::<Brand, _>(&rt, rt.alloc(), Blank::new(PARTS));
    assert!(rt; matches!(seen, Ok(Status::Success)));
}

// The meter stands above the scanner, and what raises each byte below it. What the read is answered, and what the meter counted.
fn scan_between<L: Ledger, R: Wait>(
    rt: &R,
    alloc: Global,
    manager: &Manager<Sample, L>,
    client: &mut SameWorker<'_, L, R>,
) -> Result<(Status, u64), Status> {
    attach(client, b"scan", b"200")?;
    attach(client, b"shift", b"100")?;
    attach(client, b"meter", b"300")?;
    let status = read_opened(alloc, client)?;
    client.unload(FilterId(2))?;
    Ok((status, manager.total(rt, FilterId(2))))
}

// The client asks once both workers take jobs, without whom nobody could carry the scanner's read on. Then it has both end.
fn ask_two<L: Ledger, R: Wait + Clock>(
    rt: &R,
    alloc: Global,
    manager: &Manager<Sample, L>,
    client: &mut SameWorker<'_, L, R>,
) -> Result<(Status, u64), Status> {
    let seen = match await_workers(rt, manager, 2) {
        Ok(()) => scan_between(rt, alloc, manager, client),
        Err(late) => Err(late),
    };
    client.stop_worker();
    client.stop_worker();
    seen
}

fn scan_day<L: Ledger + Send + Sync, R: Threads + Wait + Sync + Clock>(
    rt: &R,
    alloc: Global,
    bytes: [u8; 4],
    blank: Blank,
) -> Result<(Status, u64), Status>
    requires blank { IsBlankOf blank.name blank.parts L.name L.parts }
{
    let manager = mounted::<Sample, L, R>(rt, alloc, filters(alloc)?, blank)?;
    let (queue, mut passes) = JobQueue::new(alloc, 272, 6)?;
    let mut first = new_worker(rt, alloc, &manager, &queue, bytes, &mut passes)?;
    let mut second = new_worker(rt, alloc, &manager, &queue, bytes, &mut passes)?;
    let mut client = new_worker(rt, alloc, &manager, &queue, bytes, &mut passes)?;
    let (seen, _) = thread::join(
        rt,
        || ask_two(rt, alloc, &manager, &mut client),
        || thread::join(rt, || first.work(), || second.work()),
    );
    seen
}

// The bytes of `foul`, each raised by one: the scanner sees them lowered, as the instance below it gives them. It reads once, which the meter above doesn't hear.
#[test]
fn a_scan_is_heard_below_alone(rt: HostRuntime) {
    let foul = scan_day::<Brand, _>(&rt, rt.alloc(), *b"gpvm", Blank::new(PARTS));
    assert!(rt; matches!(foul, Ok((Status::AccessDenied, 1))));
    let clean = scan_day::<Brand, _>(&rt, rt.alloc(), *b"foul", Blank::new(PARTS));
    assert!(rt; matches!(clean, Ok((Status::Success, 1))));
}

// Of two workers that take jobs, and a client: who may wait, and who may stop.
fn who_waits<L: Ledger, R: Wait>(
    rt: &R,
    manager: &Manager<Sample, L>,
    hands: &[Hand<L>; 3],
) -> [bool; 8] {
    let [one, other, client] = hands;
    let nobody = manager.begins_own_wait(rt, client);
    manager.takes_jobs(one);
    let alone = manager.begins_own_wait(rt, one);
    manager.takes_jobs(other);
    let first = manager.begins_own_wait(rt, one);
    let last = manager.begins_own_wait(rt, other);
    let by_client = manager.begins_own_wait(rt, client);
    let stops_needed = manager.may_leave_jobs(rt, other);
    manager.ends_own_wait(client);
    manager.ends_own_wait(one);
    let stops = manager.may_leave_jobs(rt, other);
    let left = manager.begins_own_wait(rt, one);
    [nobody, alone, first, last, by_client, stops_needed, stops, left]
}

fn waiting_day<L: Ledger, R: Wait>(
    rt: &R,
    alloc: Global,
    blank: Blank,
) -> Result<[bool; 8], Status>
    requires blank { IsBlankOf blank.name blank.parts L.name L.parts }
{
    let manager = mounted::<Sample, L, R>(rt, alloc, filters(alloc)?, blank)?;
    let hands = [manager.hire(rt)?, manager.hire(rt)?, manager.hire(rt)?];
    Ok(who_waits(rt, &manager, &hands))
}

#[test]
fn a_worker_is_left_that_carries_on(rt: HostRuntime) {
    let seen = waiting_day::<Brand, _>(&rt, rt.alloc(), Blank::new(PARTS));
    assert!(rt; matches!(seen, Ok([false, false, true, false, true, false, true, false])));
}
