//! What the tests share: how a manager and its workers are made, and what is asked of them.

ghost use Rattle.std.specs.Prelude.{◌≡◌, All};
ghost use Rattle.fm_queue.specs.Passes.{IsPassOf};
ghost use Rattle.fm_lock.specs.Blanks.{IsBlankOf};

use fm_altitude::Altitude;
use fm_base::MemoryBase;
use fm_callback_data::{Answer, FileRequest, Request};
use fm_device::{Bases, Device};
use fm_filter::Minifilter;
use fm_lock::{Hand, Manager};
use fm_queue::{JobPass, JobQueue};
use fm_samples::{Sample, Shift};
use fm_types::{
    Bytes, CreateMode, HandleId, InstanceId, Name, OpId, RelPath, SharedPath, Status, VolumeId,
    WorkerId,
};
use fm_worker::{CallbackHook, Worker};
use std::alloc::Global;
use std::sync::Wait;
use std::sync::ledger::{Blank, Ledger};
use std::thread;
use std::time::{Clock, Duration};

/// How often an answer is looked for, a millisecond apart.
pub const LOOKS: u32 = 10_000;

/// The only volume.
pub const VOLUME: VolumeId = VolumeId(0);

/// The only file's handle.
pub const FILE: HandleId = HandleId(0);

/// What a manager's report says of contexts.
#[derive(Clone, Copy)]
pub struct Numbers {
    /// How many were allocated.
    pub born: u64,
    /// How many of them were cleaned up.
    pub cleaned: u64,
    /// How many references callbacks left behind.
    pub leaks: u64,
}

/// A thread's own file system: in memory, for one volume.
pub type Folder = Bases<MemoryBase>;

/// A folder without files.
pub fn folder(alloc: Global) -> Result<Folder, Status> {
    let mut bases = Bases::new(alloc)?;
    bases.place(MemoryBase::new(alloc));
    Ok(bases)
}

/// The file's creation.
pub fn create(alloc: Global, path: &[u8]) -> Result<Request, Status> {
    Ok(Request::Create {
        volume: VOLUME,
        path: SharedPath::new(alloc, RelPath::read(path)?)?,
        mode: CreateMode::Always,
    })
}

/// An operation on the only file.
pub fn on_file(request: FileRequest) -> Request {
    Request::OnHandle {
        handle: FILE,
        request,
    }
}

/// A read of the only file.
pub fn read(offset: u64, len: u32) -> Request {
    on_file(FileRequest::Read { offset, len })
}

/// A write to the only file, at its start.
pub fn write(alloc: Global, bytes: &[u8]) -> Result<Request, Status> {
    Ok(on_file(FileRequest::Write {
        offset: 0,
        bytes: Bytes::copy_of(alloc, bytes)?,
    }))
}

/// The filter `shift`, under that name.
pub fn shift(alloc: Global) -> Result<Vec<(Name, Sample)>, Status> {
    let mut filters = Vec::new(alloc);
    filters.push((Name::read(b"shift")?, Sample::Shift(Shift::new(alloc))))?;
    Ok(filters)
}

/// A manager of those filters, with the only volume mounted.
pub fn mounted<F: Minifilter, L: Ledger, R: Wait>(
    rt: &R,
    alloc: Global,
    filters: Vec<(Name, F)>,
    blank: Blank,
) -> Result<Manager<F, L>, Status>
    requires blank { IsBlankOf blank.name blank.parts L.name L.parts }
{
    let manager = Manager::<F, L>::new(alloc, filters, blank)?;
    manager.mount(rt, Name::read(b"v")?)?;
    Ok(manager)
}

/// A worker above a folder of its own.
pub type MemoryWorker<'a, F, L, R, G> = Worker<'a, F, L, R, G, Folder>;

/// A thread's worker, above a folder of its own.
pub fn new_worker<'a, F: Minifilter, L: Ledger, R: Wait, G: CallbackHook>(
    rt: &'a R,
    alloc: Global,
    manager: &'a Manager<F, L>,
    queue: &'a JobQueue,
    hook: &'a G,
    passes: &mut Vec<JobPass>,
) -> Result<MemoryWorker<'a, F, L, R, G>, Status>
    requires { All (λ pass. IsPassOf queue.now pass) passes.old.items }
    ensures { All (λ pass. IsPassOf queue.now pass) passes.new.items }
{
    Worker::new(rt, manager, queue, hook, alloc, passes, folder(alloc)?)
}

/// Those of a client and of two workers. The first worker is worker 0.
#[derive(Drop)]
pub struct Workers<'a, F: Drop, L: Ledger, R: Wait, G: CallbackHook, D: Device> {
    /// The client's.
    pub client: MemoryWorker<'a, F, L, R, G>,
    /// The first worker's.
    pub first: MemoryWorker<'a, F, L, R, G>,
    /// The second worker's, above a file system of its own.
    pub second: Worker<'a, F, L, R, G, D>,
}

/// Makes the three, at a manager whose hands are all in.
pub fn make_workers<'a, F: Minifilter, L: Ledger, R: Wait, G: CallbackHook, D: Device>(
    rt: &'a R,
    alloc: Global,
    manager: &'a Manager<F, L>,
    queue: &'a JobQueue,
    hook: &'a G,
    passes: &mut Vec<JobPass>,
    below: D,
) -> Result<Workers<'a, F, L, R, G, D>, Status>
    requires { All (λ pass. IsPassOf queue.now pass) passes.old.items }
    ensures { All (λ pass. IsPassOf queue.now pass) passes.new.items }
{
    let first = new_worker(rt, alloc, manager, queue, hook, passes)?;
    let second = Worker::new(rt, manager, queue, hook, alloc, passes, below)?;
    let client = new_worker(rt, alloc, manager, queue, hook, passes)?;
    Ok(Workers {
        client,
        first,
        second,
    })
}

/// Loads the filter of that name, and attaches an instance of it to the only volume.
pub fn attach<F, L, R, G, D>(
    worker: &mut Worker<'_, F, L, R, G, D>,
    name: &[u8],
    altitude: &[u8],
) -> Result<InstanceId, Status>
where
    F: Minifilter,
    L: Ledger,
    R: Wait,
    G: CallbackHook,
    D: Device,
{
    let name = Name::read(name)?;
    let filter = worker.load(&name)?;
    worker.attach(filter, VOLUME, name, Altitude::read(altitude)?)
}

/// Begins an operation, and puts its job.
pub fn begin<F, L, R, G, D>(
    rt: &R,
    manager: &Manager<F, L>,
    worker: &mut Worker<'_, F, L, R, G, D>,
    request: Request,
) -> Result<OpId, Status>
where
    F: Minifilter,
    L: Ledger,
    R: Wait,
    G: CallbackHook,
    D: Device,
{
    let operation = manager.begin(rt, request)?;
    worker.submit(operation);
    Ok(operation)
}

/// Collects the answer of an operation, once it is done. Refused with 30 if it isn't done in ten seconds.
pub fn collect<F: Minifilter, L: Ledger, R: Wait + Clock>(
    rt: &R,
    manager: &Manager<F, L>,
    operation: OpId,
) -> Result<Answer, Status> {
    for _ in 0..LOOKS {
        if let Some(true) = manager.is_done(rt, operation) {
            return manager.wait_reply(rt, operation);
        }
        thread::sleep(rt, Duration::from_millis(1));
    }
    Err(Status::WrongStep)
}

/// Waits until the first workers, so many, take jobs. Refused with 30 if one doesn't in ten seconds.
pub fn await_workers<F: Minifilter, L: Ledger, R: Wait + Clock>(
    rt: &R,
    manager: &Manager<F, L>,
    workers: u8,
) -> Result<(), Status> {
    for _ in 0..LOOKS {
        if (0..workers).all(|worker| manager.is_taking_jobs(WorkerId(worker))) {
            return Ok(());
        }
        thread::sleep(rt, Duration::from_millis(1));
    }
    Err(Status::WrongStep)
}

/// Has a worker work up to the Stop that the client puts now.
pub fn work_off<F, L, R, G, C, D>(
    client: &mut Worker<'_, F, L, R, G, C>,
    worker: &mut Worker<'_, F, L, R, G, D>,
)
where
    F: Minifilter,
    L: Ledger,
    R: Wait,
    G: CallbackHook,
    C: Device,
    D: Device,
{
    client.stop_worker();
    worker.work();
}

/// Begins an operation, has a worker carry it on, and collects its answer.
pub fn carried<F, L, R, G, C, D>(
    rt: &R,
    manager: &Manager<F, L>,
    client: &mut Worker<'_, F, L, R, G, C>,
    worker: &mut Worker<'_, F, L, R, G, D>,
    request: Request,
) -> Result<Answer, Status>
where
    F: Minifilter,
    L: Ledger,
    R: Wait + Clock,
    G: CallbackHook,
    C: Device,
    D: Device,
{
    let operation = begin(rt, manager, client, request)?;
    work_off(client, worker);
    collect(rt, manager, operation)
}

/// Carries an operation on by the thread itself, as a worker does, and collects its answer.
pub fn alone<F, L, R, G, D>(
    rt: &R,
    manager: &Manager<F, L>,
    worker: &mut Worker<'_, F, L, R, G, D>,
    operation: OpId,
) -> Result<Status, Status>
where
    F: Minifilter,
    L: Ledger,
    R: Wait + Clock,
    G: CallbackHook,
    D: Device,
{
    worker.submit(operation);
    worker.stop_worker();
    worker.work();
    Ok(collect(rt, manager, operation)?.status)
}

/// The hands of three that are left.
pub fn hands_of<F: Minifilter, L: Ledger, R: Wait, G: CallbackHook>(
    alloc: Global,
    client: MemoryWorker<'_, F, L, R, G>,
    first: MemoryWorker<'_, F, L, R, G>,
    second: MemoryWorker<'_, F, L, R, G>,
) -> Result<Vec<Hand<L>>, Status> {
    let mut hands = Vec::with_capacity(alloc, 3)?;
    hands.push(client.into_parts().0)?;
    hands.push(first.into_parts().0)?;
    hands.push(second.into_parts().0)?;
    Ok(hands)
}

/// Ends a manager by these hands.
pub fn end<F: Minifilter, L: Ledger>(
    manager: Manager<F, L>,
    hands: Vec<Hand<L>>,
) -> Result<Numbers, Status>
    requires { L.parts ≡ 49 }
{
    match manager.shutdown(hands) {
        Ok(report) => Ok(Numbers {
            born: report.born,
            cleaned: report.cleaned,
            leaks: report.leaks,
        }),
        Err((_, _, status)) => Err(status),
    }
}
