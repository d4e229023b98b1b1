//! The ends of instances, filters and volumes that have contexts of every kind: refused in the middle, where a hand cleans one of them up, and gone on with.

ghost use Rattle.std.specs.Prelude.{◌≡◌, All, IfSome};
ghost use Rattle.fm_queue.specs.Passes.{IsPassOf};
ghost use Rattle.fm_rundown.specs.Seats.{IsSeatOf};
ghost use Rattle.fm_lock.specs.Blanks.{IsBlankOf};

use crate::fixture::{Folder, MemoryWorker};
use crate::keeper::Keeper;
use fm_altitude::Altitude;
use fm_base::MemoryBase;
use fm_core::{Phase, VolumePhase};
use fm_callback_data::{FileRequest, PreVerdict, Request};
use fm_device::Bases;
use fm_operations::FlowAction;
use fm_lock::{Hand, Manager};
use fm_queue::{JobPass, JobQueue};
use fm_rundown::{GateSeat, RundownGate};
use fm_types::limits::PARTS;
use fm_types::{
    Bytes, ContextKind, CreateMode, FilterId, HandleId, InstanceId, Name, OpId, RelPath,
    SharedPath, Status, VolumeId,
};
use fm_worker::{NoHook, Worker};
use std::alloc::Global;
use std::marker::Brand;
use std::sync::Wait;
use std::sync::ledger::{Blank, Ledger};
use std::time::Clock;

/// The volume that is dismounted, and another one.
const OWN: VolumeId = VolumeId(0);

const OTHER: VolumeId = VolumeId(1);

/// The filters, in the order in which they are loaded.
const LOW: FilterId = FilterId(0);

const HIGH: FilterId = FilterId(1);

const DECLINES: FilterId = FilterId(2);

/// The lower filter's instance on either volume, and the higher one's on the first.
const BELOW: InstanceId = InstanceId(0);

const BESIDE: InstanceId = InstanceId(1);

const ABOVE: InstanceId = InstanceId(2);

/// A connection, and two hands that make events of their own.
#[derive(Drop)]
struct Scene<'a, L: Ledger, R: Wait> {
    rt: &'a R,
    alloc: Global,
    manager: &'a Manager<Keeper, L>,
    client: MemoryWorker<'a, Keeper, L, R, NoHook>,
    first: Hand<L>,
    second: Hand<L>,
}

// Three filters, of which the last declines its instances.
fn filters(alloc: Global) -> Result<Vec<(Name, Keeper)>, Status> {
    let mut filters = Vec::new(alloc);
    filters.push((Name::read(b"low")?, Keeper::new(alloc, true)))?;
    filters.push((Name::read(b"high")?, Keeper::new(alloc, true)))?;
    filters.push((Name::read(b"declines")?, Keeper::new(alloc, false)))?;
    Ok(filters)
}

// Files in memory, for two volumes.
fn folders(alloc: Global) -> Result<Folder, Status> {
    let mut bases = Bases::new(alloc)?;
    bases.place(MemoryBase::new(alloc));
    bases.place(MemoryBase::new(alloc));
    Ok(bases)
}

impl<L: Ledger, R: Wait + Clock> Scene<'_, L, R> {
    fn attach(
        &mut self,
        filter: FilterId,
        volume: VolumeId,
        altitude: &[u8],
    ) -> Result<InstanceId, Status> {
        let name = Name::read(altitude)?;
        self.client
            .attach(filter, volume, name, Altitude::read(altitude)?)
    }

    // Opens a file, and reads it.
    fn open(&mut self, volume: VolumeId, path: &[u8], handle: u64) -> Result<(), Status> {
        let path = SharedPath::new(self.alloc, RelPath::read(path)?)?;
        let mode = CreateMode::Always;
        let creating = self
            .manager
            .begin(self.rt, Request::Create { volume, path, mode })?;
        self.carry(creating)?;
        let reading = self.manager.begin(self.rt, read_of(handle))?;
        self.carry(reading)
    }

    // Has the connection carry an operation on, as a worker does, and takes its answer.
    fn carry(&mut self, operation: OpId) -> Result<(), Status> {
        self.client.submit(operation);
        self.client.stop_worker();
        self.client.work();
        self.manager.wait_reply(self.rt, operation)?;
        Ok(())
    }

    // Three instances on two volumes, and three files: two of them on the first volume. There are sixteen contexts then, none of which is due.
    fn fill(&mut self) -> Result<(), Status> {
        for name in [b"low".as_slice(), b"high", b"declines"] {
            self.client.load(&Name::read(name)?)?;
        }
        self.attach(LOW, OWN, b"100")?;
        self.attach(LOW, OTHER, b"100")?;
        self.attach(HIGH, OWN, b"200")?;
        self.open(OWN, b"x", 0)?;
        self.open(OWN, b"y", 1)?;
        self.open(OTHER, b"z", 2)
    }

    // A hand is in the cleanup of a context of that kind, which it has allocated in the highest instance's callback of a read of that handle.
    fn take_due(&mut self, handle: u64, kind: ContextKind, is_first: bool) -> Result<(), Status> {
        let rt = self.rt;
        let hand = if is_first { &mut self.first } else { &mut self.second };
        let reading = self.manager.begin(rt, read_of(handle))?;
        let FlowAction::Pre(_, lent) = self.manager.next(rt, hand, reading)? else {
            return Err(Status::WrongStep);
        };
        let body = Bytes::copy_of(self.alloc, &[0; 8])?;
        let context = self.manager.allocate(rt, hand, kind, body)?;
        self.manager.release(rt, hand, context)?;
        if let Err(refused) = self
            .manager
            .pre_returned(rt, hand, PreVerdict::NoCallback, lent)
        {
            return Err(refused.status);
        }
        let due = self.manager.take_due(rt, hand)?;
        self.carry(reading)?;
        match due {
            Some(_) => Ok(()),
            None => Err(Status::NoContext),
        }
    }

    // How many contexts there were, and how many of them are cleaned up.
    fn counts(&self) -> (u64, u64) {
        (
            self.manager.born(self.rt),
            self.manager.cleaned_count(self.rt),
        )
    }
}

// A read of a file.
fn read_of(handle: u64) -> Request {
    Request::OnHandle {
        handle: HandleId(handle),
        request: FileRequest::Read { offset: 0, len: 1 },
    }
}

// A dismount that is refused at an instance of which a context is being cleaned up, then at the volume of which one is, and then goes to its end. The other volume
// keeps its instance, its file and four contexts. Then that instance is detached.
fn dismounts<L: Ledger, R: Wait + Clock>(
    scene: &mut Scene<'_, L, R>,
    rundown: &RundownGate,
    seat: &mut GateSeat,
) -> Result<bool, Status>
    requires own { IsSeatOf rundown.now seat.old }
{
    let (rt, manager) = (scene.rt, scene.manager);
    scene.fill()?;
    let filled = scene.counts();
    scene.take_due(0, ContextKind::Instance, true)?;
    scene.take_due(0, ContextKind::Volume, false)?;
    let at_instance = scene.client.dismount(rundown, seat, OWN);
    let phases = (
        manager.phase(rt, BELOW),
        manager.phase(rt, ABOVE),
        manager.phase(rt, BESIDE),
    );
    manager.cleaned(rt, &mut scene.first, 0)?;
    let at_volume = scene.client.dismount(rundown, seat, OWN);
    let emptied = manager.volume_phase(rt, OWN);
    manager.cleaned(rt, &mut scene.second, 0)?;
    let at_end = scene.client.dismount(rundown, seat, OWN);
    let left = scene.counts();
    let handles = manager.handles(rt);
    let beside = manager.phase(rt, BESIDE);
    let detached = scene.client.detach(BESIDE);
    Ok(filled == (16, 0)
        && matches!(at_instance, Err(Status::Busy(1)))
        && phases == (Some(Phase::Detached), Some(Phase::Emptying), Some(Phase::Attached))
        && matches!(at_volume, Err(Status::Busy(1)))
        && emptied == Some(VolumePhase::Emptied)
        && at_end.is_ok()
        && left == (18, 14)
        && handles == 1
        && beside == Some(Phase::Attached)
        && detached.is_ok()
        && scene.counts() == (18, 17))
}

// A dismount that nothing is in the way of: it closes both handles. Of an instance on the other volume a context is being cleaned up meanwhile, so that its detach
// has been refused at its end: the dismount doesn't touch it.
fn dismounts_at_once<L: Ledger, R: Wait + Clock>(
    scene: &mut Scene<'_, L, R>,
    rundown: &RundownGate,
    seat: &mut GateSeat,
) -> Result<bool, Status>
    requires own { IsSeatOf rundown.now seat.old }
{
    let (rt, manager) = (scene.rt, scene.manager);
    scene.fill()?;
    scene.take_due(2, ContextKind::Instance, true)?;
    let refused = scene.client.detach(BESIDE);
    let beside = manager.phase(rt, BESIDE);
    let dismounted = scene.client.dismount(rundown, seat, OWN);
    let left = scene.counts();
    let handles = manager.handles(rt);
    manager.cleaned(rt, &mut scene.first, 0)?;
    let detached = scene.client.detach(BESIDE);
    Ok(matches!(refused, Err(Status::Busy(1)))
        && beside == Some(Phase::Emptying)
        && dismounted.is_ok()
        && left == (17, 15)
        && handles == 1
        && detached.is_ok()
        && scene.counts() == (17, 16))
}

// A dismount with a seat of a gate for both volumes.
fn dismounts_seated<L: Ledger, R: Wait + Clock>(
    scene: &mut Scene<'_, L, R>,
    is_at_once: bool,
) -> Result<bool, Status> {
    let (rundown, mut seats) = RundownGate::new(scene.alloc, 2, 1)?;
    match take_seat(&rundown, &mut seats) {
        Some(mut seat) if is_at_once => dismounts_at_once(scene, &rundown, &mut seat),
        Some(mut seat) => dismounts(scene, &rundown, &mut seat),
        None => Err(Status::TooMany),
    }
}

// Takes a seat at the rundown gate.
fn take_seat(rundown: &RundownGate, seats: &mut Vec<GateSeat>) -> Option<GateSeat>
    requires own { All (λ seat. IsSeatOf rundown.now seat) seats.old.items }
    ensures taken { IfSome result (λ seat. IsSeatOf rundown.now seat) }
{
    seats.pop()
}

// An unload that is refused at its first instance while a read is in its callback, and doesn't go on to the other one; then at the filter, while a volume context of
// it is being cleaned up; and then goes to its end. The other filter keeps its instance.
fn unloads<L: Ledger, R: Wait + Clock>(scene: &mut Scene<'_, L, R>) -> Result<bool, Status> {
    let (rt, manager) = (scene.rt, scene.manager);
    scene.fill()?;
    scene.client.detach(ABOVE)?;
    scene.take_due(0, ContextKind::Volume, false)?;
    let reading = manager.begin(rt, read_of(0))?;
    let FlowAction::Pre(_, lent) = manager.next(rt, &mut scene.first, reading)? else {
        return Err(Status::WrongStep);
    };
    let at_first = scene.client.unload(LOW);
    let phases = (manager.phase(rt, BELOW), manager.phase(rt, BESIDE));
    if let Err(refused) = manager.pre_returned(rt, &mut scene.first, PreVerdict::NoCallback, lent) {
        return Err(refused.status);
    }
    scene.carry(reading)?;
    let at_filter = scene.client.unload(LOW);
    let emptied = (manager.phase(rt, BELOW), manager.phase(rt, BESIDE));
    manager.cleaned(rt, &mut scene.second, 0)?;
    let at_end = scene.client.unload(LOW);
    let again = scene.client.unload(LOW);
    Ok(matches!(at_first, Err(Status::Busy(1)))
        && phases == (Some(Phase::Stopping), Some(Phase::Stopping))
        && matches!(at_filter, Err(Status::Busy(1)))
        && emptied == (Some(Phase::Detached), Some(Phase::Detached))
        && at_end.is_ok()
        && matches!(again, Err(Status::NotLoaded))
        && scene.counts() == (17, 16))
}

// An instance that its filter declines is detached, and has no context any more. The filter can be unloaded then.
fn declines<L: Ledger, R: Wait + Clock>(scene: &mut Scene<'_, L, R>) -> Result<bool, Status> {
    scene.fill()?;
    let declined = scene.attach(DECLINES, OTHER, b"300");
    let phase = scene.manager.phase(scene.rt, InstanceId(3));
    let unloaded = scene.client.unload(DECLINES);
    Ok(matches!(declined, Err(Status::DoNotAttach))
        && phase == Some(Phase::Detached)
        && unloaded.is_ok()
        && scene.counts() == (18, 2))
}

/// What is tried in a scene of its own.
#[derive(Clone, Copy)]
enum Play {
    Dismount,
    DismountAtOnce,
    Unload,
    Decline,
}

// A worker over files of two volumes.
fn new_client<'a, L: Ledger, R: Wait>(
    rt: &'a R,
    alloc: Global,
    manager: &'a Manager<Keeper, L>,
    queue: &'a JobQueue,
    hook: &'a NoHook,
    passes: &mut Vec<JobPass>,
) -> Result<MemoryWorker<'a, Keeper, L, R, NoHook>, Status>
    requires { All (λ pass. IsPassOf queue.now pass) passes.old.items }
    ensures { All (λ pass. IsPassOf queue.now pass) passes.new.items }
{
    Worker::new(rt, manager, queue, hook, alloc, passes, folders(alloc)?)
}

// A scene, and what is tried in it: whether its calls answer as they should.
fn scene_day<L: Ledger, R: Wait + Clock>(
    rt: &R,
    alloc: Global,
    blank: Blank,
    play: Play,
) -> Result<bool, Status>
    requires blank { IsBlankOf blank.name blank.parts L.name L.parts }
{
    let manager = Manager::<Keeper, L>::new(alloc, filters(alloc)?, blank)?;
    manager.mount(rt, Name::read(b"v")?)?;
    manager.mount(rt, Name::read(b"w")?)?;
    let (queue, mut passes) = JobQueue::new(alloc, 272, 2)?;
    let hook = NoHook;
    let client = new_client(rt, alloc, &manager, &queue, &hook, &mut passes)?;
    let first = manager.hire(rt)?;
    let second = manager.hire(rt)?;
    let mut scene = Scene {
        rt,
        alloc,
        manager: &manager,
        client,
        first,
        second,
    };
    match play {
        Play::Dismount => dismounts_seated(&mut scene, false),
        Play::DismountAtOnce => dismounts_seated(&mut scene, true),
        Play::Unload => unloads(&mut scene),
        Play::Decline => declines(&mut scene),
    }
}

// Whether all is as it should be.
fn is_well<R: Wait + Clock>(rt: &R, alloc: Global, play: Play) -> bool {
    matches!(
        scene_day::<Brand, R>(rt, alloc, Blank::new(PARTS), play),
        Ok(true)
    )
}

#[test]
fn dismount_goes_on_where_it_was_refused(rt: HostRuntime) {
    assert!(rt; is_well(&rt, rt.alloc(), Play::Dismount));
}

#[test]
fn dismount_leaves_other_volumes(rt: HostRuntime) {
    assert!(rt; is_well(&rt, rt.alloc(), Play::DismountAtOnce));
}

#[test]
fn unload_goes_on_where_it_was_refused(rt: HostRuntime) {
    assert!(rt; is_well(&rt, rt.alloc(), Play::Unload));
}

#[test]
fn declined_instance_is_detached(rt: HostRuntime) {
    assert!(rt; is_well(&rt, rt.alloc(), Play::Decline));
}
