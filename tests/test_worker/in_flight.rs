//! What is refused while something is in flight, and goes on when it is asked for again.

ghost use Rattle.std.specs.Prelude.{◌≡◌, All, IfSome};
ghost use Rattle.fm_rundown.specs.Seats.{IsSeatOf};
ghost use Rattle.fm_lock.specs.Blanks.{IsBlankOf};

use crate::fixture::{
    MemoryWorker, VOLUME, alone, attach, create, mounted, new_worker, shift, write,
};
use fm_callback_data::{CallbackData, PreVerdict};
use fm_operations::FlowAction;
use fm_lock::{Hand, Manager};
use fm_queue::JobQueue;
use fm_rundown::{GateSeat, RundownGate};
use fm_samples::Sample;
use fm_types::limits::PARTS;
use fm_types::{FilterId, InstanceId, OpId, Status};
use fm_worker::NoHook;
use std::alloc::Global;
use std::marker::Brand;
use std::sync::Wait;
use std::sync::ledger::{Blank, Ledger};
use std::time::Clock;

/// That of a client.
type OpenWorker<'a, L, R> = MemoryWorker<'a, Sample, L, R, NoHook>;

/// Two connections, and a hand that makes events of its own.
#[derive(Drop)]
struct Scene<'a, L: Ledger, R: Wait> {
    rt: &'a R,
    alloc: Global,
    manager: &'a Manager<Sample, L>,
    first: OpenWorker<'a, L, R>,
    second: OpenWorker<'a, L, R>,
    hand: Hand<L>,
}

impl<L: Ledger, R: Wait + Clock> Scene<'_, L, R> {
    // The filter's instance, and a file.
    fn open(&mut self) -> Result<(), Status> {
        attach(&mut self.first, b"shift", b"100")?;
        let creating = self.manager.begin(self.rt, create(self.alloc, b"x")?)?;
        alone(self.rt, self.manager, &mut self.first, creating)?;
        Ok(())
    }

    // A write that is in its preoperation.
    fn enter(&mut self) -> Result<(OpId, CallbackData), Status> {
        let writing = self.manager.begin(self.rt, write(self.alloc, b"a")?)?;
        match self.manager.next(self.rt, &mut self.hand, writing)? {
            FlowAction::Pre(_, lent) => Ok((writing, lent)),
            _ => Err(Status::WrongStep),
        }
    }

    // Its preoperation returns.
    fn leave(&mut self, lent: CallbackData) -> Result<(), Status> {
        match self
            .manager
            .pre_returned(self.rt, &mut self.hand, PreVerdict::NoCallback, lent)
        {
            Ok(()) => Ok(()),
            Err(refused) => Err(refused.status),
        }
    }
}

// Whether an unload is refused while a write is in its preoperation, and goes on after that.
fn unloads<L: Ledger, R: Wait + Clock>(scene: &mut Scene<'_, L, R>) -> Result<bool, Status> {
    scene.open()?;
    let (_, lent) = scene.enter()?;
    let during = scene.first.unload(FilterId(0));
    scene.leave(lent)?;
    let after = scene.first.unload(FilterId(0));
    Ok(matches!(during, Err(Status::Busy(1))) && after.is_ok())
}

// Whether a detach that one connection begins is ended by another one, and the first is told that the instance is gone.
fn detaches<L: Ledger, R: Wait + Clock>(scene: &mut Scene<'_, L, R>) -> Result<bool, Status> {
    scene.open()?;
    let (_, lent) = scene.enter()?;
    let begun = scene.first.detach(InstanceId(0));
    scene.leave(lent)?;
    let ended = scene.second.detach(InstanceId(0));
    let again = scene.first.detach(InstanceId(0));
    Ok(
        matches!(begun, Err(Status::Busy(1)))
            && ended.is_ok()
            && matches!(again, Err(Status::NoInstance)),
    )
}

// Whether a detach is refused while another hand asks the filter about one, and goes on after that was declined.
fn asks<L: Ledger, R: Wait + Clock>(scene: &mut Scene<'_, L, R>) -> Result<bool, Status> {
    scene.open()?;
    scene
        .manager
        .ask_detach(scene.rt, &mut scene.hand, InstanceId(0))?;
    let during = scene.first.detach(InstanceId(0));
    let _ = scene
        .manager
        .query_returned(scene.rt, &mut scene.hand, false);
    let after = scene.first.detach(InstanceId(0));
    Ok(matches!(during, Err(Status::DeletingObject)) && after.is_ok())
}

// Takes a seat at the rundown gate.
fn take_seat(rundown: &RundownGate, seats: &mut Vec<GateSeat>) -> Option<GateSeat>
    requires own { All (λ seat. IsSeatOf rundown.now seat) seats.old.items }
    ensures own { All (λ seat. IsSeatOf rundown.now seat) seats.new.items }
    ensures taken { IfSome result (λ seat. IsSeatOf rundown.now seat) }
{
    seats.pop()
}

// Whether a dismount is refused while a pass is out, then while a write isn't collected, goes on after that, and is refused once more.
fn dismounts<L: Ledger, R: Wait + Clock>(
    scene: &mut Scene<'_, L, R>,
    rundown: &RundownGate,
    own: &mut GateSeat,
    other: &mut GateSeat,
) -> Result<bool, Status>
    requires own { IsSeatOf rundown.now own.old }
    requires other { IsSeatOf rundown.now other.old }
{
    scene.open()?;
    rundown.enter(other, VOLUME)?;
    let entered = scene.first.dismount(rundown, own, VOLUME);
    rundown.leave(other, VOLUME)?;
    let (writing, lent) = scene.enter()?;
    let written = scene.first.dismount(rundown, own, VOLUME);
    scene.leave(lent)?;
    alone(scene.rt, scene.manager, &mut scene.first, writing)?;
    let after = scene.first.dismount(rundown, own, VOLUME);
    let again = scene.first.dismount(rundown, own, VOLUME);
    Ok(
        matches!(entered, Err(Status::Busy(0)))
            && matches!(written, Err(Status::Busy(1)))
            && after.is_ok()
            && matches!(again, Err(Status::Dismounting)),
    )
}

// The same with two seats of a hook.
fn dismounts_seated<L: Ledger, R: Wait + Clock>(
    scene: &mut Scene<'_, L, R>,
) -> Result<bool, Status> {
    let (rundown, mut seats) = RundownGate::new(scene.alloc, 1, 2)?;
    let Some(mut own) = take_seat(&rundown, &mut seats) else {
        return Err(Status::TooMany);
    };
    let Some(mut other) = take_seat(&rundown, &mut seats) else {
        return Err(Status::TooMany);
    };
    dismounts(scene, &rundown, &mut own, &mut other)
}

/// What is tried in a scene of its own.
#[derive(Clone, Copy)]
enum Play {
    Unload,
    Detach,
    Ask,
    Dismount,
}

// A scene, and what is tried in it: whether its calls answer as they should.
fn scene_day<L: Ledger, R: Wait + Clock>(
    rt: &R,
    alloc: Global,
    blank: Blank,
    play: Play,
) -> Result<bool, Status>
    requires blank { IsBlankOf blank.name blank.parts L.name L.parts }
{
    let manager = mounted::<Sample, L, R>(rt, alloc, shift(alloc)?, blank)?;
    let (queue, mut passes) = JobQueue::new(alloc, 272, 4)?;
    let hook = NoHook;
    let first = new_worker(rt, alloc, &manager, &queue, &hook, &mut passes)?;
    let second = new_worker(rt, alloc, &manager, &queue, &hook, &mut passes)?;
    let hand = manager.hire(rt)?;
    let mut scene = Scene {
        rt,
        alloc,
        manager: &manager,
        first,
        second,
        hand,
    };
    match play {
        Play::Unload => unloads(&mut scene),
        Play::Detach => detaches(&mut scene),
        Play::Ask => asks(&mut scene),
        Play::Dismount => dismounts_seated(&mut scene),
    }
}

#[test]
fn busy_and_again(rt: HostRuntime) {
    for play in [Play::Unload, Play::Detach, Play::Ask, Play::Dismount] {
        let seen = scene_day::<Brand, _>(&rt, rt.alloc(), Blank::new(PARTS), play);
        assert!(rt; matches!(seen, Ok(true)));
    }
}
