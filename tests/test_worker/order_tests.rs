//! What filters see of one worker and a client, by the lists that all managers are held to: those written by hand, and those of tests/model/lists.py. Nothing runs at the same time: each request is made by the client, and
//! then the worker does what there is to do.

ghost use Rattle.std.specs.Prelude.{◌≡◌, All, IfSome};
ghost use Rattle.fm_rundown.specs.Seats.{IsSeatOf};
ghost use Rattle.fm_lock.specs.Blanks.{IsBlankOf};

use crate::fixture::{MemoryWorker, mounted, new_worker, work_off};
use crate::random_lists::RANDOM;
use fm_callback_data::{FileRequest, Request};
use fm_lock::Manager;
use fm_queue::JobQueue;
use fm_rundown::{GateSeat, RundownGate};
use fm_types::limits::PARTS;
use fm_types::{HandleId, OpId, Status, VolumeId};
use fm_wire::{Body, Control};
use fm_worker::NoHook;
use test_recorder::{Host, Log, ORDER, Recorder, Told, play, recorders};
use std::alloc::Global;
use std::marker::Brand;
use std::sync::ledger::{Blank, Ledger};
use std::sync::{Arc, Wait};
use std::test::Fail;
use std::time::Clock;

/// How often the worker is started behind a request: for the operation, for what that resumed, and for what was resumed by this.
const ROUNDS: u32 = 3;

/// That of the client or of the worker.
type Hand<'m, L, R> = MemoryWorker<'m, Recorder, L, R, NoHook>;

/// A client and a worker, and the operations that filters hold.
#[derive(Drop)]
struct WorkerHost<'m, L: Ledger, R: Wait> {
    rt: &'m R,
    alloc: Global,
    manager: &'m Manager<Recorder, L>,
    client: Hand<'m, L, R>,
    worker: Hand<'m, L, R>,
    held: Vec<OpId>,
}

// What a call came to of which nothing else is looked at.
fn told_of<T: Drop>(answer: Result<T, Status>) -> Told {
    match answer {
        Ok(_) => Told::Status(Status::Success),
        Err(status) => Told::Status(status),
    }
}

// The handle that a request closes.
fn closed(request: &Request) -> Option<HandleId> {
    match request {
        Request::OnHandle {
            handle,
            request: FileRequest::Close,
        } => Some(*handle),
        _ => None,
    }
}

// Takes the only seat at a hook.
fn take_seat(rundown: &RundownGate, seats: &mut Vec<GateSeat>) -> Option<GateSeat>
    requires own { All (λ seat. IsSeatOf rundown.now seat) seats.old.items }
    ensures taken { IfSome result (λ seat. IsSeatOf rundown.now seat) }
{
    seats.pop()
}

impl<L: Ledger, R: Wait + Clock> WorkerHost<'_, L, R> {
    // The answer of an operation, if it is done.
    fn answer_of(&self, operation: OpId) -> Result<Told, Status> {
        match self.manager.is_done(self.rt, operation) {
            Some(true) => Ok(Told::Status(self.manager.wait_reply(self.rt, operation)?.status)),
            _ => Ok(Told::Held),
        }
    }

    // Begins an operation, and has the worker carry it on.
    fn operate(&mut self, request: Request) -> Result<Told, Status> {
        let operation = match self.client.begin(request) {
            Ok(operation) => operation,
            Err(status) => return Ok(Told::Status(status)),
        };
        work_off(&mut self.client, &mut self.worker);
        let told = self.answer_of(operation)?;
        if let Told::Held = told {
            self.held.push(operation)?;
        }
        Ok(told)
    }

    // A cleanup, and then the close.
    fn close(&mut self, handle: HandleId) -> Result<Told, Status> {
        let cleanup = Request::OnHandle {
            handle,
            request: FileRequest::Cleanup,
        };
        match self.operate(cleanup)? {
            Told::Status(Status::Success) => {}
            told => return Ok(told),
        }
        self.operate(Request::OnHandle {
            handle,
            request: FileRequest::Close,
        })
    }

    // Dismounts a volume, which nobody enters by the hook.
    fn dismount(&mut self, volume: VolumeId) -> Result<Told, Status> {
        let (rundown, mut seats) = RundownGate::new(self.alloc, 1, 1)?;
        let Some(mut seat) = take_seat(&rundown, &mut seats) else {
            return Err(Status::TooMany);
        };
        Ok(told_of(self.client.dismount(&rundown, &mut seat, volume)))
    }

    // Makes a request that isn't for a file system.
    fn control(&mut self, control: Control) -> Result<Told, Status> {
        let client = &mut self.client;
        match control {
            Control::Load { name } => Ok(told_of(client.load(&name))),
            Control::Attach {
                filter,
                volume,
                name,
                altitude,
            } => Ok(told_of(client.attach(filter, volume, name, altitude))),
            Control::Detach { instance } => Ok(told_of(client.detach(instance))),
            Control::Unload { filter } => Ok(told_of(client.unload(filter))),
            Control::Dismount { volume } => self.dismount(volume),
            Control::Stop => Err(Status::BadRequest),
        }
    }

    // Makes a request.
    fn make(&mut self, body: Body) -> Result<Told, Status> {
        match body {
            Body::Operation(request) => match closed(&request) {
                Some(handle) => self.close(handle),
                None => self.operate(request),
            },
            Body::Control(control) => self.control(control),
            Body::Reply(_) | Body::Refused(_) => Err(Status::BadRequest),
        }
    }

    // Takes the answers of what was held and is done by now.
    fn collect_held(&mut self) -> Result<(), Status> {
        let mut left = Vec::new(self.alloc);
        for operation in &self.held {
            if let Told::Held = self.answer_of(*operation)? {
                left.push(*operation)?;
            }
        }
        self.held = left;
        Ok(())
    }
}

impl<L: Ledger, R: Wait + Clock> Host for WorkerHost<'_, L, R> {
    fn ask(&mut self, body: Body) -> Result<Told, Status> {
        let told = self.make(body)?;
        for _ in 0..ROUNDS {
            work_off(&mut self.client, &mut self.worker);
        }
        self.collect_held()?;
        Ok(told)
    }
}

// Takes a new manager through a list: the list as it comes out.
fn played<L: Ledger, R: Wait + Clock>(
    rt: &R,
    alloc: Global,
    blank: Blank,
    list: &str,
) -> Result<String, Status>
    requires blank { IsBlankOf blank.name blank.parts L.name L.parts }
{
    let log = Arc::new(alloc, Log::new(alloc)?)?;
    let manager = mounted::<_, L, R>(rt, alloc, recorders(alloc, &log)?, blank)?;
    let (queue, mut passes) = JobQueue::new(alloc, 272, 4)?;
    let hook = NoHook;
    let client = new_worker(rt, alloc, &manager, &queue, &hook, &mut passes)?;
    let worker = new_worker(rt, alloc, &manager, &queue, &hook, &mut passes)?;
    let mut host = WorkerHost {
        rt,
        alloc,
        manager: &manager,
        client,
        worker,
        held: Vec::new(alloc),
    };
    play(alloc, &log, &mut host, list)
}

// The lists that come out otherwise, as they do. A synchronized postoperation is for the worker of its preoperation, which would wait for it meanwhile, and here one thread is all of them.
fn differing<R: Wait + Clock>(rt: &R, alloc: Global, lists: &str) -> Result<String, Status> {
    let mut differing = String::new(alloc);
    for list in lists.trim().split("\n\n") {
        if list.contains("load sync\n") {
            continue;
        }
        let told = played::<Brand, _>(rt, alloc, Blank::new(PARTS), list)?;
        if told.as_str().trim_end() != list {
            differing.push_str(told.as_str())?;
        }
    }
    Ok(differing)
}

#[test]
fn order_of_callbacks(rt: HostRuntime) -> Result<(), Fail> {
    assert_eq!(rt; differing(&rt, rt.alloc(), ORDER)?.as_str(), "");
    Ok(())
}

#[test]
fn order_of_random_lists(rt: HostRuntime) -> Result<(), Fail> {
    assert_eq!(rt; differing(&rt, rt.alloc(), RANDOM)?.as_str(), "");
    Ok(())
}
