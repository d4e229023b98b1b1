//! What filters see of the one-thread manager, by the lists that all managers are held to: those written by hand, and those of tests/model/lists.py.

use crate::random_lists::RANDOM;
use fm_base::MemoryBase;
use fm_callback_data::Reply;
use fm_local::LocalManager;
use fm_types::limits::OPERATIONS;
use fm_types::{Name, Status};
use fm_wire::{Body, Control};
use std::alloc::Global;
use std::sync::Arc;
use std::test::Fail;
use test_recorder::{Host, Log, ORDER, Recorder, Told, play, recorders};

/// A manager of recording filters.
type Manager = LocalManager<Recorder, MemoryBase>;

/// The manager of a list.
#[derive(Drop)]
struct Local<'m> {
    manager: &'m mut Manager,
}

// What a call that gives nothing, or nothing that is looked at, came to.
fn told_of<T: Drop>(answer: Result<T, Status>) -> Told {
    match answer {
        Ok(_) => Told::Status(Status::Success),
        Err(status) => Told::Status(status),
    }
}

// Makes a request that isn't for a file system.
fn control(manager: &mut Manager, control: Control) -> Result<Told, Status> {
    match control {
        Control::Load { name } => Ok(told_of(manager.load(&name))),
        Control::Attach {
            filter,
            volume,
            name,
            altitude,
        } => Ok(told_of(manager.attach(filter, volume, name, altitude))),
        Control::Detach { instance } => Ok(told_of(manager.detach(instance))),
        Control::Unload { filter } => Ok(told_of(manager.unload(filter))),
        Control::Dismount { .. } | Control::Stop => Err(Status::BadRequest),
    }
}

// Hands out the replies of what was held.
fn take_finished(manager: &mut Manager) {
    for _ in 0..OPERATIONS {
        if manager.finished().is_none() {
            return;
        }
    }
}

impl Host for Local<'_> {
    fn ask(&mut self, body: Body) -> Result<Told, Status> {
        let told = match body {
            Body::Operation(request) => match self.manager.answer(request) {
                Reply::Done { status, .. } => Told::Status(status),
                Reply::Held(_) => Told::Held,
            },
            Body::Control(asked) => control(self.manager, asked)?,
            Body::Reply(_) | Body::Refused(_) => return Err(Status::BadRequest),
        };
        take_finished(self.manager);
        Ok(told)
    }
}

// Takes a new manager through a list: the list as it comes out.
fn played(alloc: Global, list: &str) -> Result<String, Status> {
    let log = Arc::new(alloc, Log::new(alloc)?)?;
    let mut manager = LocalManager::new(alloc, recorders(alloc, &log)?)?;
    manager.mount(Name::read(b"v0")?, MemoryBase::new(alloc))?;
    let mut local = Local {
        manager: &mut manager,
    };
    play(alloc, &log, &mut local, list)
}

// Appends a list as it comes out, where it comes out otherwise.
fn differs(alloc: Global, list: &str, differing: &mut String) -> Result<(), Status> {
    let told = played(alloc, list)?;
    if told.as_str().trim_end() != list {
        differing.push_str(told.as_str())?;
    }
    Ok(())
}

// The lists that come out otherwise. This manager has no dismount.
fn differing(alloc: Global, lists: &str) -> Result<String, Status> {
    let mut differing = String::new(alloc);
    for list in lists.trim().split("\n\n") {
        if !list.starts_with("# a dismount") {
            differs(alloc, list, &mut differing)?;
        }
    }
    Ok(differing)
}

#[test]
fn order_of_callbacks(rt: HostRuntime) -> Result<(), Fail> {
    assert_eq!(rt; differing(rt.alloc(), ORDER)?.as_str(), "");
    Ok(())
}

#[test]
fn order_of_random_lists(rt: HostRuntime) -> Result<(), Fail> {
    assert_eq!(rt; differing(rt.alloc(), RANDOM)?.as_str(), "");
    Ok(())
}
