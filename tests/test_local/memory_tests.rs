//! Refusals of the manager's own calls come before any want of memory.

use crate::steps::named;
use fm_base::MemoryBase;
use fm_local::LocalManager;
use fm_samples::{Guard, Sample};
use fm_types::{FilterId, Name, Status, VolumeId};
use std::alloc::Global;
use std::process::Abort;

type Manager = LocalManager<Sample, MemoryBase>;

// Makes the call once more if memory was refused.
fn mount(alloc: Global, manager: &mut Manager, name: Name) -> Result<VolumeId, Status> {
    match manager.mount(name, MemoryBase::new(alloc)) {
        Err(Status::NoMemory) => manager.mount(name, MemoryBase::new(alloc)),
        answer => answer,
    }
}

fn load(manager: &mut Manager, name: &Name) -> Result<FilterId, Status> {
    match manager.load(name) {
        Err(Status::NoMemory) => manager.load(name),
        answer => answer,
    }
}

fn manager(rt: &impl Abort, alloc: Global) -> Option<Manager> {
    let mut filters = Vec::new(alloc);
    filters.push((named(rt, b"f"), Sample::Guard(Guard))).ok()?;
    LocalManager::new(alloc, filters).ok()
}

const NAMES: [&[u8]; 8] = [b"a", b"b", b"c", b"d", b"e", b"g", b"h", b"k"];

fn refuse(rt: &impl Abort, alloc: Global, manager: &mut Manager) {
    let name = named(rt, b"f");
    assert!(rt; load(manager, &name) == Ok(FilterId(0)));
    assert!(rt; manager.load(&name) == Err(Status::AlreadyLoaded));
    assert!(rt; manager.load(&named(rt, b"z")) == Err(Status::NoFilter));
    for name in NAMES {
        assert!(rt; mount(alloc, manager, named(rt, name)).is_ok());
        assert!(rt;
            manager.mount(named(rt, name), MemoryBase::new(alloc)) == Err(Status::NameCollision)
        );
    }
    assert!(rt; manager.mount(named(rt, b"n"), MemoryBase::new(alloc)) == Err(Status::TooMany));
}

// For `rt try --test --fail-alloc N`: whichever allocation is refused, a name that is taken, one that no filter has, and a ninth volume are refused as such.
#[test]
fn refusals_before_memory(rt: HostRuntime) {
    if let Some(mut manager) = manager(&rt, rt.alloc()) {
        refuse(&rt, rt.alloc(), &mut manager);
    }
}
