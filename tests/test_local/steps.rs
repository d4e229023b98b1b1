//! A manager, and what is done with it and seen of it, as data.

use crate::asked::{Ask, Line, OTHER, Told, VOLUME, request_of, see};
use fm_altitude::Altitude;
use fm_base::{Base, MemoryBase};
use fm_filter::Minifilter;
use fm_local::{Leak, LocalManager};
use fm_samples::Cancel;
use fm_types::{FilterId, HandleId, InstanceId, Name, OpId, RelPath, Status, VolumeId};
use std::alloc::Global;
use std::process::Abort;

/// The first instance, and the first filter.
pub const INSTANCE: InstanceId = InstanceId(0);

pub const FILTER: FilterId = FilterId(0);

/// A manager over folders in memory.
type Manager<F> = LocalManager<F, MemoryBase>;

/// A filter's name, what it is, and the altitude of its instance.
pub type Row<'a, K> = (&'a [u8], K, &'a [u8]);

/// What is done with a manager, and what is seen then.
#[derive(Clone, Copy)]
pub enum Step<'a> {
    /// A request gets that reply.
    Asks(Ask<'a>, Told<'a>),
    /// Two requests, one after the other, so many times.
    Rounds(u32, Line<'a>, Line<'a>),
    /// The next operation that is finished, and its reply.
    Finishes(u64, Told<'a>),
    /// So many reads are held, of operations that follow each other from that number on.
    HoldsReads(u64, u64),
    /// So many of them are finished, in order, each with that reply.
    FinishesAll(u64, u64, Told<'a>),
    /// No other one is finished.
    FinishesNone,
    /// The filter of that name is loaded, and declines to be attached.
    Declines(&'a [u8]),
    /// A work item of the first instance, on the file of that handle if one is named, cancels what it holds.
    Cancels(Option<HandleId>, Result<(), Status>),
    /// The first instance is detached.
    Detaches(Result<(), Status>),
    /// The first filter is unloaded.
    Unloads(Result<(), Status>),
    /// What the file of that path holds below the filters.
    Holds(&'a [u8], &'a [u8]),
    /// How many there are.
    Counts(Count, u64),
    /// The leak at that place, and its text.
    Leaks(usize, Leak, &'a str),
    /// The text of the step at that place.
    Traces(usize, &'a str),
}

/// What is counted.
#[derive(Clone, Copy)]
pub enum Count {
    /// Contexts that were born.
    Born,
    /// Those that were cleaned up.
    Cleaned,
    /// References that were left behind.
    Left,
    /// What the cleanups of the first filter's contexts returned.
    Total,
    /// Operations in flight at the first instance.
    InFlight,
    /// Leaks that can be read.
    Leaked,
    /// Steps that can be read.
    Traced,
}

/// The name of these letters.
pub fn named(rt: &impl Abort, text: &[u8]) -> Name {
    Name::read(text).expect(rt, "a name")
}

/// Takes the steps, the first ones and then the others, with a manager that has these filters, each loaded, with one instance each on the first of two
/// volumes, attached in the order of the rows.
pub fn run<F: Minifilter, K>(
    rt: &impl Abort,
    alloc: Global,
    filters: Vec<(Name, F)>,
    rows: &[Row<K>],
    first: &[Step],
    steps: &[Step],
) {
    let mut manager = LocalManager::new(alloc, filters).expect(rt, "a manager");
    drive(rt, alloc, &mut manager, rows, first, steps);
}

// What owns a manager is proved dearly, so all that makes several calls of one borrows it.
fn drive<F: Minifilter, K>(
    rt: &impl Abort,
    alloc: Global,
    manager: &mut Manager<F>,
    rows: &[Row<K>],
    first: &[Step],
    steps: &[Step],
) {
    mount(rt, alloc, manager, b"v", VOLUME);
    mount(rt, alloc, manager, b"w", OTHER);
    let mut place = 0;
    for (name, _, altitude) in rows {
        attach(rt, manager, place, named(rt, name), altitude);
        place = place.wrapping_add(1);
    }
    take_all(rt, alloc, manager, first);
    take_all(rt, alloc, manager, steps);
}

fn mount<F: Minifilter>(
    rt: &impl Abort,
    alloc: Global,
    manager: &mut Manager<F>,
    name: &[u8],
    volume: VolumeId,
) {
    assert!(rt; manager.mount(named(rt, name), MemoryBase::new(alloc)) == Ok(volume));
}

fn take_all<F: Minifilter>(
    rt: &impl Abort,
    alloc: Global,
    manager: &mut Manager<F>,
    steps: &[Step],
) {
    for step in steps {
        take(rt, alloc, manager, *step);
    }
}

// The filter of that name is the one of that number, and so is its instance.
fn attach<F: Minifilter>(
    rt: &impl Abort,
    manager: &mut Manager<F>,
    place: u8,
    name: Name,
    altitude: &[u8],
) {
    let filter = FilterId(place);
    assert!(rt; manager.load(&name) == Ok(filter));
    let altitude = Altitude::read(altitude).expect(rt, "an altitude");
    assert!(rt; manager.attach(filter, VOLUME, name, altitude) == Ok(InstanceId(u16::from(place))));
}

fn take<F: Minifilter>(rt: &impl Abort, alloc: Global, manager: &mut Manager<F>, step: Step) {
    match step {
        Step::Asks(request, told) => ask(rt, alloc, manager, (request, told)),
        Step::Rounds(times, first, second) => {
            for _ in 0..times {
                ask(rt, alloc, manager, first);
                ask(rt, alloc, manager, second);
            }
        }
        Step::Finishes(number, told) => see_finished(rt, manager, number, told),
        Step::HoldsReads(first, count) => {
            for number in first..first.saturating_add(count) {
                let held = (Ask::Read(0, 0, 0), Told::Held(number));
                ask(rt, alloc, manager, held);
            }
        }
        Step::FinishesAll(first, count, told) => {
            for number in first..first.saturating_add(count) {
                see_finished(rt, manager, number, told);
            }
        }
        Step::FinishesNone => assert!(rt; manager.finished().is_none()),
        Step::Declines(name) => see_declined(rt, manager, named(rt, name)),
        Step::Cancels(handle, wanted) => {
            let item = Cancel {
                status: Status::AccessDenied,
            };
            assert!(rt; manager.run_work(INSTANCE, handle, &item) == wanted);
        }
        Step::Detaches(wanted) => assert!(rt; manager.detach(INSTANCE) == wanted),
        Step::Unloads(wanted) => assert!(rt; manager.unload(FILTER) == wanted),
        Step::Holds(path, wanted) => see_file(rt, manager, path, wanted),
        Step::Counts(count, wanted) => assert!(rt; counted(manager, count) == wanted),
        Step::Leaks(place, leak, text) => see_leak(rt, alloc, manager.leak(place), leak, text),
        Step::Traces(place, text) => see_trace(rt, alloc, manager, place, text),
    }
}

fn see_declined<F: Minifilter>(rt: &impl Abort, manager: &mut Manager<F>, name: Name) {
    let filter = manager.load(&name).expect(rt, "a filter");
    let altitude = Altitude::read(b"50").expect(rt, "an altitude");
    assert!(rt; manager.attach(filter, VOLUME, name, altitude) == Err(Status::DoNotAttach));
}

fn ask<F: Minifilter>(rt: &impl Abort, alloc: Global, manager: &mut Manager<F>, line: Line) {
    let (request, told) = line;
    see(rt, &manager.answer(request_of(rt, alloc, request)), told);
}

fn see_finished<F: Minifilter>(rt: &impl Abort, manager: &mut Manager<F>, number: u64, told: Told) {
    let (operation, reply) = manager.finished().expect(rt, "one more that is finished");
    assert!(rt; operation == OpId(number));
    see(rt, &reply, told);
}

fn see_file<F: Minifilter>(rt: &impl Abort, manager: &mut Manager<F>, path: &[u8], wanted: &[u8]) {
    let path = RelPath::read(path).expect(rt, "a path");
    let base = manager.base(VOLUME).expect(rt, "the base");
    let bytes = base.read(&path, 0, 100).expect(rt, "its bytes");
    assert!(rt; bytes.as_slice() == wanted);
}

fn counted<F: Minifilter>(manager: &Manager<F>, count: Count) -> u64 {
    let state = manager.state();
    match count {
        Count::Born => state.born(),
        Count::Cleaned => state.cleaned_count(),
        Count::Left => state.leaks(),
        Count::Total => state.total(FILTER),
        Count::InFlight => state.in_flight(INSTANCE),
        Count::Leaked => manager.leaked() as u64,
        Count::Traced => manager.traced() as u64,
    }
}

fn see_leak(rt: &impl Abort, alloc: Global, told: Option<Leak>, wanted: Leak, text: &str) {
    let told = told.expect(rt, "one more leak");
    assert!(rt; told == wanted);
    let line = format!(in alloc; "{told}").expect(rt, "memory");
    assert!(rt; line.as_str() == text);
}

fn see_trace<F: Minifilter>(
    rt: &impl Abort,
    alloc: Global,
    manager: &Manager<F>,
    place: usize,
    text: &str,
) {
    let step = manager.trace(place).expect(rt, "one more step");
    let line = format!(in alloc; "{step}").expect(rt, "memory");
    assert!(rt; line.as_str() == text);
}
