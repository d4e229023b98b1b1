//! What the manager tells of filters that are careless with references, and of operations that are held.

use crate::asked::{Ask, DONE, Told};
use crate::careless::Careless;
use crate::steps::{Count, INSTANCE, Row, Step, named, run};
use fm_core::Place;
use fm_local::Leak;
use fm_types::{ContextKind, CtxId, Name, OpId, Status};
use std::alloc::Global;
use std::process::Abort;

const LEAVES: [Row<()>; 1] = [(b"leaves", (), b"200")];

const LEAVES_ABOVE: [Row<()>; 2] = [(b"leaves", (), b"200"), (b"waits", (), b"100")];

const WAITS: [Row<()>; 1] = [(b"waits", (), b"100")];

// The two filters.
fn careless(rt: &impl Abort, alloc: Global) -> Vec<(Name, Careless)> {
    let mut filters = Vec::new(alloc);
    filters
        .push((named(rt, b"leaves"), Careless::Leaves(alloc)))
        .expect(rt, "memory");
    filters
        .push((named(rt, b"waits"), Careless::Waits))
        .expect(rt, "memory");
    filters
}

fn go(rt: &impl Abort, alloc: Global, rows: &[Row<()>], steps: &[Step]) {
    run(rt, alloc, careless(rt, alloc), rows, &[], steps);
}

const OF_TWO: Leak = Leak {
    context: CtxId {
        slot: 0,
        generation: 0,
    },
    kind: Some(ContextKind::Stream),
    place: Place::Pre(OpId(1), INSTANCE),
};

const OF_A_VOLUME: Leak = Leak {
    context: CtxId {
        slot: 0,
        generation: 1,
    },
    kind: Some(ContextKind::Volume),
    place: Place::Pre(OpId(2), INSTANCE),
};

const OF_A_POST: Leak = Leak {
    context: CtxId {
        slot: 1,
        generation: 0,
    },
    kind: Some(ContextKind::Stream),
    place: Place::Post(OpId(6), INSTANCE),
};

const OF_A_QUERY: Leak = Leak {
    context: CtxId {
        slot: 1,
        generation: 1,
    },
    kind: Some(ContextKind::Instance),
    place: Place::Query(INSTANCE),
};

// Contexts are cleaned up as each request ends, so that the next one lies in the slot of the last; but the one that is set on the instance stays in its slot.
const LEFT: [Step; 23] = [
    Step::Asks(Ask::Create(b"x"), DONE),
    Step::Asks(Ask::Read(0, 0, 0), DONE),
    Step::Counts(Count::Left, 2),
    Step::Leaks(0, OF_TWO, "leak c0 stream i0 pre o1"),
    Step::Leaks(1, OF_TWO, "leak c0 stream i0 pre o1"),
    Step::Asks(Ask::Read(0, 1, 0), DONE),
    Step::Leaks(2, OF_A_VOLUME, "leak c0.1 volume i0 pre o2"),
    Step::Asks(Ask::Read(0, 2, 0), DONE),
    Step::Counts(Count::Left, 3),
    Step::Counts(Count::Born, 3),
    Step::Counts(Count::Cleaned, 2),
    Step::Asks(Ask::Read(0, 3, 0), Told::Held(4)),
    Step::Traces(11, "o4 pre i0 pend"),
    Step::Asks(Ask::Flush(0), DONE),
    Step::Finishes(4, DONE),
    Step::Asks(Ask::Read(0, 4, 0), Told::Held(6)),
    Step::Traces(19, "o6 post i0 more"),
    Step::Leaks(3, OF_A_POST, "leak c1 stream i0 post o6"),
    Step::Detaches(Ok(())),
    Step::Leaks(4, OF_A_QUERY, "leak c1.1 instance i0 query"),
    Step::Finishes(6, DONE),
    Step::Counts(Count::Cleaned, 5),
    Step::Counts(Count::Left, 5),
];

#[test]
fn leaks_of_the_careless(rt: HostRuntime) {
    go(&rt, rt.alloc(), &LEAVES, &LEFT);
}

const OF_THE_QUERY: Leak = Leak {
    context: CtxId {
        slot: 1,
        generation: 0,
    },
    kind: Some(ContextKind::Instance),
    place: Place::Query(INSTANCE),
};

const OF_A_DRAIN: Leak = Leak {
    context: CtxId {
        slot: 0,
        generation: 0,
    },
    kind: Some(ContextKind::Stream),
    place: Place::EarlyDrain(OpId(1), INSTANCE),
};

// The read is held below, so the instance above is drained of it as it is detached.
const DRAINED: [Step; 10] = [
    Step::Asks(Ask::Create(b"x"), DONE),
    Step::Asks(Ask::Read(0, 4, 0), Told::Held(1)),
    Step::Counts(Count::Left, 0),
    Step::Detaches(Ok(())),
    Step::Traces(4, "o1 drain i0"),
    Step::Leaks(0, OF_THE_QUERY, "leak c1 instance i0 query"),
    Step::Leaks(1, OF_A_DRAIN, "leak c0 stream i0 drain o1"),
    Step::Asks(Ask::Flush(0), DONE),
    Step::Finishes(1, DONE),
    Step::Counts(Count::Cleaned, 2),
];

#[test]
fn leak_of_an_early_drain(rt: HostRuntime) {
    go(&rt, rt.alloc(), &LEAVES_ABOVE, &DRAINED);
}

// The cleanup's callback has the read go on, but only after the close: then its handle is closed.
const CLOSED: [Step; 7] = [
    Step::Asks(Ask::Create(b"x"), DONE),
    Step::Asks(Ask::Read(0, 0, 0), Told::Held(1)),
    Step::Asks(Ask::Close(0), DONE),
    Step::Traces(5, "o3 reply 0"),
    Step::Finishes(1, Told::Done(Status::NoHandle, 0, b"")),
    Step::Traces(6, "o1 reply 14"),
    Step::FinishesNone,
];

#[test]
fn resumed_by_a_cleanup(rt: HostRuntime) {
    go(&rt, rt.alloc(), &WAITS, &CLOSED);
}
