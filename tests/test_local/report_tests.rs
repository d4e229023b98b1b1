//! What the manager tells of a filter that forgets to release what it took: each leak with its text, and the steps of a read.

use crate::asked::{Ask, DONE, Told};
use crate::forgets::Forgets;
use crate::steps::{Count, INSTANCE, Row, Step, named, run};
use fm_core::Place;
use fm_local::Leak;
use fm_types::{ContextKind, CtxId, OpId, Status};
use std::alloc::Global;
use std::process::Abort;

const FORGETS: [Row<()>; 1] = [(b"forgets", (), b"100")];

// A file with two bytes, and two reads of them.
const READS: [Step; 4] = [
    Step::Asks(Ask::Create(b"x"), DONE),
    Step::Asks(Ask::Write(0, 0, b"ab"), Told::Done(Status::Success, 2, b"")),
    Step::Asks(Ask::Read(0, 0, 5), Told::Done(Status::Success, 2, b"ab")),
    Step::Asks(Ask::Read(0, 1, 1), Told::Done(Status::Success, 1, b"b")),
];

// Reads through one instance of the filter, and then takes the steps.
fn forget(rt: &impl Abort, alloc: Global, steps: &[Step]) {
    let mut filters = Vec::new(alloc);
    filters
        .push((named(rt, b"forgets"), Forgets::new(alloc)))
        .expect(rt, "memory");
    run(rt, alloc, filters, &FORGETS, &READS, steps);
}

// The context of the first read is cleaned up when that is done, so that the second one's lies in its slot.
const LEAKS: [Step; 10] = [
    Step::Counts(Count::Leaked, 5),
    Step::Leaks(
        0,
        Leak {
            context: CtxId {
                slot: 0,
                generation: 0,
            },
            kind: Some(ContextKind::Instance),
            place: Place::Setup(INSTANCE),
        },
        "leak c0 instance i0 setup",
    ),
    Step::Leaks(
        1,
        Leak {
            context: CtxId {
                slot: 1,
                generation: 0,
            },
            kind: Some(ContextKind::Stream),
            place: Place::Pre(OpId(2), INSTANCE),
        },
        "leak c1 stream i0 pre o2",
    ),
    Step::Leaks(
        2,
        Leak {
            context: CtxId {
                slot: 1,
                generation: 0,
            },
            kind: Some(ContextKind::Stream),
            place: Place::Post(OpId(2), INSTANCE),
        },
        "leak c1 stream i0 post o2",
    ),
    Step::Leaks(
        3,
        Leak {
            context: CtxId {
                slot: 1,
                generation: 1,
            },
            kind: Some(ContextKind::Stream),
            place: Place::Pre(OpId(3), INSTANCE),
        },
        "leak c1.1 stream i0 pre o3",
    ),
    Step::Leaks(
        4,
        Leak {
            context: CtxId {
                slot: 1,
                generation: 1,
            },
            kind: Some(ContextKind::Stream),
            place: Place::Post(OpId(3), INSTANCE),
        },
        "leak c1.1 stream i0 post o3",
    ),
    Step::Counts(Count::Born, 3),
    Step::Counts(Count::Cleaned, 2),
    Step::Counts(Count::Left, 5),
    Step::Counts(Count::Total, 2),
];

#[test]
fn leaks_by_callback(rt: HostRuntime) {
    forget(&rt, rt.alloc(), &LEAKS);
}

const TORN_DOWN: [Step; 5] = [
    Step::Detaches(Ok(())),
    Step::Leaks(
        5,
        Leak {
            context: CtxId {
                slot: 1,
                generation: 2,
            },
            kind: Some(ContextKind::Stream),
            place: Place::Complete(INSTANCE),
        },
        "leak c1.2 stream i0 complete",
    ),
    Step::Counts(Count::Born, 4),
    Step::Counts(Count::Cleaned, 4),
    Step::Counts(Count::Left, 6),
];

#[test]
fn leak_of_a_teardown(rt: HostRuntime) {
    forget(&rt, rt.alloc(), &TORN_DOWN);
}

const TRACES: [Step; 13] = [
    Step::Counts(Count::Traced, 12),
    Step::Traces(0, "o0 base 0"),
    Step::Traces(1, "o0 reply 0"),
    Step::Traces(2, "o1 base 0"),
    Step::Traces(3, "o1 reply 0"),
    Step::Traces(4, "o2 pre i0 with"),
    Step::Traces(5, "o2 base 0"),
    Step::Traces(6, "o2 post i0"),
    Step::Traces(7, "o2 reply 0"),
    Step::Traces(8, "o3 pre i0 with"),
    Step::Traces(9, "o3 base 0"),
    Step::Traces(10, "o3 post i0"),
    Step::Traces(11, "o3 reply 0"),
];

#[test]
fn steps_of_a_read(rt: HostRuntime) {
    forget(&rt, rt.alloc(), &TRACES);
}
