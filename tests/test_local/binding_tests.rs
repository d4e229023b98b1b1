//! A postoperation that is asked for as synchronized, between two that aren't; and a meter's numbers, told apart.

use crate::asked::{Ask, DONE, Told};
use crate::binds::Binds;
use crate::steps::{Count, Row, Step, named, run};
use crate::tells_apart::TellsApart;
use fm_samples::Meter;
use fm_types::{Name, Status};
use std::alloc::Global;
use std::process::Abort;

const THREE: [Row<()>; 3] = [
    (b"low", (), b"100"),
    (b"own", (), b"200"),
    (b"high", (), b"300"),
];

fn three(rt: &impl Abort, alloc: Global) -> Vec<(Name, Binds)> {
    let mut filters = Vec::new(alloc);
    for (name, binds) in [
        (b"low".as_slice(), Binds::Any),
        (b"own", Binds::Own),
        (b"high", Binds::Any),
    ] {
        filters.push((named(rt, name), binds)).expect(rt, "memory");
    }
    filters
}

// On one thread it is a postoperation as any other.
const BOUND: [Step; 10] = [
    Step::Asks(Ask::Create(b"x"), DONE),
    Step::Asks(Ask::Read(0, 0, 0), DONE),
    Step::Counts(Count::Traced, 10),
    Step::Traces(2, "o1 pre i2 with"),
    Step::Traces(3, "o1 pre i1 sync"),
    Step::Traces(4, "o1 pre i0 with"),
    Step::Traces(5, "o1 base 0"),
    Step::Traces(6, "o1 post i0"),
    Step::Traces(7, "o1 post i1"),
    Step::Traces(8, "o1 post i2"),
];

#[test]
fn synchronized_between_two(rt: HostRuntime) {
    let filters = three(&rt, rt.alloc());
    run(&rt, rt.alloc(), filters, &THREE, &[], &BOUND);
}

const METER: [Row<()>; 1] = [(b"meter", (), b"100")];

const TOLD_APART: [Step; 6] = [
    Step::Asks(Ask::Create(b"x"), DONE),
    Step::Rounds(
        2,
        (Ask::Write(0, 0, b"a"), Told::Done(Status::Success, 1, b"")),
        (Ask::Read(0, 0, 0), DONE),
    ),
    Step::Asks(Ask::Write(0, 0, b"b"), Told::Done(Status::Success, 1, b"")),
    Step::Asks(Ask::Close(0), DONE),
    Step::Counts(Count::Total, 2003),
    Step::Counts(Count::Left, 0),
];

#[test]
fn reads_and_writes_apart(rt: HostRuntime) {
    let mut filters = Vec::new(rt.alloc());
    filters
        .push((named(&rt, b"meter"), TellsApart(Meter::new(rt.alloc()))))
        .expect(&rt, "memory");
    run(&rt, rt.alloc(), filters, &METER, &[], &TOLD_APART);
}
