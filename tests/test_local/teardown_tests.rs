//! Operations that samples hold, and what lets them go on: a flush, a detach, an unload; and a filter that declines.

use crate::asked::{Ask, DONE, Told};
use crate::declines::Declines;
use crate::samples::{Kind, run_samples};
use crate::steps::{Count, Row, Step, named, run};
use fm_types::{HandleId, Name, Status};
use std::alloc::Global;
use std::process::Abort;

const HOLD_ABOVE_SHIFT: [Row<Kind>; 2] = [
    (b"hold", Kind::Hold, b"200"),
    (b"shift", Kind::Shift, b"100"),
];

const FLUSHED: [Step; 8] = [
    Step::Asks(Ask::Create(b"x"), DONE),
    Step::Asks(
        Ask::Write(0, 0, b"abc"),
        Told::Done(Status::Success, 3, b""),
    ),
    Step::Asks(Ask::Read(0, 0, 5), Told::Held(2)),
    Step::Asks(Ask::Read(0, 1, 1), Told::Held(3)),
    Step::Asks(Ask::Flush(0), DONE),
    Step::Finishes(2, Told::Done(Status::Success, 3, b"abc")),
    Step::Finishes(3, Told::Done(Status::Success, 1, b"b")),
    Step::FinishesNone,
];

#[test]
fn hold_and_flush(rt: HostRuntime) {
    run_samples(&rt, rt.alloc(), &HOLD_ABOVE_SHIFT, &FLUSHED);
}

const HOLD: [Row<Kind>; 1] = [(b"hold", Kind::Hold, b"100")];

const LET_GO: [Step; 5] = [
    Step::Asks(Ask::Create(b"x"), DONE),
    Step::Asks(Ask::Read(0, 0, 0), Told::Held(1)),
    Step::Asks(Ask::Flush(0), DONE),
    Step::Finishes(1, DONE),
    Step::FinishesNone,
];

const STAY: [Row<Kind>; 1] = [(b"stay", Kind::Stay, b"100")];

const UNLOADED: [Step; 6] = [
    Step::Asks(Ask::Create(b"x"), DONE),
    Step::Detaches(Err(Status::DoNotDetach)),
    Step::Asks(Ask::Read(0, 0, 0), Told::Held(1)),
    Step::Unloads(Ok(())),
    Step::Finishes(1, DONE),
    Step::FinishesNone,
];

#[test]
fn hold_and_stay(rt: HostRuntime) {
    run_samples(&rt, rt.alloc(), &HOLD, &LET_GO);
    run_samples(&rt, rt.alloc(), &STAY, &UNLOADED);
}

// The start of its teardown has it resume what it holds, and the read goes on below it.
const DETACHED: [Step; 5] = [
    Step::Asks(Ask::Create(b"x"), DONE),
    Step::Asks(Ask::Read(0, 0, 0), Told::Held(1)),
    Step::Detaches(Ok(())),
    Step::Finishes(1, DONE),
    Step::FinishesNone,
];

#[test]
fn detach_of_a_hold(rt: HostRuntime) {
    run_samples(&rt, rt.alloc(), &HOLD, &DETACHED);
}

const SHIFT_ABOVE_HOLD: [Row<Kind>; 2] = [
    (b"hold", Kind::Hold, b"100"),
    (b"shift", Kind::Shift, b"200"),
];

const NO_HANDLE: HandleId = HandleId(7);

// What is held is cancelled by a work item: each read ends there with its status, in the order in which they began, and goes up. A detach is no more in its way
// then, and behind that there is no instance that could work.
const CANCELLED: [Step; 14] = [
    Step::Asks(Ask::Create(b"x"), DONE),
    Step::Asks(
        Ask::Write(0, 0, b"abc"),
        Told::Done(Status::Success, 3, b""),
    ),
    Step::Cancels(None, Ok(())),
    Step::FinishesNone,
    Step::Asks(Ask::Read(0, 0, 3), Told::Held(2)),
    Step::Asks(Ask::Read(0, 1, 1), Told::Held(3)),
    Step::Counts(Count::InFlight, 2),
    Step::Cancels(Some(NO_HANDLE), Err(Status::NoHandle)),
    Step::Cancels(Some(HandleId(0)), Ok(())),
    Step::Counts(Count::InFlight, 0),
    Step::Finishes(2, Told::Done(Status::AccessDenied, 0, b"")),
    Step::Finishes(3, Told::Done(Status::AccessDenied, 0, b"")),
    Step::Detaches(Ok(())),
    Step::Cancels(None, Err(Status::NoInstance)),
];

#[test]
fn cancel_of_what_is_held(rt: HostRuntime) {
    run_samples(&rt, rt.alloc(), &SHIFT_ABOVE_HOLD, &CANCELLED);
    run_samples(&rt, rt.alloc(), &HOLD, &CANCELLED);
}

const CARRY_ABOVE_HOLD: [Row<Kind>; 2] = [
    (b"carry", Kind::Carry, b"200"),
    (b"hold", Kind::Hold, b"100"),
];

// The read is held above the instance that is to be told of it on the way up: the detach of that one drains it, and the read goes on when it is resumed.
const DRAINED: [Step; 11] = [
    Step::Asks(Ask::Create(b"x"), DONE),
    Step::Asks(Ask::Read(0, 0, 0), Told::Held(1)),
    Step::Counts(Count::InFlight, 1),
    Step::Detaches(Ok(())),
    Step::Counts(Count::Born, 1),
    Step::Counts(Count::Cleaned, 1),
    Step::Counts(Count::Left, 0),
    Step::Asks(Ask::Flush(0), DONE),
    Step::Asks(Ask::Close(0), DONE),
    Step::Finishes(1, DONE),
    Step::FinishesNone,
];

#[test]
fn detach_below_a_held_read(rt: HostRuntime) {
    run_samples(&rt, rt.alloc(), &CARRY_ABOVE_HOLD, &DRAINED);
}

// More reads than a hand has places, and one flush that has all of them go on, in order.
const FLUSHED_ALL: [Step; 5] = [
    Step::Asks(Ask::Create(b"x"), DONE),
    Step::HoldsReads(1, 20),
    Step::Asks(Ask::Flush(0), DONE),
    Step::FinishesAll(1, 20, DONE),
    Step::FinishesNone,
];

// More reads than there are workers are held below, and drained as the instance above them is detached.
const DRAINED_ALL: [Step; 12] = [
    Step::Asks(Ask::Create(b"x"), DONE),
    Step::HoldsReads(1, 60),
    Step::Counts(Count::InFlight, 60),
    Step::Detaches(Ok(())),
    Step::Counts(Count::InFlight, 0),
    Step::Counts(Count::Born, 1),
    Step::Counts(Count::Cleaned, 1),
    Step::Counts(Count::Left, 0),
    Step::Asks(Ask::Flush(0), DONE),
    Step::FinishesAll(1, 60, DONE),
    Step::FinishesNone,
    Step::Asks(Ask::Close(0), DONE),
];

#[test]
fn many_held_reads(rt: HostRuntime) {
    run_samples(&rt, rt.alloc(), &HOLD, &FLUSHED_ALL);
    run_samples(&rt, rt.alloc(), &CARRY_ABOVE_HOLD, &DRAINED_ALL);
}

const HOLD_ABOVE_CARRY: [Row<Kind>; 2] = [
    (b"hold", Kind::Hold, b"200"),
    (b"carry", Kind::Carry, b"100"),
];

// The handle is closed when the read comes to the carry: that it has no context there can't be told, so none is made.
const CLOSED_ABOVE: [Step; 6] = [
    Step::Asks(Ask::Create(b"x"), DONE),
    Step::Asks(Ask::Read(0, 0, 0), Told::Held(1)),
    Step::Asks(Ask::Close(0), DONE),
    Step::Detaches(Ok(())),
    Step::Finishes(1, Told::Done(Status::NoHandle, 0, b"")),
    Step::Counts(Count::Born, 0),
];

#[test]
fn carry_of_a_closed_handle(rt: HostRuntime) {
    run_samples(&rt, rt.alloc(), &HOLD_ABOVE_CARRY, &CLOSED_ABOVE);
}

const STAY_BETWEEN: [Row<Kind>; 3] = [
    (b"stay", Kind::Stay, b"200"),
    (b"hold", Kind::Hold, b"100"),
    (b"shift", Kind::Shift, b"300"),
];

// The first read is held on its way up, the second one below. The start of the teardown has the first one resumed, but it goes on up only once the other one
// is drained.
const DRAINED_FIRST: [Step; 10] = [
    Step::Asks(Ask::Create(b"x"), DONE),
    Step::Asks(Ask::Read(0, 0, 0), Told::Held(1)),
    Step::Asks(Ask::Flush(0), DONE),
    Step::FinishesNone,
    Step::Asks(Ask::Read(0, 0, 0), Told::Held(3)),
    Step::Counts(Count::Traced, 14),
    Step::Unloads(Ok(())),
    Step::Traces(14, "o3 drain i0"),
    Step::Traces(15, "o1 post i2"),
    Step::Finishes(1, DONE),
];

#[test]
fn drained_before_it_goes_on(rt: HostRuntime) {
    run_samples(&rt, rt.alloc(), &STAY_BETWEEN, &DRAINED_FIRST);
}

const STAYS: [Row<()>; 1] = [(b"stays", (), b"100")];

const DECLINED: [Step; 4] = [
    Step::Declines(b"never"),
    Step::Detaches(Err(Status::DoNotDetach)),
    Step::Unloads(Err(Status::DoNotDetach)),
    Step::Asks(Ask::List, DONE),
];

// The filters that decline to be attached, or to go.
fn decliners(rt: &impl Abort, alloc: Global) -> Vec<(Name, Declines)> {
    let mut filters = Vec::new(alloc);
    filters
        .push((named(rt, b"stays"), Declines::ToGo))
        .expect(rt, "memory");
    filters
        .push((named(rt, b"never"), Declines::ToCome))
        .expect(rt, "memory");
    filters
}

#[test]
fn declines(rt: HostRuntime) {
    let filters = decliners(&rt, rt.alloc());
    run(&rt, rt.alloc(), filters, &STAYS, &[], &DECLINED);
}
