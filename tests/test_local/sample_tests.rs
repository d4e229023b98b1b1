//! What requests are answered through samples that nothing holds up.

use crate::asked::{Ask, DONE, Told};
use crate::samples::{Kind, run_samples};
use crate::steps::{Count, Row, Step};
use fm_types::Status;

const SHIFT: [Row<Kind>; 1] = [(b"shift", Kind::Shift, b"100")];

const SHIFTED: [Step; 8] = [
    Step::Asks(Ask::Create(b"x"), DONE),
    Step::Asks(
        Ask::Write(0, 0, b"ab\xff"),
        Told::Done(Status::Success, 3, b""),
    ),
    Step::Holds(b"x", b"bc\x00"),
    Step::Asks(
        Ask::Read(0, 0, 5),
        Told::Done(Status::Success, 3, b"ab\xff"),
    ),
    Step::Asks(Ask::Read(0, 3, 1), Told::Done(Status::EndOfFile, 0, b"")),
    Step::Asks(Ask::Size(0), Told::Done(Status::Success, 3, b"")),
    Step::Asks(
        Ask::Read(0, 0, 32_769),
        Told::Done(Status::BadRequest, 0, b""),
    ),
    Step::Asks(
        Ask::SetSize(0, (1 << 40) + 1),
        Told::Done(Status::BadRequest, 0, b""),
    ),
];

#[test]
fn shift_local(rt: HostRuntime) {
    run_samples(&rt, rt.alloc(), &SHIFT, &SHIFTED);
}

// The guard lies above both shifts, of which each adds 1.
const THREE: [Row<Kind>; 3] = [
    (b"low", Kind::Shift, b"100.25"),
    (b"guard", Kind::Guard, b"300"),
    (b"high", Kind::Shift, b"100.5"),
];

const GUARDED: [Step; 9] = [
    Step::Asks(
        Ask::Create(b"deny/x"),
        Told::Done(Status::AccessDenied, 0, b""),
    ),
    Step::Asks(Ask::Create(b"y"), DONE),
    Step::Asks(Ask::Write(0, 0, b"ab"), Told::Done(Status::Success, 2, b"")),
    Step::Asks(Ask::Read(0, 1, 5), Told::Done(Status::Success, 1, b"b")),
    Step::Asks(Ask::Flush(0), DONE),
    Step::Asks(Ask::List, Told::Done(Status::Success, 2, b"y\n")),
    Step::Asks(Ask::Close(0), DONE),
    Step::Asks(Ask::Close(0), Told::Done(Status::NoHandle, 0, b"")),
    Step::Holds(b"y", b"cd"),
];

#[test]
fn samples_above_each_other(rt: HostRuntime) {
    run_samples(&rt, rt.alloc(), &THREE, &GUARDED);
}

const METER: [Row<Kind>; 1] = [(b"meter", Kind::Meter, b"100")];

// The numbers of a stream's reads and writes come with its cleanup, which the close of the last handle makes due. Each callback allocates a context, of
// which only the first is set: the others are cleaned up at once, and have counted nothing.
const METERED: [Step; 10] = [
    Step::Asks(Ask::Create(b"x"), DONE),
    Step::Rounds(
        50,
        (Ask::Write(0, 0, b"a"), Told::Done(Status::Success, 1, b"")),
        (Ask::Read(0, 0, 0), DONE),
    ),
    Step::Counts(Count::Total, 0),
    Step::Asks(Ask::Close(0), DONE),
    Step::Counts(Count::Total, 100),
    Step::Counts(Count::Born, 100),
    Step::Counts(Count::Cleaned, 100),
    Step::Counts(Count::Left, 0),
    Step::Detaches(Ok(())),
    Step::Unloads(Ok(())),
];

#[test]
fn meter_total(rt: HostRuntime) {
    run_samples(&rt, rt.alloc(), &METER, &METERED);
}

const CARRY: [Row<Kind>; 1] = [(b"carry", Kind::Carry, b"100")];

// The first read makes a context of its handle, the second one finds it; both send it along, and it comes back to be released. The close is its end.
const CARRIED: [Step; 7] = [
    Step::Asks(Ask::Create(b"x"), DONE),
    Step::Asks(Ask::Read(0, 0, 0), DONE),
    Step::Asks(Ask::Read(0, 0, 0), DONE),
    Step::Asks(Ask::Close(0), DONE),
    Step::Counts(Count::Born, 1),
    Step::Counts(Count::Cleaned, 1),
    Step::Counts(Count::Left, 0),
];

const TWO_CARRY: [Row<Kind>; 2] = [
    (b"low", Kind::Carry, b"100"),
    (b"high", Kind::Carry, b"200"),
];

// The close is the end of both contexts, and both are cleaned up before it is answered.
const CARRIED_TWICE: [Step; 6] = [
    Step::Asks(Ask::Create(b"x"), DONE),
    Step::Asks(Ask::Read(0, 0, 0), DONE),
    Step::Counts(Count::Cleaned, 0),
    Step::Asks(Ask::Close(0), DONE),
    Step::Counts(Count::Born, 2),
    Step::Counts(Count::Cleaned, 2),
];

#[test]
fn carried_reads(rt: HostRuntime) {
    run_samples(&rt, rt.alloc(), &CARRY, &CARRIED);
    run_samples(&rt, rt.alloc(), &TWO_CARRY, &CARRIED_TWICE);
}

// A file of the other volume is none of the first one's, and the guard isn't there.
const APART: [Step; 4] = [
    Step::Asks(Ask::CreateThere(b"deny/z"), DONE),
    Step::Asks(Ask::CreateThere(b"z"), Told::Done(Status::Success, 1, b"")),
    Step::Asks(Ask::ListThere, Told::Done(Status::Success, 2, b"z\n")),
    Step::Asks(Ask::List, DONE),
];

#[test]
fn two_volumes(rt: HostRuntime) {
    run_samples(&rt, rt.alloc(), &THREE, &APART);
}
