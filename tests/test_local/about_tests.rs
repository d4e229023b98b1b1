//! What a callback may know of what it is called for.

use crate::asked::{Ask, DONE, Told};
use crate::says_about::SaysAbout;
use crate::steps::{Row, Step, named, run};
use fm_types::Status;

const ROWS: [Row<()>; 2] = [(b"first", (), b"100.5"), (b"second", (), b"50")];

const CREATES: [Step; 2] = [
    Step::Asks(Ask::Create(b"x"), DONE),
    Step::Asks(Ask::Write(0, 0, b"ab"), Told::Done(Status::Success, 2, b"")),
];

// The upper instance has the last word: it puts what it is told in the place of what the lower one said.
const READS: [Step; 1] = [Step::Asks(
    Ask::Read(0, 0, 64),
    Told::Done(Status::Success, 35, b"first f0 at 100.5 on v o2 read h0 x"),
)];

#[test]
fn about_says(rt: HostRuntime) {
    let alloc = rt.alloc();
    let mut filters = Vec::new(alloc);
    filters
        .push((named(&rt, b"first"), SaysAbout::new(alloc)))
        .expect(&rt, "memory");
    filters
        .push((named(&rt, b"second"), SaysAbout::new(alloc)))
        .expect(&rt, "memory");
    run(&rt, alloc, filters, &ROWS, &CREATES, &READS);
}
