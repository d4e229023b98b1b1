//! Two reads have asked for their postoperation at the upper instance, and the lower one holds them: the teardown of the upper one drains both.

ghost use Rattle.std.specs.Prelude.{◌≡◌};

use crate::asked::{Ask, DONE, Told};
use crate::steps::{Count, Row, Step, named, run};
use fm_callback_data::{CallbackData, Completion, Params, PostVerdict, PreVerdict};
use fm_filter::{Agreeable, Port};
use fm_operations::Hold;
use fm_types::{ContextKind, ContextMask, OpMask, Registration, Status};

/// A filter of reads.
#[derive(Clone, Copy)]
enum Reads {
    /// Asks for the postoperation of each.
    Asks,
    /// Holds each until a flush, which lets all go.
    Holds,
}

// Lets all go that are held there.
fn resume<P: Port>(port: &mut P)
    ensures far { P.kept port.new ≡ P.kept port.old }
{
    for _ in 0..2 {
        if let Ok(Some(operation)) = port.first_held(Hold::Pre) {
            let _ = port.resume_pre(operation, PreVerdict::NoCallback);
        }
    }
}

impl Agreeable for Reads {
    ghost use Rattle.std.specs.Prelude.{⊤, true};

    ghost registers = { λ _. record { pre = record { 0 = 34 }; post = record { 0 = 2 }; contexts = record { 0 = 0 }; query = true; unload = true } };

    ghost pre_may = { λ _ _ _ _. ⊤ };

    ghost post_may = { λ _ _ _ _ _. ⊤ };

    ghost cleanup_may = { λ _ _ _ _. ⊤ };

    ghost is_quiet = { λ _. ⊥ };

    fn registration(&self) -> Registration {
        Registration {
            pre: OpMask(OpMask::READ.0 | OpMask::FLUSH.0),
            post: OpMask::READ,
            contexts: ContextMask::NONE,
            query: true,
            unload: true,
        }
    }

    fn pre<P: Port>(&self, lent: &mut CallbackData, port: &mut P) -> PreVerdict {
        match (self, lent.params()) {
            (Reads::Asks, Params::Read { .. }) => PreVerdict::WithCallback(Completion {
                number: 0,
                context: None,
            }),
            (Reads::Holds, Params::Read { .. }) => PreVerdict::Pending,
            (Reads::Holds, Params::Flush) => {
                resume(port);
                PreVerdict::NoCallback
            }
            _ => PreVerdict::NoCallback,
        }
    }

    fn post<P: Port>(&self, _: &mut CallbackData, _: Completion, _: &mut P) -> PostVerdict {
        PostVerdict::Finished
    }

    fn cleanup(&self, _kind: ContextKind, _body: &[u8]) -> u64 {
        0
    }
}

const ROWS: [Row<()>; 2] = [(b"asks", (), b"200"), (b"holds", (), b"100")];

// The create makes two steps, each read two, and each drain one. Nobody is asked behind the base calls of the reads, at the end of an empty file.
const DRAINED: [Step; 13] = [
    Step::Asks(Ask::Create(b"x"), DONE),
    Step::Asks(Ask::Read(0, 0, 1), Told::Held(1)),
    Step::Asks(Ask::Read(0, 0, 1), Told::Held(2)),
    Step::Counts(Count::InFlight, 2),
    Step::Detaches(Ok(())),
    Step::Traces(6, "o1 drain i0"),
    Step::Traces(7, "o2 drain i0"),
    Step::Counts(Count::InFlight, 0),
    Step::Asks(Ask::Flush(0), DONE),
    Step::Finishes(1, Told::Done(Status::EndOfFile, 0, b"")),
    Step::Finishes(2, Told::Done(Status::EndOfFile, 0, b"")),
    Step::Counts(Count::Traced, 15),
    Step::FinishesNone,
];

#[test]
fn both_are_drained(rt: HostRuntime) {
    let alloc = rt.alloc();
    let mut filters = Vec::new(alloc);
    filters
        .push((named(&rt, b"asks"), Reads::Asks))
        .expect(&rt, "memory");
    filters
        .push((named(&rt, b"holds"), Reads::Holds))
        .expect(&rt, "memory");
    run(&rt, alloc, filters, &ROWS, &[], &DRAINED);
}
