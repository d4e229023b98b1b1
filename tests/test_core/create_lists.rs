//! Lists of events on a create and on what stands on its handle: data that isn't the operation's, and a base that tells more than it is asked.

use crate::events::{CONTEXT, Event, WORKER};
use crate::lines::Line::{Counts, Does, Leaves, Opens};
use crate::lines::{
    ATTACHED, BAD, CREATED, FIRST, IDLE, Line, List, NONE, OTHER, REGISTERED, SECOND, THIRD,
    WITH_CONTEXT,
};
use crate::told::Told;
use fm_ctx::Count;
use fm_callback_data::PostVerdict;
use fm_types::{ContextKind, Operation, Status};

const DONE: PostVerdict = PostVerdict::Finished;

// A create whose preoperation sends a stream context along, which its postoperation sets. Data and calls of another operation are strange, and the worker
// stays where it is; the reply is handed out once.
const CREATE_WITH_A_CONTEXT: &[Line] = &[
    Does(Event::Begin(Operation::Create), Told::Number(0)),
    Does(Event::Next(WORKER, FIRST), Told::Pre),
    Does(Event::Allocate(ContextKind::Stream), Told::Context(CONTEXT)),
    Does(Event::Set, Told::Refused(Status::NoObject)),
    Does(Event::Pre(WORKER, NONE, Operation::Read), BAD),
    Does(
        Event::Pre(WORKER, WITH_CONTEXT, Operation::Create),
        Told::Done,
    ),
    Does(Event::Next(WORKER, FIRST), Told::Base),
    Does(Event::Base(WORKER, Operation::Read), BAD),
    Does(Event::Base(WORKER, Operation::Create), Told::Done),
    Does(Event::Next(WORKER, FIRST), Told::Post),
    Does(Event::Set, Told::Linked),
    Does(Event::Post(WORKER, DONE, Operation::Read), BAD),
    Does(Event::Post(WORKER, DONE, Operation::Create), Told::Done),
    Does(Event::Next(WORKER, FIRST), Told::AllDone),
    Does(Event::Collect(FIRST), Told::Answer(Status::Success, 0, 0)),
    Does(Event::Collect(FIRST), IDLE),
];

// The handle's cleanup and close.
const CLOSED: &[Line] = &[
    Does(Event::Begin(Operation::Cleanup), Told::Number(1)),
    Does(Event::Next(WORKER, SECOND), Told::Pre),
    Does(Event::Pre(WORKER, NONE, Operation::Cleanup), Told::Done),
    Does(Event::Next(WORKER, SECOND), Told::Moved),
    Does(Event::Next(WORKER, SECOND), Told::AllDone),
    Does(Event::Begin(Operation::Close), Told::Number(2)),
    Does(Event::Next(WORKER, THIRD), Told::Pre),
    Does(Event::Pre(WORKER, NONE, Operation::Close), Told::Done),
    Does(Event::Next(WORKER, THIRD), Told::Moved),
    Does(Event::Next(WORKER, THIRD), Told::AllDone),
];

// The context's cleanup, which adds 40 to its filter's total.
const CLEANED: &[Line] = &[
    Does(Event::TakeDue, Told::Due(Some(CONTEXT))),
    Does(Event::Cleaned(40), Told::Done),
    Does(Event::TakeDue, Told::Due(None)),
    Opens(0),
    Leaves(1, 40),
    Counts(Count::Cleaned),
];

// A read of which the base tells 7 and gives one byte: the information is the number of bytes.
const READ: &[Line] = &[
    Does(Event::Collect(FIRST), Told::Answer(Status::Success, 0, 0)),
    Does(Event::Begin(Operation::Read), Told::Number(1)),
    Does(Event::Next(OTHER, SECOND), Told::Pre),
    Does(Event::Pre(OTHER, NONE, Operation::Read), Told::Done),
    Does(Event::Next(OTHER, SECOND), Told::Base),
    Does(Event::Base(OTHER, Operation::Read), Told::Done),
    Does(Event::Next(OTHER, SECOND), Told::AllDone),
    Does(Event::Collect(SECOND), Told::Answer(Status::Success, 1, 1)),
    Opens(1),
    Leaves(0, 0),
    Counts(Count::Absent),
];

/// The lists.
pub const LISTS: &[List] = &[
    (
        "contexts_of_a_create",
        &[REGISTERED, ATTACHED, CREATE_WITH_A_CONTEXT, CLOSED, CLEANED],
    ),
    (
        "a_base_that_tells_more",
        &[REGISTERED, ATTACHED, CREATED, READ],
    ),
];
