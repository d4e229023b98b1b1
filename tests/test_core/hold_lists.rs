//! Lists of events on operations that a filter holds, or whose postoperation is one worker's, with what can be read between them.

use crate::events::{CONTEXT, Event, WORKER};
use crate::lines::Line::{Does, Holds, Synchronized};
use crate::lines::{
    ATTACHED, BAD, BELOW, CREATED, FIRST, IDLE, Line, List, NOBODY, NONE, OTHER, REGISTERED,
    SECOND, THIRD, WITH, WITH_CONTEXT,
};
use crate::told::Told;
use fm_callback_data::{Completion, PostVerdict, PreVerdict};
use fm_operations::Hold;
use fm_types::{ContextKind, CtxId, OpId, Operation, Status, WorkerId};

const FOURTH: OpId = OpId(3);

/// One that there isn't.
const UNKNOWN: OpId = OpId(9);

const NEXT_CONTEXT: CtxId = CtxId {
    slot: 1,
    generation: 0,
};

const PEND: PreVerdict = PreVerdict::Pending;

const SYNC: PreVerdict = PreVerdict::Synchronize(Completion {
    number: 0,
    context: None,
});

const SYNC_WITH_CONTEXT: PreVerdict = PreVerdict::Synchronize(Completion {
    number: 0,
    context: Some(CONTEXT),
});

const MORE: PostVerdict = PostVerdict::MoreProcessing;

const DONE: PostVerdict = PostVerdict::Finished;

const NOT_HELD: Told = Told::Refused(Status::NotPended);

const HOLDS_NONE: Told = Told::First(None);

const HOLDS_FIRST: Told = Told::First(Some(FIRST));

const HOLDS_SECOND: Told = Told::First(Some(SECOND));

const HOLDS_THIRD: Told = Told::First(Some(THIRD));

const HOLDS_FOURTH: Told = Told::First(Some(FOURTH));

// A filter without postoperation callbacks.
const REGISTERED_PRE: &[Line] = &[Does(Event::RegisterPre, Told::Number(0))];

// The fourth, the second and then the first of four listings are held on their way down, the first by the instance below. The third asks for what its
// instance holds: nobody is told of the other's, and the lowest number comes first, not what was held first.
const HELD_DOWN: &[Line] = &[
    Does(Event::FirstHeld(WORKER, Hold::Pre), IDLE),
    Does(Event::FirstHeld(NOBODY, Hold::Pre), IDLE),
    Does(Event::Begin(Operation::List), Told::Number(0)),
    Does(Event::Begin(Operation::List), Told::Number(1)),
    Does(Event::Begin(Operation::List), Told::Number(2)),
    Does(Event::Begin(Operation::List), Told::Number(3)),
    Does(Event::Next(OTHER, FOURTH), Told::Pre),
    Does(Event::FirstHeld(OTHER, Hold::Pre), HOLDS_NONE),
    Does(Event::Pre(OTHER, PEND, Operation::List), Told::Done),
    Does(Event::FirstHeld(OTHER, Hold::Pre), IDLE),
    Does(Event::Next(OTHER, SECOND), Told::Pre),
    Does(Event::FirstHeld(OTHER, Hold::Pre), HOLDS_FOURTH),
    Does(Event::Pre(OTHER, PEND, Operation::List), Told::Done),
    Does(Event::Next(OTHER, FIRST), Told::Pre),
    Does(Event::Pre(OTHER, NONE, Operation::List), Told::Done),
    Does(Event::Next(OTHER, FIRST), Told::Pre),
    Does(Event::FirstHeld(OTHER, Hold::Pre), HOLDS_NONE),
    Does(Event::Pre(OTHER, PEND, Operation::List), Told::Done),
    Does(Event::Next(WORKER, THIRD), Told::Pre),
    Does(Event::FirstHeld(WORKER, Hold::Pre), HOLDS_SECOND),
    Does(Event::FirstHeld(WORKER, Hold::Post), HOLDS_NONE),
    Does(Event::ResumePre(WORKER, SECOND, NONE), Told::Done),
    Does(Event::FirstHeld(WORKER, Hold::Pre), HOLDS_FOURTH),
    Does(Event::ResumePre(WORKER, FOURTH, NONE), Told::Done),
    Does(Event::FirstHeld(WORKER, Hold::Pre), HOLDS_NONE),
    Does(Event::Pre(WORKER, NONE, Operation::List), Told::Done),
    Does(Event::Next(WORKER, THIRD), Told::Pre),
    Does(Event::FirstHeld(WORKER, Hold::Pre), HOLDS_FIRST),
    Does(Event::Pre(WORKER, NONE, Operation::List), Told::Done),
    Does(Event::Next(WORKER, THIRD), Told::Base),
    Does(Event::FirstHeld(WORKER, Hold::Pre), IDLE),
];

// Two reads are held on their way up, the later one first. Their postoperations hand back data that tells nothing.
const HELD_UP: &[Line] = &[
    Does(Event::Begin(Operation::Read), Told::Number(1)),
    Does(Event::Begin(Operation::Read), Told::Number(2)),
    Does(Event::Begin(Operation::Read), Told::Number(3)),
    Does(Event::Next(OTHER, THIRD), Told::Pre),
    Does(Event::Pre(OTHER, WITH, Operation::Read), Told::Done),
    Does(Event::Next(OTHER, THIRD), Told::Base),
    Does(Event::Base(OTHER, Operation::Read), Told::Done),
    Does(Event::Next(OTHER, THIRD), Told::Post),
    Does(Event::FirstHeld(OTHER, Hold::Post), HOLDS_NONE),
    Does(Event::Post(OTHER, MORE, Operation::Read), Told::Done),
    Does(Event::Next(OTHER, SECOND), Told::Pre),
    Does(Event::Pre(OTHER, WITH, Operation::Read), Told::Done),
    Does(Event::Next(OTHER, SECOND), Told::Base),
    Does(Event::FirstHeld(OTHER, Hold::Post), IDLE),
    Does(Event::Base(OTHER, Operation::Read), Told::Done),
    Does(Event::Next(OTHER, SECOND), Told::Post),
    Does(Event::FirstHeld(OTHER, Hold::Post), HOLDS_THIRD),
    Does(Event::Post(OTHER, MORE, Operation::Read), Told::Done),
    Does(Event::FirstHeld(OTHER, Hold::Post), IDLE),
];

// The setup of another instance holds nothing, and lets nothing go on. A callback of the first resumes one after the other.
const LET_UP: &[Line] = &[
    Does(Event::AttachBelow, Told::Number(1)),
    Does(Event::FirstHeld(WORKER, Hold::Post), HOLDS_NONE),
    Does(Event::ResumePost(WORKER, SECOND), NOT_HELD),
    Does(Event::SetupDone(true), Told::Done),
    Does(Event::Next(WORKER, FOURTH), Told::Pre),
    Does(Event::FirstHeld(WORKER, Hold::Post), HOLDS_SECOND),
    Does(Event::FirstHeld(WORKER, Hold::Pre), HOLDS_NONE),
    Does(Event::ResumePost(WORKER, SECOND), Told::Done),
    Does(Event::FirstHeld(WORKER, Hold::Post), HOLDS_THIRD),
    Does(Event::ResumePost(WORKER, THIRD), Told::Done),
    Does(Event::FirstHeld(WORKER, Hold::Post), HOLDS_NONE),
    Does(Event::ResumePost(WORKER, THIRD), NOT_HELD),
    Does(Event::Next(OTHER, SECOND), Told::AllDone),
    Does(Event::Collect(THIRD), Told::Answer(Status::Success, 0, 0)),
];

// A read is held on its way down, and worker 0 is in a callback of the same instance with two contexts in its hand.
const HELD_WITH_TWO: &[Line] = &[
    Does(Event::Begin(Operation::Read), Told::Number(1)),
    Does(Event::Begin(Operation::Read), Told::Number(2)),
    Does(Event::ResumePre(WORKER, SECOND, PEND), IDLE),
    Does(Event::ResumePre(NOBODY, SECOND, NONE), IDLE),
    Does(Event::Next(OTHER, SECOND), Told::Pre),
    Does(Event::Pre(OTHER, PEND, Operation::Read), Told::Done),
    Does(Event::Next(WORKER, THIRD), Told::Pre),
    Does(
        Event::Allocate(ContextKind::Instance),
        Told::Context(CONTEXT),
    ),
    Does(
        Event::Allocate(ContextKind::Instance),
        Told::Context(NEXT_CONTEXT),
    ),
    Holds(2),
];

// What is refused changes nothing.
const REFUSED: &[Line] = &[
    Does(Event::ResumePre(WORKER, SECOND, PEND), BAD),
    Does(Event::ResumePre(WORKER, SECOND, SYNC_WITH_CONTEXT), BAD),
    Does(Event::ResumePre(WORKER, UNKNOWN, PEND), BAD),
    Does(Event::ResumePre(WORKER, UNKNOWN, WITH_CONTEXT), NOT_HELD),
    Does(Event::ResumePre(WORKER, THIRD, WITH_CONTEXT), NOT_HELD),
    Does(Event::ResumePost(WORKER, UNKNOWN), NOT_HELD),
    Does(Event::ResumePost(WORKER, SECOND), NOT_HELD),
    Does(Event::ResumePre(OTHER, SECOND, PEND), IDLE),
    Does(Event::ResumePost(OTHER, SECOND), IDLE),
    Holds(2),
    Does(Event::FirstHeld(WORKER, Hold::Pre), HOLDS_SECOND),
    Does(Event::Next(OTHER, SECOND), Told::Held),
];

// The completion takes its context along, and the rest of the hand stays.
const CARRIED: &[Line] = &[
    Does(Event::ResumePre(WORKER, SECOND, WITH_CONTEXT), Told::Done),
    Holds(1),
    Does(Event::Set, Told::Refused(Status::NotHeld)),
    Does(Event::ResumePre(WORKER, SECOND, WITH_CONTEXT), NOT_HELD),
    Holds(1),
    Does(Event::Pre(WORKER, NONE, Operation::Read), Told::Done),
    Holds(0),
    Does(Event::Next(WORKER, SECOND), Told::Base),
    Does(Event::Base(WORKER, Operation::Read), Told::Done),
    Holds(0),
    Does(Event::Next(WORKER, SECOND), Told::Post),
    Holds(1),
    Does(Event::Set, Told::Linked),
    Does(Event::Post(WORKER, DONE, Operation::Read), Told::Done),
    Holds(0),
];

// A verdict that counts as NoCallback takes no context along.
const NOT_CARRIED: &[Line] = &[
    Does(Event::ResumePre(WORKER, SECOND, WITH_CONTEXT), Told::Done),
    Holds(2),
    Does(Event::Set, Told::Linked),
    Does(Event::Next(OTHER, SECOND), Told::Base),
    Does(Event::Base(OTHER, Operation::Read), Told::Done),
    Does(Event::Next(OTHER, SECOND), Told::AllDone),
    Holds(2),
];

// A completion counts as having no context that the hand has not.
const NOT_IN_HAND: &[Line] = &[
    Does(Event::Pre(WORKER, NONE, Operation::Read), Told::Done),
    Does(Event::Begin(Operation::Read), Told::Number(3)),
    Does(Event::Next(WORKER, FOURTH), Told::Pre),
    Does(Event::ResumePre(WORKER, SECOND, WITH_CONTEXT), Told::Done),
    Holds(0),
    Does(Event::Next(OTHER, SECOND), Told::Base),
    Does(Event::Base(OTHER, Operation::Read), Told::Done),
    Does(Event::Pre(WORKER, NONE, Operation::Read), Told::Done),
    Does(Event::Next(WORKER, SECOND), Told::Post),
    Holds(0),
    Does(Event::Set, Told::Refused(Status::NotHeld)),
];

// Of a read whose postoperation is one worker's: that worker is told where that postoperation comes next, be the worker idle or not.
const SYNCHRONIZED: &[Line] = &[
    Synchronized(UNKNOWN, None),
    Does(Event::Begin(Operation::Read), Told::Number(1)),
    Does(Event::Begin(Operation::Read), Told::Number(2)),
    Synchronized(SECOND, None),
    Does(Event::Next(OTHER, SECOND), Told::Pre),
    Synchronized(SECOND, None),
    Does(Event::Pre(OTHER, SYNC, Operation::Read), Told::Done),
    Synchronized(SECOND, None),
    Does(Event::Next(WORKER, SECOND), Told::Base),
    Synchronized(SECOND, None),
    Does(Event::Base(WORKER, Operation::Read), Told::Done),
    Synchronized(SECOND, Some(OTHER)),
    Does(Event::Next(WORKER, SECOND), IDLE),
    Synchronized(SECOND, Some(OTHER)),
    Does(Event::Next(OTHER, THIRD), Told::Pre),
    Synchronized(SECOND, Some(OTHER)),
    Does(Event::Next(OTHER, SECOND), IDLE),
    Does(Event::Pre(OTHER, NONE, Operation::Read), Told::Done),
    Does(Event::Next(OTHER, SECOND), Told::Post),
    Synchronized(SECOND, None),
    Does(Event::Post(OTHER, MORE, Operation::Read), Told::Done),
    Synchronized(SECOND, None),
    Does(Event::Begin(Operation::Read), Told::Number(3)),
    Does(Event::Next(WORKER, FOURTH), Told::Pre),
    Does(Event::ResumePost(WORKER, SECOND), Told::Done),
    Synchronized(SECOND, None),
    Does(Event::Collect(SECOND), Told::Answer(Status::Success, 0, 0)),
    Synchronized(SECOND, None),
];

// Of one that is held below an instance that synchronized: the next postoperation is anybody's, and the one above that is one worker's.
const SYNCHRONIZED_ABOVE: &[Line] = &[
    Does(Event::Begin(Operation::Read), Told::Number(1)),
    Does(Event::Begin(Operation::Read), Told::Number(2)),
    Does(Event::Next(OTHER, SECOND), Told::Pre),
    Does(Event::Pre(OTHER, SYNC, Operation::Read), Told::Done),
    Does(Event::Next(OTHER, SECOND), Told::Pre),
    Does(Event::Pre(OTHER, PEND, Operation::Read), Told::Done),
    Synchronized(SECOND, None),
    Does(Event::Next(WORKER, THIRD), Told::Pre),
    Does(Event::Pre(WORKER, NONE, Operation::Read), Told::Done),
    Does(Event::Next(WORKER, THIRD), Told::Pre),
    Does(Event::ResumePre(WORKER, SECOND, SYNC), BAD),
    Does(Event::ResumePre(WORKER, SECOND, WITH), Told::Done),
    Does(Event::Pre(WORKER, NONE, Operation::Read), Told::Done),
    Does(Event::Next(WORKER, SECOND), Told::Base),
    Does(Event::Base(WORKER, Operation::Read), Told::Done),
    Synchronized(SECOND, None),
    Does(Event::Next(WORKER, SECOND), Told::Post),
    Synchronized(SECOND, None),
    Does(Event::Post(WORKER, MORE, Operation::Read), Told::Done),
    Synchronized(SECOND, None),
    Does(Event::Begin(Operation::Read), Told::Number(3)),
    Does(Event::Next(WORKER, FOURTH), Told::Pre),
    Does(Event::Pre(WORKER, NONE, Operation::Read), Told::Done),
    Does(Event::Next(WORKER, FOURTH), Told::Pre),
    Does(Event::ResumePost(WORKER, SECOND), Told::Done),
    Synchronized(SECOND, Some(OTHER)),
    Does(Event::Next(OTHER, SECOND), Told::Post),
    Does(Event::Post(OTHER, DONE, Operation::Read), Told::Done),
    Synchronized(SECOND, None),
    Does(Event::Next(WORKER, SECOND), IDLE),
    Does(Event::Next(OTHER, SECOND), Told::AllDone),
];

/// The lists.
pub const LISTS: &[List] = &[
    (
        "first_held_on_its_way_down",
        &[REGISTERED, ATTACHED, BELOW, HELD_DOWN],
    ),
    (
        "first_held_on_its_way_up",
        &[REGISTERED, ATTACHED, CREATED, HELD_UP, LET_UP],
    ),
    (
        "context_carried",
        &[
            REGISTERED,
            ATTACHED,
            CREATED,
            HELD_WITH_TWO,
            REFUSED,
            CARRIED,
        ],
    ),
    (
        "context_not_carried",
        &[
            REGISTERED_PRE,
            ATTACHED,
            CREATED,
            HELD_WITH_TWO,
            NOT_CARRIED,
        ],
    ),
    (
        "context_not_in_hand",
        &[REGISTERED, ATTACHED, CREATED, HELD_WITH_TWO, NOT_IN_HAND],
    ),
    (
        "synchronized",
        &[REGISTERED, ATTACHED, CREATED, SYNCHRONIZED],
    ),
    (
        "synchronized_above",
        &[REGISTERED, ATTACHED, CREATED, BELOW, SYNCHRONIZED_ABOVE],
    ),
];
