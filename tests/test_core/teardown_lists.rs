//! Lists of events by which instances are detached and filters unloaded, with what can be read between them: an unload that asks nobody above all.

use crate::events::{CONTEXT, Event, WORKER};
use crate::lines::Line::{Does, FilterIs, Flies, Holds, Is};
use crate::lines::{
    ATTACHED, BAD, FILTER, FIRST, IDLE, Line, List, NOBODY, OTHER, REGISTERED, WITH_CONTEXT,
};
use crate::told::Told;
use fm_callback_data::PostVerdict;
use fm_stack::{FilterPhase, Phase};
use fm_types::{ContextKind, FilterId, InstanceId, Operation, Status, WorkerId};

const LAST: WorkerId = WorkerId(47);

const NEXT_FILTER: FilterId = FilterId(1);

/// One that there isn't.
const NO_FILTER: FilterId = FilterId(9);

const UPPER: InstanceId = InstanceId(0);

const LOWER: InstanceId = InstanceId(1);

/// One that there isn't.
const NO_INSTANCE: InstanceId = InstanceId(9);

const NOT_LOADED: Told = Told::Refused(Status::NotLoaded);

const NOT_FOUND: Told = Told::Refused(Status::NoFilter);

const NOT_DETACHED: Told = Told::Refused(Status::DoNotDetach);

const GOING: Told = Told::Refused(Status::DeletingObject);

const GONE: Told = Told::Refused(Status::NoInstance);

const ONE_LEFT: Told = Told::Refused(Status::Busy(1));

// A filter that is asked.
const REGISTERED_ASKED: &[Line] = &[Does(Event::RegisterAsked, Told::Number(0))];

// The filter is unloaded by force while its unload callback runs, and another instance of it is in its setup.
const FORCED: &[Line] = &[
    Does(Event::AttachBelow, Told::Number(1)),
    Does(Event::AskUnload(OTHER, FILTER), Told::Done),
    Does(Event::AskUnload(LAST, FILTER), GOING),
    Does(Event::EmptyFilter(FILTER), IDLE),
    Does(Event::ForceUnload(FILTER), Told::Done),
    FilterIs(FILTER, Some(FilterPhase::Unloading)),
    Is(UPPER, Some(Phase::Stopping)),
    Is(LOWER, Some(Phase::Setup)),
    Does(Event::ForceUnload(FILTER), NOT_LOADED),
    Does(Event::AskUnload(LAST, FILTER), NOT_LOADED),
    Does(Event::EmptyFilter(FILTER), IDLE),
    Does(Event::UnloadReturned(OTHER, true), NOT_LOADED),
    Does(Event::UnloadReturned(OTHER, true), IDLE),
    Does(Event::EmptyFilter(FILTER), Told::Refused(Status::Busy(2))),
    Does(Event::SetupDone(true), GOING),
    Does(Event::SetupDone(true), IDLE),
    Is(LOWER, Some(Phase::Emptying)),
    Does(Event::Finish(LOWER), Told::Done),
    Does(Event::EmptyFilter(FILTER), ONE_LEFT),
];

// A refusal of the callback comes before what happened meanwhile.
const FORCED_AND_REFUSED: &[Line] = &[
    Does(Event::AskUnload(OTHER, FILTER), Told::Done),
    Does(Event::ForceUnload(FILTER), Told::Done),
    Does(Event::UnloadReturned(OTHER, false), NOT_DETACHED),
    Does(Event::UnloadReturned(OTHER, false), IDLE),
    FilterIs(FILTER, Some(FilterPhase::Unloading)),
];

// An instance is asked as its filter is unloaded by force: its teardown starts, and is completed once the query returned.
const FORCED_UNDER_A_QUERY: &[Line] = &[
    Does(Event::AskDetach(OTHER, UPPER), Told::Done),
    Does(Event::ForceUnload(FILTER), Told::Done),
    Is(UPPER, Some(Phase::Stopping)),
    Does(Event::AskDetach(LAST, UPPER), GOING),
    Does(Event::StartTeardown(LAST, UPPER), Told::Done),
    Does(Event::StartReturned(LAST), Told::Done),
    Does(Event::CompleteTeardown(LAST, UPPER), IDLE),
    Does(Event::QueryReturned(OTHER, true), GOING),
    Does(Event::QueryReturned(OTHER, true), IDLE),
    Is(UPPER, Some(Phase::Stopping)),
    Does(Event::CompleteTeardown(LAST, UPPER), Told::Done),
    Does(Event::CompleteReturned(LAST), Told::Done),
    Does(Event::Finish(UPPER), Told::Done),
];

// The same with a query that is refused.
const REFUSED_UNDER_FORCE: &[Line] = &[
    Does(Event::AskDetach(OTHER, UPPER), Told::Done),
    Does(Event::ForceUnload(FILTER), Told::Done),
    Does(Event::QueryReturned(OTHER, false), NOT_DETACHED),
    Does(Event::QueryReturned(OTHER, false), IDLE),
    Is(UPPER, Some(Phase::Stopping)),
];

// What is left of the instance, and of the filter.
const TORN_DOWN: &[Line] = &[
    Does(Event::StartTeardown(LAST, UPPER), Told::Done),
    Does(Event::StartReturned(LAST), Told::Done),
    Does(Event::CompleteTeardown(LAST, UPPER), Told::Done),
    Is(UPPER, Some(Phase::Completing)),
    Does(Event::CompleteReturned(LAST), Told::Done),
    Is(UPPER, Some(Phase::Emptying)),
    Does(Event::EmptyFilter(FILTER), ONE_LEFT),
    Does(Event::Finish(UPPER), Told::Done),
    Is(UPPER, Some(Phase::Detached)),
];

const ENDED: &[Line] = &[
    Does(Event::FinishFilter(FILTER), IDLE),
    Does(Event::EmptyFilter(FILTER), Told::Done),
    FilterIs(FILTER, Some(FilterPhase::Emptied)),
    Does(Event::ForceUnload(FILTER), NOT_LOADED),
    Does(Event::EmptyFilter(FILTER), Told::Done),
    Does(Event::RegisterAsked, Told::Refused(Status::AlreadyLoaded)),
    Does(Event::FinishFilter(FILTER), Told::Done),
    FilterIs(FILTER, Some(FilterPhase::NotLoaded)),
    Does(Event::ForceUnload(FILTER), NOT_LOADED),
    Does(Event::EmptyFilter(FILTER), IDLE),
    Does(Event::FinishFilter(FILTER), IDLE),
    Does(Event::RegisterAsked, Told::Number(1)),
    FilterIs(FILTER, Some(FilterPhase::NotLoaded)),
    FilterIs(NEXT_FILTER, Some(FilterPhase::Loaded)),
];

// A filter that registered no routines can't be asked, and nor can its instances; by force it goes.
const BARE: &[Line] = &[
    Does(Event::AskDetach(WORKER, UPPER), NOT_DETACHED),
    Does(Event::AskUnload(WORKER, FILTER), NOT_DETACHED),
    Is(UPPER, Some(Phase::Attached)),
    Does(Event::ForceUnload(FILTER), Told::Done),
    Does(Event::AskDetach(WORKER, UPPER), GOING),
    Does(Event::AskUnload(WORKER, FILTER), NOT_LOADED),
];

// What isn't there, and workers that aren't in the callback that returns.
const NOT_THERE: &[Line] = &[
    Does(Event::ForceUnload(NO_FILTER), NOT_FOUND),
    Does(Event::EmptyFilter(NO_FILTER), NOT_FOUND),
    Does(Event::FinishFilter(NO_FILTER), NOT_FOUND),
    Does(Event::AskUnload(WORKER, NO_FILTER), NOT_FOUND),
    Does(Event::AskUnload(NOBODY, NO_FILTER), IDLE),
    FilterIs(NO_FILTER, None),
    Does(Event::AskDetach(WORKER, NO_INSTANCE), GONE),
    Does(Event::AskDetach(NOBODY, NO_INSTANCE), IDLE),
    Does(Event::StartTeardown(WORKER, NO_INSTANCE), GONE),
    Does(Event::StartTeardown(NOBODY, NO_INSTANCE), IDLE),
    Does(Event::CompleteTeardown(WORKER, NO_INSTANCE), GONE),
    Does(Event::CompleteTeardown(NOBODY, NO_INSTANCE), IDLE),
    Does(Event::Finish(NO_INSTANCE), GONE),
    Is(NO_INSTANCE, None),
    Flies(NO_INSTANCE, 0),
    Does(Event::QueryReturned(NOBODY, true), IDLE),
    Does(Event::StartReturned(NOBODY), IDLE),
    Does(Event::CompleteReturned(NOBODY), IDLE),
    Does(Event::UnloadReturned(NOBODY, true), IDLE),
    Does(Event::AskDetach(WORKER, UPPER), Told::Done),
    Does(Event::StartReturned(WORKER), IDLE),
    Does(Event::CompleteReturned(WORKER), IDLE),
    Does(Event::UnloadReturned(WORKER, true), IDLE),
    Does(Event::SetupDone(true), IDLE),
    Does(Event::QueryReturned(OTHER, true), IDLE),
    Does(Event::QueryReturned(WORKER, false), NOT_DETACHED),
    Is(UPPER, Some(Phase::Attached)),
];

// What a worker holds as callbacks of a teardown return, and as a drain brings a context back; and what is in flight meanwhile.
const HANDS: &[Line] = &[
    Flies(UPPER, 0),
    Does(Event::Begin(Operation::List), Told::Number(0)),
    Flies(UPPER, 0),
    Does(Event::Next(WORKER, FIRST), Told::Pre),
    Flies(UPPER, 1),
    Does(
        Event::Allocate(ContextKind::Instance),
        Told::Context(CONTEXT),
    ),
    Does(Event::Set, Told::Linked),
    Does(
        Event::Pre(WORKER, WITH_CONTEXT, Operation::List),
        Told::Done,
    ),
    Flies(UPPER, 1),
    Holds(0),
    Does(Event::AskDetach(WORKER, UPPER), Told::Done),
    Does(Event::Get(ContextKind::Instance), Told::Context(CONTEXT)),
    Does(Event::Get(ContextKind::Instance), Told::Context(CONTEXT)),
    Holds(2),
    Does(Event::QueryReturned(WORKER, true), Told::Done),
    Holds(0),
    Does(Event::StartTeardown(WORKER, UPPER), Told::Done),
    Does(Event::Get(ContextKind::Instance), Told::Context(CONTEXT)),
    Holds(1),
    Does(Event::StartReturned(WORKER), Told::Done),
    Holds(0),
    Does(Event::CompleteTeardown(WORKER, UPPER), ONE_LEFT),
    Holds(0),
    Does(Event::Next(WORKER, FIRST), Told::Base),
    Does(Event::Base(WORKER, Operation::List), Told::Done),
    Does(Event::Next(WORKER, FIRST), Told::Drain),
    Holds(1),
    Flies(UPPER, 1),
    Does(
        Event::Post(WORKER, PostVerdict::Finished, Operation::List),
        BAD,
    ),
    Holds(1),
    Does(Event::Drained(WORKER), Told::Done),
    Holds(0),
    Flies(UPPER, 0),
    Does(Event::CompleteTeardown(WORKER, UPPER), Told::Done),
    Does(Event::Get(ContextKind::Instance), Told::Context(CONTEXT)),
    Holds(1),
    Does(Event::CompleteReturned(WORKER), Told::Done),
    Holds(0),
    Does(Event::Finish(UPPER), ONE_LEFT),
    Does(Event::TakeDue, Told::Due(Some(CONTEXT))),
    Does(Event::Cleaned(0), Told::Done),
    Does(Event::Finish(UPPER), Told::Done),
    Flies(UPPER, 0),
];

/// The lists.
pub const LISTS: &[List] = &[
    (
        "forced",
        &[REGISTERED_ASKED, ATTACHED, FORCED, TORN_DOWN, ENDED],
    ),
    (
        "forced_and_refused",
        &[
            REGISTERED_ASKED,
            ATTACHED,
            FORCED_AND_REFUSED,
            TORN_DOWN,
            ENDED,
        ],
    ),
    (
        "forced_under_a_query",
        &[REGISTERED_ASKED, ATTACHED, FORCED_UNDER_A_QUERY, ENDED],
    ),
    (
        "refused_under_force",
        &[
            REGISTERED_ASKED,
            ATTACHED,
            REFUSED_UNDER_FORCE,
            TORN_DOWN,
            ENDED,
        ],
    ),
    ("bare", &[REGISTERED, ATTACHED, BARE, TORN_DOWN, ENDED]),
    ("not_there", &[REGISTERED_ASKED, ATTACHED, NOT_THERE]),
    ("hands", &[REGISTERED_ASKED, ATTACHED, HANDS]),
];
