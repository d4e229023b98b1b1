//! What each refusal of memory leaves of the state.

use crate::events::{CONTEXT, Event, WORKER};
use crate::lines::ask;
use crate::told::Told;
use fm_core::State;
use fm_ctx::Count;
use fm_stack::Phase;
use fm_types::{ContextKind, InstanceId, OpId, Operation, Status};
use std::alloc::Global;
use std::process::Abort;

// The events of a short life: each that takes memory is among them, and allocating often enough for the rows to grow.
const EVENTS: &[Event] = &[
    Event::Register,
    Event::Mount,
    Event::Attach,
    Event::Allocate(ContextKind::Instance),
    Event::ReadBody,
    Event::Allocate(ContextKind::Instance),
    Event::Allocate(ContextKind::Instance),
    Event::Allocate(ContextKind::Instance),
    Event::Allocate(ContextKind::Instance),
    Event::Allocate(ContextKind::Instance),
    Event::Allocate(ContextKind::Instance),
    Event::Allocate(ContextKind::Instance),
    Event::Allocate(ContextKind::Instance),
    Event::Allocate(ContextKind::Instance),
    Event::SetupDone(true),
    Event::Begin(Operation::List),
];

type Numbers = [u64; 6];

// How far the instance, the operation and the context are.
type Stages = (Option<Phase>, Option<bool>, Count);

// What can be read of a state: how many filters, instances, contexts in the hand, births, cleanups and leaks there are.
fn numbers(state: &State) -> Numbers {
    [
        state.filters() as u64,
        state.instances() as u64,
        state.hand_len(WORKER) as u64,
        state.born(),
        state.cleaned_count(),
        state.leaks(),
    ]
}

fn stages(state: &State) -> Stages {
    (
        state.phase(InstanceId(0)),
        state.is_done(OpId(0)),
        state.count(CONTEXT),
    )
}

fn opened(rt: &impl Abort, alloc: Global) -> State {
    match State::new(alloc) {
        Ok(state) => state,
        Err(_) => State::new(alloc).expect(rt, "a state"),
    }
}

const REFUSED: Told = Told::Refused(Status::NoMemory);

// Whether the event, if it is refused memory, changes nothing that can be seen, and succeeds when it is asked again.
fn is_harmless(alloc: Global, state: &mut State, event: Event) -> Result<bool, Status> {
    let before = (numbers(state), stages(state));
    if ask(alloc, state, event)? != REFUSED {
        return Ok(true);
    }
    let after = (numbers(state), stages(state));
    Ok(after == before && ask(alloc, state, event)? != REFUSED)
}

// Whether all of them are, and what can be read at the end.
fn life(alloc: Global, state: &mut State) -> Result<(bool, Numbers, Stages), Status> {
    for event in EVENTS {
        if !is_harmless(alloc, state, *event)? {
            return Ok((false, numbers(state), stages(state)));
        }
    }
    Ok((true, numbers(state), stages(state)))
}

fn short_life(rt: &impl Abort, alloc: Global) -> Result<(bool, Numbers, Stages), Status> {
    let mut state = opened(rt, alloc);
    life(alloc, &mut state)
}

// For `rt try --test --fail-alloc N`: whichever allocation is refused, once, the end is the same.
#[test]
fn each_refusal_of_memory(rt: HostRuntime) {
    let stages = (Some(Phase::Attached), Some(false), Count::Due);
    let end = (true, [1, 1, 0, 10, 0, 10], stages);
    assert!(rt; short_life(&rt, rt.alloc()) == Ok(end));
}
