//! The limits of bodies and numbers, slots that are used again, and memory that is refused.

use crate::events::{CONTEXT, Event, WORKER};
use crate::lines::Line::Does;
use crate::lines::{Line, OTHER, go_through};
use crate::told::Told;
use fm_core::State;
use fm_ctx::{Contexts, Count, Owner};
use fm_types::{Bytes, ContextKind, CtxId, InstanceId, Status, VolumeId};
use std::alloc::Global;
use std::process::Abort;

const OWNER: Owner = Owner::Instance(InstanceId(3));

// A context of that instance, with a body of so many zeros.
fn allocate(alloc: Global, contexts: &mut Contexts, len: usize) -> Result<CtxId, Status> {
    let mut body = Bytes::new(alloc);
    body.set_len(len)?;
    contexts.allocate(WORKER, ContextKind::Stream, OWNER, VolumeId(1), body)
}

// The length of the longest body, and what its last number is when 258 and then 2^64 - 1 are added to it.
fn longest(alloc: Global, contexts: &mut Contexts) -> Result<(usize, u64, u64), Status> {
    let id = allocate(alloc, contexts, 4096)?;
    let len = contexts.read_body(WORKER, id)?.len();
    let first = contexts.bump(WORKER, id, 4088, 258)?;
    let second = contexts.bump(WORKER, id, 4088, u64::MAX)?;
    Ok((len, first, second))
}

// What is said to a body that is too long, and of the longest.
fn lengths(
    alloc: Global,
    contexts: &mut Contexts,
) -> Result<(Option<Status>, (usize, u64, u64)), Status> {
    let refused = allocate(alloc, contexts, 4097).err();
    Ok((refused, longest(alloc, contexts)?))
}

// The same in a new table.
fn new_lengths(
    rt: &impl Abort,
    alloc: Global,
) -> Result<(Option<Status>, (usize, u64, u64)), Status> {
    let mut contexts = Contexts::new(alloc).expect(rt, "a table");
    lengths(alloc, &mut contexts)
}

#[test]
fn bodies_of_4096_bytes(rt: HostRuntime) {
    let told = Ok((Some(Status::TooMany), (4096, 258, 257)));
    assert!(rt; new_lengths(&rt, rt.alloc()) == told);
}

// Worker 0 is in the setup callback of an instance.
const SET_UP: &[Line] = &[
    Does(Event::Register, Told::Number(0)),
    Does(Event::Mount, Told::Number(0)),
    Does(Event::Attach, Told::Number(0)),
];

// A context of that instance, with no body.
fn bare(alloc: Global, state: &mut State) -> Result<CtxId, Status> {
    state.allocate(WORKER, ContextKind::Instance, Bytes::new(alloc))
}

// All contexts that there may be, none of which is held.
fn fill(alloc: Global, state: &mut State) -> Result<(), Status> {
    for _context in 0..65536 {
        let id = bare(alloc, state)?;
        state.release(WORKER, id)?;
    }
    Ok(())
}

// What is said to one context more, the context that comes once another worker cleaned one up, and what is said to a release of the first.
fn full(
    alloc: Global,
    state: &mut State,
) -> Result<(Option<Status>, CtxId, Option<Status>), Status> {
    fill(alloc, state)?;
    let more = bare(alloc, state).err();
    state.take_due(OTHER)?;
    state.cleaned(OTHER, 0)?;
    let next = bare(alloc, state)?;
    Ok((more, next, state.release(WORKER, CONTEXT).err()))
}

// The same behind the setup.
fn new_full(
    rt: &impl Abort,
    alloc: Global,
) -> Result<(Option<Status>, CtxId, Option<Status>), Status> {
    let mut state = State::new(alloc).expect(rt, "a state");
    go_through(rt, alloc, &mut state, &[SET_UP]);
    full(alloc, &mut state)
}

#[test]
fn slots_run_out(rt: HostRuntime) {
    let next = CtxId {
        slot: CONTEXT.slot,
        generation: 1,
    };
    let told = (Some(Status::TooMany), next, Some(Status::NotHeld));
    assert!(rt; new_full(&rt, rt.alloc()) == Ok(told));
}

// A context that comes and goes, with what is counted while it is due, and while it is cleaned up.
fn pass(alloc: Global, contexts: &mut Contexts) -> Result<(CtxId, Count, Count), Status> {
    let id = allocate(alloc, contexts, 0)?;
    contexts.release(WORKER, id)?;
    let due = contexts.count(id);
    let None = contexts.cleaning_of(WORKER) else {
        return Err(Status::WrongStep);
    };
    contexts.take_due(WORKER);
    let cleaning = contexts.count(id);
    let Some(cleaned) = contexts.cleaning_of(WORKER) else {
        return Err(Status::WrongStep);
    };
    contexts.cleaned(WORKER, cleaned);
    Ok((id, due, cleaning))
}

// The first of 70,000 that isn't at the first slot, with a generation of its own, or isn't counted so.
fn other_pass(alloc: Global, contexts: &mut Contexts) -> Result<Option<u32>, Status> {
    for generation in 0..70000 {
        let id = CtxId {
            slot: CONTEXT.slot,
            generation,
        };
        if pass(alloc, contexts)? != (id, Count::Due, Count::Cleaning) {
            return Ok(Some(generation));
        }
    }
    Ok(None)
}

// The same in a new table, what is counted at its end, and how many there were.
fn new_passes(rt: &impl Abort, alloc: Global) -> (Result<Option<u32>, Status>, Count, u64) {
    let mut contexts = Contexts::new(alloc).expect(rt, "a table");
    let other = other_pass(alloc, &mut contexts);
    (other, contexts.count(CONTEXT), contexts.born())
}

#[test]
fn slots_are_used_again(rt: HostRuntime) {
    let end = (Ok(None), Count::Cleaned, 70000);
    assert!(rt; new_passes(&rt, rt.alloc()) == end);
}

// What can be read of the table, where one worker holds each context of the owner once.
fn seen(contexts: &Contexts) -> [u64; 3] {
    [
        contexts.born(),
        contexts.open_of(OWNER),
        contexts.hand_len(WORKER) as u64,
    ]
}

// Whether one context more, if it is refused memory, changes nothing that can be seen, and succeeds when it is asked again.
fn is_allocated(alloc: Global, contexts: &mut Contexts, number: u64) -> bool {
    match allocate(alloc, contexts, 3) {
        Ok(_) => true,
        Err(status) => {
            (status, seen(contexts)) == (Status::NoMemory, [number; 3])
                && allocate(alloc, contexts, 3).is_ok()
        }
    }
}

// The same of reading a body.
fn is_read(contexts: &Contexts, id: CtxId) -> bool {
    match contexts.read_body(WORKER, id) {
        Ok(_) => true,
        Err(status) => {
            (status, seen(contexts)) == (Status::NoMemory, [10; 3])
                && contexts.read_body(WORKER, id).is_ok()
        }
    }
}

// How many of ten contexts came so.
fn allocated(alloc: Global, contexts: &mut Contexts) -> u64 {
    for number in 0..10 {
        if !is_allocated(alloc, contexts, number) {
            return number;
        }
    }
    10
}

fn opened(rt: &impl Abort, alloc: Global) -> Contexts {
    match Contexts::new(alloc) {
        Ok(contexts) => contexts,
        Err(_) => Contexts::new(alloc).expect(rt, "a table"),
    }
}

// How many came, whether the last one's body is read, its count, and what can be read at the end.
fn ten(rt: &impl Abort, alloc: Global) -> (u64, bool, Count, [u64; 3]) {
    let mut contexts = opened(rt, alloc);
    let id = CtxId {
        slot: 9,
        generation: 0,
    };
    let count = allocated(alloc, &mut contexts);
    let is_read = is_read(&contexts, id);
    (count, is_read, contexts.count(id), seen(&contexts))
}

// For `rt try --test --fail-alloc N`: whichever allocation is refused, once, the call answers 1 and nothing can be seen to have changed; asked again it
// succeeds, and the end is the same.
#[test]
fn each_refusal_of_memory(rt: HostRuntime) {
    let end = (10, true, Count::Live(1), [10; 3]);
    assert!(rt; ten(&rt, rt.alloc()) == end);
}
