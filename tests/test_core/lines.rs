//! What a state is asked, line by line, with what it says: so a list of lines is data, and one function goes through any of them.

use crate::events::{CONTEXT, Event, WORKER, step_of};
use crate::told::{Told, told_by};
use fm_core::State;
use fm_ctx::Count;
use fm_callback_data::{Completion, PreVerdict};
use fm_stack::{FilterPhase, Phase};
use fm_types::{FilterId, InstanceId, OpId, Operation, Status, WorkerId};
use fm_world::Step;
use std::alloc::Global;
use std::process::Abort;

/// What is asked of the state, with what it says.
#[derive(Clone, Copy)]
pub enum Line {
    /// An event, and what it is told.
    Does(Event, Told),
    /// How far the instance is.
    Is(InstanceId, Option<Phase>),
    /// How far the filter is.
    FilterIs(FilterId, Option<FilterPhase>),
    /// How many operations are in flight at the instance.
    Flies(InstanceId, u64),
    /// How many references worker 0 holds.
    Holds(usize),
    /// The worker that alone may make the operation's next postoperation.
    Synchronized(OpId, Option<WorkerId>),
    /// How many handles are open.
    Opens(usize),
    /// How many references callbacks left behind, and what was counted in the first filter's cleanups.
    Leaves(u64, u64),
    /// How often the first context is referred to.
    Counts(Count),
}

use Line::{Counts, Does, FilterIs, Flies, Holds, Is, Leaves, Opens, Synchronized};

/// A list in parts, with its name.
pub type List = (&'static str, &'static [&'static [Line]]);

/// The worker of what meets the first one's.
pub const OTHER: WorkerId = WorkerId(1);

/// One that there isn't.
pub const NOBODY: WorkerId = WorkerId(48);

pub const FILTER: FilterId = FilterId(0);

pub const FIRST: OpId = OpId(0);

pub const SECOND: OpId = OpId(1);

pub const THIRD: OpId = OpId(2);

pub const NONE: PreVerdict = PreVerdict::NoCallback;

/// Asks for the postoperation.
pub const WITH: PreVerdict = PreVerdict::WithCallback(Completion {
    number: 0,
    context: None,
});

/// Asks for it, and sends the context along.
pub const WITH_CONTEXT: PreVerdict = PreVerdict::WithCallback(Completion {
    number: 0,
    context: Some(CONTEXT),
});

pub const IDLE: Told = Told::Refused(Status::WrongStep);

pub const BAD: Told = Told::Refused(Status::BadRequest);

/// A filter.
pub const REGISTERED: &[Line] = &[Does(Event::Register, Told::Number(0))];

/// A volume.
pub const MOUNTED: &[Line] = &[Does(Event::Mount, Told::Number(0))];

/// A volume, and an instance of the filter there.
pub const ATTACHED: &[Line] = &[
    Does(Event::Mount, Told::Number(0)),
    Does(Event::Attach, Told::Number(0)),
    Does(Event::SetupDone(true), Told::Done),
];

/// Another one below it.
pub const BELOW: &[Line] = &[
    Does(Event::AttachBelow, Told::Number(1)),
    Does(Event::SetupDone(true), Told::Done),
];

/// A create through one instance, which asks for no postoperation.
pub const CREATED: &[Line] = &[
    Does(Event::Begin(Operation::Create), Told::Number(0)),
    Does(Event::Next(WORKER, FIRST), Told::Pre),
    Does(Event::Pre(WORKER, NONE, Operation::Create), Told::Done),
    Does(Event::Next(WORKER, FIRST), Told::Base),
    Does(Event::Base(WORKER, Operation::Create), Told::Done),
    Does(Event::Next(WORKER, FIRST), Told::AllDone),
];

fn told_of(state: &mut State, step: Step) -> Told {
    told_by(&state.step(step))
}

/// What an event is told.
pub fn ask(alloc: Global, state: &mut State, event: Event) -> Result<Told, Status> {
    let step = step_of(alloc, event)?;
    Ok(told_of(state, step))
}

// Whether the state says what the line has.
fn is_said(alloc: Global, state: &mut State, line: Line) -> Result<bool, Status> {
    Ok(match line {
        Does(event, told) => ask(alloc, state, event)? == told,
        Is(instance, phase) => state.phase(instance) == phase,
        FilterIs(filter, phase) => state.filter_phase(filter) == phase,
        Flies(instance, count) => state.in_flight(instance) == count,
        Holds(count) => state.hand_len(WORKER) == count,
        Synchronized(operation, worker) => state.sync_worker(operation) == worker,
        Opens(count) => state.handles() == count,
        Leaves(leaks, total) => (state.leaks(), state.total(FILTER)) == (leaks, total),
        Counts(count) => state.count(CONTEXT) == count,
    })
}

/// Goes through the lines, up to the first at which the state says something else: that line's number.
pub fn other_line(
    alloc: Global,
    state: &mut State,
    lines: &[Line],
) -> Result<Option<usize>, Status> {
    for (number, line) in lines.iter().enumerate() {
        if !is_said(alloc, state, *line)? {
            return Ok(Some(number));
        }
    }
    Ok(None)
}

/// Goes through all parts of a list, in which the state says nothing else.
pub fn go_through(rt: &impl Abort, alloc: Global, state: &mut State, parts: &[&[Line]]) {
    for lines in parts {
        assert!(rt; other_line(alloc, state, lines) == Ok(None));
    }
}
