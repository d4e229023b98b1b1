//! Goes through each list twice: step by step, and by one run of all its events.

use crate::events::step_of;
use crate::lines::Line::Does;
use crate::lines::{FILTER, Line, List, other_line};
use crate::told::told_by;
use crate::{create_lists, events, hold_lists, teardown_lists};
use fm_core::{State, run};
use fm_ctx::Count;
use fm_types::Status;
use fm_world::{Step, StepReply};
use std::alloc::Global;
use std::process::Abort;

// What can be read of a state: the open handles, the leaks, the filter's total, and the context's count.
type End = (usize, u64, u64, Count);

fn end_of(state: &State) -> End {
    (
        state.handles(),
        state.leaks(),
        state.total(FILTER),
        state.count(events::CONTEXT),
    )
}

// The numbers of the first part and line at which the state says something else.
fn other_part(
    alloc: Global,
    state: &mut State,
    parts: &[&[Line]],
) -> Result<Option<(usize, usize)>, Status> {
    for (number, part) in parts.iter().enumerate() {
        if let Some(line) = other_line(alloc, state, part)? {
            return Ok(Some((number, line)));
        }
    }
    Ok(None)
}

// The same from the first state on, and the end.
fn by_steps(
    rt: &impl Abort,
    alloc: Global,
    parts: &[&[Line]],
) -> (Result<Option<(usize, usize)>, Status>, End) {
    let mut state = State::new(alloc).expect(rt, "a state");
    let other = other_part(alloc, &mut state, parts);
    (other, end_of(&state))
}

fn add_steps(alloc: Global, steps: &mut Vec<Step>, lines: &[Line]) -> Result<(), Status> {
    for line in lines {
        if let Does(event, _) = line {
            steps.push(step_of(alloc, *event)?)?;
        }
    }
    Ok(())
}

// The events of a list.
fn steps_of(rt: &impl Abort, alloc: Global, parts: &[&[Line]]) -> Vec<Step> {
    let mut steps = Vec::new(alloc);
    for lines in parts {
        add_steps(alloc, &mut steps, lines).expect(rt, "memory");
    }
    steps
}

// How many of the replies are what the lines have, one for each event; none where one isn't.
fn count_told(lines: &[Line], replies: &[StepReply]) -> Option<usize> {
    let mut count = 0usize;
    for line in lines {
        if let Does(_, told) = line {
            if told_by(replies.get(count)?) != *told {
                return None;
            }
            count = count.saturating_add(1);
        }
    }
    Some(count)
}

// Whether the replies are what the parts have, one part behind the other.
fn are_told(parts: &[&[Line]], replies: &[StepReply]) -> bool {
    let mut rest = replies;
    for lines in parts {
        let count = count_told(lines, rest).unwrap_or(usize::MAX);
        let Some(behind) = rest.get(count..) else {
            return false;
        };
        rest = behind;
    }
    rest.is_empty()
}

// Whether one run of the events is told all that, and comes to that end.
fn is_run(rt: &impl Abort, alloc: Global, parts: &[&[Line]], end: End) -> bool {
    let (state, replies) = run(alloc, steps_of(rt, alloc, parts)).expect(rt, "memory");
    are_told(parts, &replies) && end_of(&state) == end
}

// The name of the first list of which something else is said.
fn other_list(rt: &impl Abort, alloc: Global, lists: &[List]) -> Option<&'static str> {
    for (name, parts) in lists {
        let (other, end) = by_steps(rt, alloc, parts);
        if other != Ok(None) || !is_run(rt, alloc, parts, end) {
            return Some(*name);
        }
    }
    None
}

#[test]
fn lists(rt: HostRuntime) {
    let creates = other_list(&rt, rt.alloc(), create_lists::LISTS);
    let holds = other_list(&rt, rt.alloc(), hold_lists::LISTS);
    let teardowns = other_list(&rt, rt.alloc(), teardown_lists::LISTS);
    assert_eq!(rt; [creates, holds, teardowns], [None; 3]);
}
