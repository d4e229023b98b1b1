//! What callbacks and the base see of parameters that were changed before a hold, and while it lasts.

use crate::events::{Event, WORKER};
use crate::lines::Line::Does;
use crate::lines::{
    ATTACHED, BELOW, CREATED, Line, NONE, OTHER, REGISTERED, SECOND, THIRD, WITH, go_through,
};
use crate::told::Told;
use fm_core::{Action, State};
use fm_callback_data::{Answer, BaseCall, CallbackData, Params, PostVerdict, PreVerdict};
use fm_types::{Bytes, Operation, Status};
use std::alloc::Global;
use std::process::Abort;

// A read of the open file comes to the upper instance of two.
const COME: &[Line] = &[
    Does(Event::Begin(Operation::Read), Told::Number(1)),
    Does(Event::Next(OTHER, SECOND), Told::Pre),
    Does(Event::Pre(OTHER, WITH, Operation::Read), Told::Done),
];

// Another read comes to the lower instance.
const INSIDE: &[Line] = &[
    Does(Event::Next(OTHER, SECOND), Told::Held),
    Does(Event::Begin(Operation::Read), Told::Number(2)),
    Does(Event::Next(WORKER, THIRD), Told::Pre),
    Does(Event::Pre(WORKER, NONE, Operation::Read), Told::Done),
    Does(Event::Next(WORKER, THIRD), Told::Pre),
];

// There it lets the first one go on.
const RESUMED_DOWN: &[Line] = &[Does(Event::ResumePre(WORKER, SECOND, WITH), Told::Done)];

// The same on its way up, in the same callback.
const RESUMED_UP: &[Line] = &[
    Does(Event::Next(OTHER, SECOND), Told::Held),
    Does(Event::ResumePost(WORKER, SECOND), Told::Done),
];

// How much a read asks for.
fn len_of(params: &Params) -> u32 {
    match params {
        Params::Read { len, .. } => *len,
        _ => 0,
    }
}

fn shorten(rt: &impl Abort, data: &mut CallbackData, len: u32) {
    data.change(Params::Read { offset: 0, len })
        .expect(rt, "a change");
}

// How much less the lower instance asks for as its preoperation returns, and while it holds the read; none where it changes nothing then.
#[derive(Clone, Copy)]
struct Asks {
    returning: Option<u32>,
    holding: Option<u32>,
}

// It holds the read.
fn hold(rt: &impl Abort, state: &mut State, mut data: CallbackData, asks: Asks) {
    if let Some(len) = asks.returning {
        shorten(rt, &mut data, len);
    }
    let taken = state.pre_returned(OTHER, PreVerdict::Pending, data);
    assert!(rt; taken.is_ok());
}

// It changes what it holds, and changes it again.
fn change_held(rt: &impl Abort, state: &mut State, asks: Asks) {
    if let Some(len) = asks.holding {
        for len in [len + 1, len] {
            let changed = state.change_held(WORKER, SECOND, Params::Read { offset: 0, len });
            assert!(rt; changed.is_ok());
        }
    }
}

fn answer_base(rt: &impl Abort, alloc: Global, state: &mut State, call: BaseCall) {
    let answer = Answer {
        status: Status::Success,
        information: 0,
        bytes: Bytes::new(alloc),
    };
    let taken = state.base_returned(OTHER, call, answer);
    assert!(rt; taken.is_ok());
}

// A postoperation changes the parameters too, for nobody.
fn post(rt: &impl Abort, state: &mut State, verdict: PostVerdict, mut data: CallbackData) {
    shorten(rt, &mut data, 1);
    let taken = state.post_returned(OTHER, verdict, Some(data));
    assert!(rt; taken.is_ok());
}

// How much the read asks for where it comes next: a callback, of which a postoperation returns with that verdict, or the base.
fn turn(
    rt: &impl Abort,
    alloc: Global,
    state: &mut State,
    verdict: PostVerdict,
    asks: Asks,
) -> u32 {
    match state.next(OTHER, SECOND).expect(rt, "an action") {
        Action::Pre(_, data) => {
            let len = len_of(data.params());
            hold(rt, state, data, asks);
            len
        }
        Action::Base(call) => {
            let len = len_of(call.params());
            answer_base(rt, alloc, state, call);
            len
        }
        Action::Post(_, data, _) => {
            let len = len_of(data.params());
            post(rt, state, verdict, data);
            len
        }
        _ => panic!(rt; "the read is called for nothing else"),
    }
}

// What the lower preoperation, the base, and both postoperations see.
fn seen(rt: &impl Abort, alloc: Global, state: &mut State, asks: Asks) -> [u32; 4] {
    go_through(
        rt,
        alloc,
        state,
        &[REGISTERED, ATTACHED, CREATED, BELOW, COME],
    );
    let received = turn(rt, alloc, state, PostVerdict::Finished, asks);
    go_through(rt, alloc, state, &[INSIDE]);
    change_held(rt, state, asks);
    go_through(rt, alloc, state, &[RESUMED_DOWN]);
    let below = turn(rt, alloc, state, PostVerdict::Finished, asks);
    let own = turn(rt, alloc, state, PostVerdict::MoreProcessing, asks);
    go_through(rt, alloc, state, &[RESUMED_UP]);
    let above = turn(rt, alloc, state, PostVerdict::Finished, asks);
    [received, below, own, above]
}

fn seen_from_the_start(rt: &impl Abort, alloc: Global, asks: Asks) -> [u32; 4] {
    let mut state = State::new(alloc).expect(rt, "a state");
    seen(rt, alloc, &mut state, asks)
}

#[test]
fn changed_before_a_hold(rt: HostRuntime) {
    let asks = Asks {
        returning: Some(5),
        holding: None,
    };
    assert_eq!(rt; seen_from_the_start(&rt, rt.alloc(), asks), [9, 5, 9, 9]);
}

#[test]
fn changed_while_held(rt: HostRuntime) {
    let asks = Asks {
        returning: None,
        holding: Some(4),
    };
    assert_eq!(rt; seen_from_the_start(&rt, rt.alloc(), asks), [9, 4, 9, 9]);
}

#[test]
fn changed_before_and_while_held(rt: HostRuntime) {
    let asks = Asks {
        returning: Some(5),
        holding: Some(4),
    };
    assert_eq!(rt; seen_from_the_start(&rt, rt.alloc(), asks), [9, 4, 9, 9]);
}
