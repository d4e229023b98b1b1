//! What a reply tells, as a value that can be compared.

use fm_ctx::Due;
use fm_callback_data::Answer;
use fm_operations::FlowAction;
use fm_types::{CtxId, HandleId, OpId, Status};
use fm_world::{SetAnswer, StepReply};

/// What a reply tells, without the data that it lends.
#[derive(Clone, Copy, PartialEq)]
pub enum Told {
    /// It went well, and there is nothing to tell.
    Done,
    Refused(Status),
    /// A filter, a volume, an instance, an operation, or a number in a body.
    Number(u64),
    Context(CtxId),
    /// So many bytes of a body.
    Body(usize),
    Linked,
    /// Another context is set there, or one was replaced or taken off.
    Other,
    Due(Option<CtxId>),
    Pre,
    Base,
    Post,
    Drain,
    /// The operation whose completion is drained before its turn.
    Early(Option<OpId>),
    /// The handle that a dismount closed.
    Dropped(Option<HandleId>),
    Moved,
    Held,
    AllDone,
    /// The first operation that an instance holds.
    First(Option<OpId>),
    /// A status, the information, and how many bytes.
    Answer(Status, u64, usize),
}

fn told_action(action: &FlowAction) -> Told {
    match action {
        FlowAction::Pre(_, _) => Told::Pre,
        FlowAction::Base(_) => Told::Base,
        FlowAction::Post(_, _, _) => Told::Post,
        FlowAction::Drain(_, _) => Told::Drain,
        FlowAction::Moved => Told::Moved,
        FlowAction::Held => Told::Held,
        FlowAction::Done => Told::AllDone,
    }
}

fn told_set(answer: SetAnswer) -> Told {
    match answer {
        SetAnswer::Linked(None) => Told::Linked,
        SetAnswer::Refused(status) => Told::Refused(status),
        SetAnswer::Linked(Some(_)) | SetAnswer::AlreadyDefined(_) => Told::Other,
    }
}

fn told_answer(answer: &Answer) -> Told {
    Told::Answer(answer.status, answer.information, answer.bytes.len())
}

fn told_due(due: &Option<Due>) -> Told {
    match due {
        Some(due) => Told::Due(Some(due.id)),
        None => Told::Due(None),
    }
}

/// What a reply tells.
pub fn told_by(reply: &StepReply) -> Told {
    match reply {
        StepReply::Filter(Ok(id)) => Told::Number(u64::from(id.0)),
        StepReply::Volume(Ok(id)) => Told::Number(u64::from(id.0)),
        StepReply::Instance(Ok(id)) => Told::Number(u64::from(id.0)),
        StepReply::Operation(Ok(id)) => Told::Number(id.0),
        StepReply::Number(Ok(number)) => Told::Number(*number),
        StepReply::Action(Ok(action)) => told_action(action),
        StepReply::Done(Ok(())) => Told::Done,
        StepReply::Held(Ok(first)) => Told::First(*first),
        StepReply::Drained(Ok(drain)) => Told::Early(drain.map(|(operation, _)| operation)),
        StepReply::Dropped(Ok(handle)) => Told::Dropped(*handle),
        StepReply::Answer(Ok(answer)) => told_answer(answer),
        StepReply::Context(Ok(id)) => Told::Context(*id),
        StepReply::Set(answer) => told_set(*answer),
        StepReply::Old(Ok(_)) => Told::Other,
        StepReply::Body(Ok(body)) => Told::Body(body.len()),
        StepReply::Due(Ok(due)) => told_due(due),
        StepReply::Filter(Err(status))
        | StepReply::Volume(Err(status))
        | StepReply::Instance(Err(status))
        | StepReply::Operation(Err(status))
        | StepReply::Number(Err(status))
        | StepReply::Action(Err(status))
        | StepReply::Done(Err(status))
        | StepReply::Held(Err(status))
        | StepReply::Drained(Err(status))
        | StepReply::Dropped(Err(status))
        | StepReply::Answer(Err(status))
        | StepReply::Context(Err(status))
        | StepReply::Old(Err(status))
        | StepReply::Body(Err(status))
        | StepReply::Due(Err(status)) => Told::Refused(*status),
    }
}
