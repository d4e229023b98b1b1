//! Events as values without texts and bytes, so that a list of them is data, and the steps that they stand for: all of one filter with an instance or two on
//! one volume, and of one file there with its first handle.

ghost use Rattle.std.specs.Prelude.{◌≡◌, IfOk};
ghost use Rattle.fm_callback_data.specs.Data.{fresh_data};

use fm_altitude::Altitude;
use fm_ctx::SetMode;
use fm_callback_data::{
    Answer, BaseCall, CallbackData, FileRequest, Params, PostVerdict, PreVerdict, Request,
};
use fm_operations::Hold;
use fm_types::{
    Bytes, ContextKind, ContextMask, CreateMode, CtxId, FilterId, HandleId, InstanceId, Name, OpId,
    OpMask, Operation, Registration, RelPath, SharedPath, Status, VolumeId, WorkerId,
};
use fm_world::Step;
use std::alloc::Global;

/// The worker of each event that names none.
pub const WORKER: WorkerId = WorkerId(0);

/// The first context that is allocated.
pub const CONTEXT: CtxId = CtxId {
    slot: 0,
    generation: 0,
};

const VOLUME: VolumeId = VolumeId(0);

/// An event.
#[derive(Clone, Copy)]
pub enum Event {
    Register,
    /// A filter that has no postoperation callbacks.
    RegisterPre,
    /// A filter that is asked before an instance of it is detached, and before it is unloaded.
    RegisterAsked,
    Mount,
    Attach,
    /// Another instance, below the first.
    AttachBelow,
    SetupDone(bool),
    Begin(Operation),
    Next(WorkerId, OpId),
    /// The callback returns with data of an operation of that kind.
    Pre(WorkerId, PreVerdict, Operation),
    /// The base answers a call of that kind with a success that tells 7, and a byte.
    Base(WorkerId, Operation),
    /// The callback returns with data of an operation of that kind.
    Post(WorkerId, PostVerdict, Operation),
    /// A drain returns.
    Drained(WorkerId),
    ResumePre(WorkerId, OpId, PreVerdict),
    ResumePost(WorkerId, OpId),
    FirstHeld(WorkerId, Hold),
    Collect(OpId),
    Allocate(ContextKind),
    Set,
    Get(ContextKind),
    ReadBody,
    TakeDue,
    Cleaned(u64),
    AskDetach(WorkerId, InstanceId),
    QueryReturned(WorkerId, bool),
    StartTeardown(WorkerId, InstanceId),
    StartReturned(WorkerId),
    CompleteTeardown(WorkerId, InstanceId),
    CompleteReturned(WorkerId),
    Finish(InstanceId),
    AskUnload(WorkerId, FilterId),
    UnloadReturned(WorkerId, bool),
    ForceUnload(FilterId),
    EmptyFilter(FilterId),
    FinishFilter(FilterId),
}

fn path(alloc: Global) -> Result<SharedPath, Status> {
    Ok(SharedPath::new(alloc, RelPath::read(b"f")?)?)
}

// A filter that is called before all operations and behind those, and has contexts of all kinds; asked before it goes, or not.
fn register(post: OpMask, is_asked: bool) -> Result<Step, Status> {
    let registration = Registration {
        pre: OpMask::ALL,
        post,
        contexts: ContextMask::ALL,
        query: is_asked,
        unload: is_asked,
    };
    Ok(Step::Register {
        name: Name::read(b"f")?,
        registration,
    })
}

fn attach(name: &[u8], altitude: &[u8]) -> Result<Step, Status> {
    Ok(Step::Attach {
        worker: WORKER,
        filter: FilterId(0),
        volume: VOLUME,
        name: Name::read(name)?,
        altitude: Altitude::read(altitude)?,
    })
}

fn on_handle(request: FileRequest) -> Request {
    Request::OnHandle {
        handle: HandleId(0),
        request,
    }
}

fn begin(alloc: Global, operation: Operation) -> Result<Request, Status> {
    Ok(match operation {
        Operation::Create => Request::Create {
            volume: VOLUME,
            path: path(alloc)?,
            mode: CreateMode::Always,
        },
        Operation::Read => on_handle(FileRequest::Read { offset: 0, len: 9 }),
        Operation::Cleanup => on_handle(FileRequest::Cleanup),
        Operation::Close => on_handle(FileRequest::Close),
        _ => Request::List { volume: VOLUME },
    })
}

// The parameters of the operation that `begin` begins.
fn params(alloc: Global, operation: Operation) -> Result<Params, Status> {
    Ok(match operation {
        Operation::Create => Params::Create {
            path: path(alloc)?,
            mode: CreateMode::Always,
        },
        Operation::Read => Params::Read { offset: 0, len: 9 },
        Operation::Cleanup => Params::Cleanup,
        Operation::Close => Params::Close,
        _ => Params::List,
    })
}

// The data that a callback brings back.
fn data(alloc: Global, operation: Operation) -> Result<CallbackData, Status>
    ensures { IfOk result (λ lent. lent ≡ fresh_data lent.received) }
{
    let params = params(alloc, operation)?;
    if !params.is_within_limits() {
        return Err(Status::BadRequest);
    }
    Ok(CallbackData::new(alloc, params)?)
}

// The call that the base brings back: a listing names no file.
fn call(alloc: Global, operation: Operation) -> Result<BaseCall, Status> {
    let path = match operation {
        Operation::List => None,
        _ => Some(path(alloc)?),
    };
    Ok(BaseCall::new(VOLUME, path, data(alloc, operation)?))
}

// So many zeros; memory that is refused is asked for again.
fn zeros(alloc: Global, len: usize) -> Result<Bytes, Status> {
    let mut zeros = Bytes::new(alloc);
    if zeros.set_len(len).is_err() {
        zeros.set_len(len)?;
    }
    Ok(zeros)
}

fn answer(alloc: Global) -> Result<Answer, Status> {
    Ok(Answer {
        status: Status::Success,
        information: 7,
        bytes: zeros(alloc, 1)?,
    })
}

fn set() -> Step {
    Step::Set {
        worker: WORKER,
        context: CONTEXT,
        mode: SetMode::Keep,
        wants_old: false,
    }
}

// The step that an event of a detach or an unload stands for.
fn ending(event: Event) -> Result<Step, Status> {
    Ok(match event {
        Event::AskDetach(worker, instance) => Step::AskDetach { worker, instance },
        Event::QueryReturned(worker, allow) => Step::QueryReturned { worker, allow },
        Event::StartTeardown(worker, instance) => Step::StartTeardown { worker, instance },
        Event::StartReturned(worker) => Step::StartReturned { worker },
        Event::CompleteTeardown(worker, instance) => Step::CompleteTeardown { worker, instance },
        Event::CompleteReturned(worker) => Step::CompleteReturned { worker },
        Event::Finish(instance) => Step::Finish { instance },
        Event::AskUnload(worker, filter) => Step::AskUnload { worker, filter },
        Event::UnloadReturned(worker, allow) => Step::UnloadReturned { worker, allow },
        Event::ForceUnload(filter) => Step::ForceUnload { filter },
        Event::EmptyFilter(filter) => Step::EmptyFilter { filter },
        Event::FinishFilter(filter) => Step::FinishFilter { filter },
        _ => return Err(Status::BadRequest),
    })
}

/// The step that an event stands for.
pub fn step_of(alloc: Global, event: Event) -> Result<Step, Status> {
    Ok(match event {
        Event::Register => register(OpMask::ALL, false)?,
        Event::RegisterPre => register(OpMask::NONE, false)?,
        Event::RegisterAsked => register(OpMask::ALL, true)?,
        Event::Mount => Step::Mount {
            name: Name::read(b"v")?,
        },
        Event::Attach => attach(b"a", b"100")?,
        Event::AttachBelow => attach(b"b", b"50")?,
        Event::SetupDone(accept) => Step::SetupDone {
            worker: WORKER,
            accept,
        },
        Event::Begin(operation) => Step::Begin(begin(alloc, operation)?),
        Event::Next(worker, operation) => Step::Next { worker, operation },
        Event::Pre(worker, verdict, operation) => Step::PreReturned {
            worker,
            verdict,
            data: data(alloc, operation)?,
        },
        Event::Base(worker, operation) => Step::BaseReturned {
            worker,
            call: call(alloc, operation)?,
            answer: answer(alloc)?,
        },
        Event::Post(worker, verdict, operation) => Step::PostReturned {
            worker,
            verdict,
            data: Some(data(alloc, operation)?),
        },
        Event::Drained(worker) => Step::PostReturned {
            worker,
            verdict: PostVerdict::Finished,
            data: None,
        },
        Event::ResumePre(worker, operation, verdict) => Step::ResumePre {
            worker,
            operation,
            verdict,
        },
        Event::ResumePost(worker, operation) => Step::ResumePost { worker, operation },
        Event::FirstHeld(worker, hold) => Step::FirstHeld { worker, hold },
        Event::Collect(operation) => Step::Collect { operation },
        Event::Allocate(kind) => Step::Allocate {
            worker: WORKER,
            kind,
            body: zeros(alloc, 2)?,
        },
        Event::Set => set(),
        Event::Get(kind) => Step::Get {
            worker: WORKER,
            kind,
        },
        Event::ReadBody => Step::ReadBody {
            worker: WORKER,
            context: CONTEXT,
        },
        Event::TakeDue => Step::TakeDue { worker: WORKER },
        Event::Cleaned(number) => Step::Cleaned {
            worker: WORKER,
            number,
        },
        other => ending(other)?,
    })
}
