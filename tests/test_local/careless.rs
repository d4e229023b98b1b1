//! A filter that is careless with references, and one that waits.

ghost use Rattle.std.specs.Prelude.{◌≡◌};

use fm_core::{Hold, SetMode};
use fm_callback_data::{CallbackData, Completion, Params, PostVerdict, PreVerdict};
use fm_filter::{Minifilter, Port};
use fm_types::{Bytes, ContextKind, ContextMask, CtxId, OpMask, Registration};
use std::alloc::Global;

/// Filters of two kinds, so that one manager can have both.
#[derive(Clone, Copy)]
pub enum Careless {
    /// What it does with a read depends on the offset: at 0 it leaves two references to one context behind, at 1 one to a volume context; at 2 it sets a
    /// context twice, and releases its reference; at 3 it holds the read; from 4 on it sends a context along, whose reference its postoperation leaves behind
    /// while it holds the read, and its drain too. It leaves one behind as it is asked for a detach. A flush and the start of a teardown resume all.
    Leaves(Global),
    /// Holds each read until a flush or a cleanup.
    Waits,
}

// A new context with a body of one byte, of which one reference is in the hand. None if a call was refused.
fn new_context<P: Port>(alloc: Global, kind: ContextKind, port: &mut P) -> Option<CtxId>
    ensures far { P.kept port.new ≡ P.kept port.old }
{
    let body = Bytes::copy_of(alloc, &[0]).ok()?;
    port.allocate(kind, body).ok()
}

fn leave_two<P: Port>(alloc: Global, port: &mut P)
    ensures far { P.kept port.new ≡ P.kept port.old }
{
    if let Some(context) = new_context(alloc, ContextKind::Stream, port) {
        let _ = port.reference(context);
    }
}

fn set_twice<P: Port>(alloc: Global, port: &mut P)
    ensures far { P.kept port.new ≡ P.kept port.old }
{
    if let Some(context) = new_context(alloc, ContextKind::Instance, port) {
        let _ = port.set(context, SetMode::Keep, false);
        let _ = port.set(context, SetMode::Keep, false);
        let _ = port.release(context);
    }
}

// The preoperation of a read at that offset.
fn read<P: Port>(alloc: Global, offset: u64, port: &mut P) -> PreVerdict
    ensures far { P.kept port.new ≡ P.kept port.old }
{
    match offset {
        0 => leave_two(alloc, port),
        1 => {
            let _ = new_context(alloc, ContextKind::Volume, port);
        }
        2 => set_twice(alloc, port),
        3 => return PreVerdict::Pending,
        _ => {
            return PreVerdict::WithCallback(Completion {
                number: 0,
                context: new_context(alloc, ContextKind::Stream, port),
            });
        }
    }
    PreVerdict::NoCallback
}

// Lets the operation go on that is held there first, before its preoperation's return or after its postoperation's.
fn resume<P: Port>(port: &mut P)
    ensures far { P.kept port.new ≡ P.kept port.old }
{
    if let Ok(Some(operation)) = port.first_held(Hold::Pre) {
        let _ = port.resume_pre(operation, PreVerdict::NoCallback);
    }
    if let Ok(Some(operation)) = port.first_held(Hold::Post) {
        let _ = port.resume_post(operation);
    }
}

impl Minifilter for Careless {
    ghost use Rattle.std.specs.Prelude.{⊤, true};

    ghost registers = { λ _. record { pre = record { 0 = 290 }; post = record { 0 = 2 }; contexts = record { 0 = 7 }; query = true; unload = true } };

    ghost setup_may = { λ _ _. ⊤ };

    ghost pre_may = { λ _ _ _ _. ⊤ };

    ghost post_may = { λ _ _ _ _ _. ⊤ };

    ghost query_may = { λ _ _. ⊤ };

    ghost unload_may = { λ _ _. ⊤ };

    ghost cleanup_may = { λ _ _ _ _. ⊤ };

    ghost drained = { λ _ _. ⊤ };

    ghost started = { λ _. ⊤ };

    ghost completed = { λ _. ⊤ };

    ghost is_quiet = { λ _. ⊥ };

    fn registration(&self) -> Registration {
        Registration {
            pre: OpMask(OpMask::READ.0 | OpMask::FLUSH.0 | OpMask::CLEANUP.0),
            post: OpMask::READ,
            contexts: ContextMask(
                ContextMask::VOLUME.0 | ContextMask::INSTANCE.0 | ContextMask::STREAM.0,
            ),
            query: true,
            unload: true,
        }
    }

    fn setup<P: Port>(&self, _port: &mut P) -> bool {
        true
    }

    fn pre<P: Port>(&self, lent: &mut CallbackData, port: &mut P) -> PreVerdict {
        match (lent.params(), self) {
            (Params::Read { offset, .. }, Careless::Leaves(alloc)) => read(*alloc, *offset, port),
            (Params::Read { .. }, Careless::Waits) => PreVerdict::Pending,
            _ => {
                resume(port);
                PreVerdict::NoCallback
            }
        }
    }

    fn post<P: Port>(&self, _: &mut CallbackData, _: Completion, _: &mut P) -> PostVerdict {
        PostVerdict::MoreProcessing
    }

    fn drain<P: Port>(&self, _completion: Completion, _port: &mut P) {}

    fn query_teardown<P: Port>(&self, port: &mut P) -> bool {
        if let Careless::Leaves(alloc) = self {
            let _ = new_context(*alloc, ContextKind::Instance, port);
        }
        true
    }

    fn teardown_start<P: Port>(&self, port: &mut P) {
        resume(port);
    }

    fn teardown_complete<P: Port>(&self, _port: &mut P) {}

    fn unload(&self) -> bool {
        true
    }

    fn cleanup(&self, _kind: ContextKind, _body: &[u8]) -> u64 {
        1
    }
}
