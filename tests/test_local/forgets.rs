//! A filter that forgets to release what it took.

ghost use Rattle.std.specs.Prelude.{◌≡◌};

use fm_core::SetMode;
use fm_callback_data::{CallbackData, Completion, PostVerdict, PreVerdict};
use fm_filter::{Agreeable, Port};
use fm_types::{Bytes, ContextKind, ContextMask, CtxId, OpMask, Registration};
use std::alloc::Global;

/// Leaves references in its callbacks' hands. Its setup sets a context on the new instance and keeps its reference. The preoperation of a read takes two
/// references to a new context, sends one along and keeps the other; the postoperation keeps the one that comes back, and the end of a teardown one more.
#[derive(Clone, Copy)]
pub struct Forgets {
    alloc: Global,
}

impl Forgets {
    /// The filter, which takes memory for the body of each context.
    pub fn new(alloc: Global) -> Forgets {
        Forgets { alloc }
    }

    // A new context with a body of one byte, of which one reference is in the hand. None where a call was refused.
    fn new_context<P: Port>(&self, kind: ContextKind, port: &mut P) -> Option<CtxId>
        ensures far { P.kept port.new ≡ P.kept port.old }
    {
        let body = Bytes::copy_of(self.alloc, &[0]).ok()?;
        port.allocate(kind, body).ok()
    }
}

impl Agreeable for Forgets {
    ghost use Rattle.std.specs.Prelude.{⊤, true};

    ghost registers = { λ _. record { pre = record { 0 = 2 }; post = record { 0 = 2 }; contexts = record { 0 = 6 }; query = true; unload = true } };

    ghost pre_may = { λ _ _ _ _. ⊤ };

    ghost post_may = { λ _ _ _ _ _. ⊤ };

    ghost cleanup_may = { λ _ _ _ _. ⊤ };

    ghost is_quiet = { λ _. ⊥ };

    fn registration(&self) -> Registration {
        Registration {
            pre: OpMask::READ,
            post: OpMask::READ,
            contexts: ContextMask(ContextMask::INSTANCE.0 | ContextMask::STREAM.0),
            query: true,
            unload: true,
        }
    }

    fn setup<P: Port>(&self, port: &mut P) -> bool {
        if let Some(context) = self.new_context(ContextKind::Instance, port) {
            let _ = port.set(context, SetMode::Keep, false);
        }
        true
    }

    fn pre<P: Port>(&self, _lent: &mut CallbackData, port: &mut P) -> PreVerdict {
        let context = self.new_context(ContextKind::Stream, port);
        if let Some(context) = context {
            let _ = port.reference(context);
        }
        PreVerdict::WithCallback(Completion { number: 0, context })
    }

    fn post<P: Port>(&self, _: &mut CallbackData, _: Completion, _: &mut P) -> PostVerdict {
        PostVerdict::Finished
    }

    fn teardown_complete<P: Port>(&self, port: &mut P) {
        let _ = self.new_context(ContextKind::Stream, port);
    }

    fn cleanup(&self, _kind: ContextKind, _body: &[u8]) -> u64 {
        1
    }
}
