//! A filter whose mistakes only some orders of its callbacks show.

ghost use Rattle.std.specs.Prelude.{◌≡◌};

use fm_callback_data::{CallbackData, Completion, Params, PostVerdict, PreVerdict};
use fm_core::{Hold, SetAnswer, SetMode};
use fm_filter::{Agreeable, Port};
use fm_types::{Bytes, ContextKind, ContextMask, CtxId, OpMask, Registration};
use std::alloc::Global;

/// It counts writes in a context of the stream, which it reads before a write and writes after it. It holds reads until a flush. After a question for a size it sets a
/// context of the handle, if there was none before, and forgets the one that another has set meanwhile.
#[derive(Clone, Copy)]
pub struct Orders {
    pub alloc: Global,
}

// A completion with that number.
fn with(number: u64) -> PreVerdict {
    PreVerdict::WithCallback(Completion {
        number,
        context: None,
    })
}

// The number in the body of a context.
fn number_in<P: Port>(port: &mut P, context: CtxId) -> u64
    ensures far { P.kept port.new ≡ P.kept port.old }
{
    match port.read_body(context) {
        Ok(body) => match body.as_slice().first_chunk::<8>() {
            Some(bytes) => u64::from_be_bytes(*bytes),
            None => 0,
        },
        Err(_) => 0,
    }
}

// How many writes the stream's context counts.
fn count<P: Port>(port: &mut P) -> u64
    ensures far { P.kept port.new ≡ P.kept port.old }
{
    let Ok(context) = port.get(ContextKind::Stream) else {
        return 0;
    };
    let number = number_in(port, context);
    let _ = port.release(context);
    number
}

// Lets go of all reads that are held.
fn let_go<P: Port>(port: &mut P)
    ensures far { P.kept port.new ≡ P.kept port.old }
{
    for _ in 0..256 {
        let Ok(Some(operation)) = port.first_held(Hold::Pre) else {
            return;
        };
        let _ = port.resume_pre(operation, PreVerdict::NoCallback);
    }
}

impl Orders {
    // A new context with that number, with its only reference in the hand.
    fn new_context<P: Port>(&self, port: &mut P, kind: ContextKind, number: u64) -> Option<CtxId>
        ensures far { P.kept port.new ≡ P.kept port.old }
    {
        let body = Bytes::copy_of(self.alloc, &number.to_be_bytes()).ok()?;
        port.allocate(kind, body).ok()
    }

    // Stores a count in the stream's context.
    fn store<P: Port>(&self, port: &mut P, number: u64)
        ensures far { P.kept port.new ≡ P.kept port.old }
    {
        if let Ok(context) = port.get(ContextKind::Stream) {
            let _ = port.write_body(context, &number.to_be_bytes());
            let _ = port.release(context);
        } else if let Some(context) = self.new_context(port, ContextKind::Stream, number) {
            let _ = port.set(context, SetMode::Keep, false);
            let _ = port.release(context);
        }
    }

    // Sets a context of the handle, and forgets it where another one is there by now.
    fn mark<P: Port>(&self, port: &mut P)
        ensures far { P.kept port.new ≡ P.kept port.old }
    {
        if let Some(context) = self.new_context(port, ContextKind::Handle, 0) {
            if let SetAnswer::Linked(_) = port.set(context, SetMode::Keep, false) {
                let _ = port.release(context);
            }
        }
    }
}

// Whether there is a context of the handle.
fn is_marked<P: Port>(port: &mut P) -> bool
    ensures far { P.kept port.new ≡ P.kept port.old }
{
    match port.get(ContextKind::Handle) {
        Ok(context) => {
            let _ = port.release(context);
            true
        }
        Err(_) => false,
    }
}

impl Agreeable for Orders {
    ghost use Rattle.std.specs.Prelude.{⊤, true, [], ◌∷◌};
    ghost use Rattle.fm_filter.specs.Registers.{kinds_of, mask_of};
    ghost use Rattle.fm_types.specs.declared.context_kind.ContextKind.TheVariants.{Handle, Stream};
    ghost use Rattle.fm_types.specs.declared.operation.Operation.TheVariants.{Flush, QuerySize, Read, Write};

    ghost registers = { λ _. record { pre = mask_of (Read ∷ Write ∷ Flush ∷ QuerySize ∷ []); post = mask_of (Write ∷ QuerySize ∷ []); contexts = kinds_of (Stream ∷ Handle ∷ []); query = true; unload = true } };

    ghost pre_may = { λ _ _ _ _. ⊤ };

    ghost post_may = { λ _ _ _ _ _. ⊤ };

    ghost cleanup_may = { λ _ _ _ _. ⊤ };

    ghost is_quiet = { λ _. ⊥ };

    fn registration(&self) -> Registration {
        let post = OpMask::WRITE.0 | OpMask::QUERY_SIZE.0;
        let contexts = ContextMask::STREAM.0 | ContextMask::HANDLE.0;
        Registration {
            pre: OpMask(post | OpMask::READ.0 | OpMask::FLUSH.0),
            post: OpMask(post),
            contexts: ContextMask(contexts),
            query: true,
            unload: true,
        }
    }

    fn pre<P: Port>(&self, lent: &mut CallbackData, port: &mut P) -> PreVerdict {
        match lent.params() {
            Params::Read { .. } => PreVerdict::Pending,
            Params::Write { .. } => with(count(port)),
            Params::QuerySize if is_marked(port) => PreVerdict::NoCallback,
            Params::QuerySize => with(0),
            Params::Flush => {
                let_go(port);
                PreVerdict::NoCallback
            }
            _ => PreVerdict::NoCallback,
        }
    }

    fn post<P: Port>(
        &self,
        lent: &mut CallbackData,
        completion: Completion,
        port: &mut P,
    ) -> PostVerdict {
        if let Params::Write { .. } = lent.params() {
            self.store(port, completion.number.wrapping_add(1));
        } else {
            self.mark(port);
        }
        PostVerdict::Finished
    }

    fn cleanup(&self, kind: ContextKind, body: &[u8]) -> u64 {
        match (kind, body.first_chunk::<8>()) {
            (ContextKind::Stream, Some(number)) => u64::from_be_bytes(*number),
            _ => 0,
        }
    }
}
