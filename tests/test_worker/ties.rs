//! Filters of three kinds: one asks for its postoperation, one for that by its own worker, the third one holds reads.

ghost use Rattle.std.specs.Prelude.{◌≡◌};

use fm_callback_data::{CallbackData, Completion, Params, PostVerdict, PreVerdict};
use fm_filter::{Agreeable, Port};
use fm_operations::Hold;
use fm_types::{ContextKind, ContextMask, OpMask, Registration};

/// A filter of reads.
#[derive(Clone, Copy)]
pub enum Ties {
    /// Asks for the postoperation of each read, by any worker.
    Asks,
    /// Asks for the postoperation of each read, by the worker that makes its preoperation.
    Own,
    /// Holds each read until a flush.
    Holds,
}

// Lets the read go on that is held there first.
fn resume<P: Port>(port: &mut P)
    ensures far { P.kept port.new ≡ P.kept port.old }
{
    if let Ok(Some(operation)) = port.first_held(Hold::Pre) {
        let _ = port.resume_pre(operation, PreVerdict::NoCallback);
    }
}

impl Agreeable for Ties {
    ghost use Rattle.std.specs.Prelude.{⊤, true};
    ghost use Rattle.fm_samples.specs.Common.{CountsNothing, IsBarePost};

    ghost registers = { λ _. record { pre = record { 0 = 34 }; post = record { 0 = 2 }; contexts = record { 0 = 0 }; query = true; unload = true } };

    ghost pre_may = { λ _ _ _ _. ⊤ };

    ghost post_may = { λ _. IsBarePost };

    ghost cleanup_may = { λ _. CountsNothing };

    ghost is_quiet = { λ _. ⊥ };

    fn registration(&self) -> Registration {
        Registration {
            pre: OpMask(OpMask::READ.0 | OpMask::FLUSH.0),
            post: OpMask::READ,
            contexts: ContextMask::NONE,
            query: true,
            unload: true,
        }
    }

    fn pre<P: Port>(&self, lent: &mut CallbackData, port: &mut P) -> PreVerdict {
        match (self, lent.params()) {
            (Ties::Asks, Params::Read { .. }) => PreVerdict::WithCallback(Completion {
                number: 5,
                context: None,
            }),
            (Ties::Own, Params::Read { .. }) => PreVerdict::Synchronize(Completion {
                number: 7,
                context: None,
            }),
            (Ties::Holds, Params::Read { .. }) => PreVerdict::Pending,
            (Ties::Holds, Params::Flush) => {
                resume(port);
                PreVerdict::NoCallback
            }
            _ => PreVerdict::NoCallback,
        }
    }

    fn post<P: Port>(&self, _: &mut CallbackData, _: Completion, _: &mut P) -> PostVerdict {
        PostVerdict::Finished
    }

    fn cleanup(&self, _kind: ContextKind, _body: &[u8]) -> u64 {
        0
    }
}
