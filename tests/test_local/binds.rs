//! A filter that asks for its postoperations, of any worker or of its own.

use fm_callback_data::{CallbackData, Completion, PostVerdict, PreVerdict};
use fm_filter::{Agreeable, Port};
use fm_types::{ContextKind, ContextMask, OpMask, Registration};

/// Asks for the postoperation of each read; if it binds, of the worker that makes the preoperation.
#[derive(Clone, Copy)]
pub enum Binds {
    Any,
    Own,
}

impl Agreeable for Binds {
    ghost use Rattle.std.specs.Prelude.{⊤, true};
    ghost use Rattle.fm_samples.specs.Common.{CountsNothing, IsBarePost};

    ghost registers = { λ _. record { pre = record { 0 = 2 }; post = record { 0 = 2 }; contexts = record { 0 = 0 }; query = true; unload = true } };

    ghost pre_may = { λ _ _ _ _. ⊤ };

    ghost post_may = { λ _. IsBarePost };

    ghost cleanup_may = { λ _. CountsNothing };

    ghost is_quiet = { λ _. ⊤ };

    fn registration(&self) -> Registration {
        Registration {
            pre: OpMask::READ,
            post: OpMask::READ,
            contexts: ContextMask::NONE,
            query: true,
            unload: true,
        }
    }

    fn pre<P: Port>(&self, _lent: &mut CallbackData, _port: &mut P) -> PreVerdict {
        let completion = Completion {
            number: 7,
            context: None,
        };
        match self {
            Binds::Any => PreVerdict::WithCallback(completion),
            Binds::Own => PreVerdict::Synchronize(completion),
        }
    }

    fn post<P: Port>(&self, _: &mut CallbackData, _: Completion, _: &mut P) -> PostVerdict {
        PostVerdict::Finished
    }

    fn cleanup(&self, _kind: ContextKind, _body: &[u8]) -> u64 {
        0
    }
}
