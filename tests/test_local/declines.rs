//! A filter that declines what it is asked.

use fm_callback_data::{CallbackData, Completion, PostVerdict, PreVerdict};
use fm_filter::{Minifilter, Port};
use fm_types::{ContextKind, ContextMask, OpMask, Registration};

/// Declines to be attached, or agrees to that and declines to be detached and to be unloaded. It sees no operation.
#[derive(Clone, Copy)]
pub enum Declines {
    ToCome,
    ToGo,
}

impl Minifilter for Declines {
    ghost use Rattle.std.specs.Prelude.{◌≡◌, ⊤, true, false};

    ghost registers = { λ _. record { pre = record { 0 = 0 }; post = record { 0 = 0 }; contexts = record { 0 = 0 }; query = true; unload = true } };

    ghost setup_may = { λ _ _. ⊤ };

    ghost pre_may = { λ _ _ _ _. ⊤ };

    ghost post_may = { λ _ _ _ _ _. ⊤ };

    ghost query_may = { λ _ answer. answer ≡ false };

    ghost unload_may = { λ _ answer. answer ≡ false };

    ghost cleanup_may = { λ _ _ _ _. ⊤ };

    ghost drained = { λ _ _. ⊤ };

    ghost started = { λ _. ⊤ };

    ghost completed = { λ _. ⊤ };

    ghost is_quiet = { λ _. ⊥ };

    fn registration(&self) -> Registration {
        Registration {
            pre: OpMask::NONE,
            post: OpMask::NONE,
            contexts: ContextMask::NONE,
            query: true,
            unload: true,
        }
    }

    fn setup<P: Port>(&self, _port: &mut P) -> bool {
        matches!(self, Declines::ToGo)
    }

    fn pre<P: Port>(&self, _lent: &mut CallbackData, _port: &mut P) -> PreVerdict {
        PreVerdict::NoCallback
    }

    fn post<P: Port>(&self, _: &mut CallbackData, _: Completion, _: &mut P) -> PostVerdict {
        PostVerdict::Finished
    }

    fn drain<P: Port>(&self, _completion: Completion, _port: &mut P) {}

    fn query_teardown<P: Port>(&self, _port: &mut P) -> bool {
        false
    }

    fn teardown_start<P: Port>(&self, _port: &mut P) {}

    fn teardown_complete<P: Port>(&self, _port: &mut P) {}

    fn unload(&self) -> bool {
        false
    }

    fn cleanup(&self, _kind: ContextKind, _body: &[u8]) -> u64 {
        0
    }
}
