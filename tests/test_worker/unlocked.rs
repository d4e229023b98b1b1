//! A filter with a mistake that only some orders show.

ghost use Rattle.std.specs.Prelude.{◌≡◌};

use fm_callback_data::{CallbackData, Completion, PostVerdict, PreVerdict};
use fm_filter::{Agreeable, Port};
use fm_types::{ContextKind, ContextMask, OpMask, Registration};
use std::sync::Arc;
use std::sync::atomic::{AtomicU64, Ordering};

/// Counts reads by a number that others share: it looks at the number in the preoperation, and stores one more in the postoperation. A read that comes in
/// between isn't counted.
#[derive(Drop)]
pub struct Unlocked {
    counted: Arc<AtomicU64>,
}

impl Unlocked {
    /// The filter, which counts there.
    pub fn new(counted: Arc<AtomicU64>) -> Unlocked {
        Unlocked { counted }
    }
}

impl Agreeable for Unlocked {
    ghost use Rattle.std.specs.Prelude.{⊤, true};
    ghost use Rattle.fm_samples.specs.Common.{CountsNothing};

    ghost registers = { λ _. record { pre = record { 0 = 2 }; post = record { 0 = 2 }; contexts = record { 0 = 0 }; query = true; unload = true } };

    ghost pre_may = { λ _ _ _ _. ⊤ };

    ghost post_may = { λ _ _ _ _ _. ⊤ };

    ghost cleanup_may = { λ _. CountsNothing };

    ghost is_quiet = { λ _. ⊤ };

    fn registration(&self) -> Registration {
        Registration {
            pre: OpMask::READ,
            post: OpMask::READ,
            contexts: ContextMask::NONE,
            query: true,
            unload: true,
        }
    }

    fn pre<P: Port>(&self, _lent: &mut CallbackData, _port: &mut P) -> PreVerdict {
        PreVerdict::WithCallback(Completion {
            number: self.counted.load(Ordering::SeqCst),
            context: None,
        })
    }

    fn post<P: Port>(
        &self,
        _: &mut CallbackData,
        completion: Completion,
        _: &mut P,
    ) -> PostVerdict {
        let counted = completion.number.wrapping_add(1);
        self.counted.store(counted, Ordering::SeqCst);
        PostVerdict::Finished
    }

    fn cleanup(&self, _kind: ContextKind, _body: &[u8]) -> u64 {
        0
    }
}
