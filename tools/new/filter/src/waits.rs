//! A filter that holds each read until a flush, as one does that waits for a verdict from elsewhere.

ghost use Rattle.std.specs.Prelude.{◌≡◌, ⊤};

use fm_callback_data::{CallbackData, Completion, Params, PostVerdict, PreVerdict};
use fm_filter::{Agreeable, Port};
use fm_operations::Hold;
use fm_types::limits::OPERATIONS;
use fm_types::{ContextKind, ContextMask, OpMask, Registration};

/// Holds each read in its preoperation, until a flush comes to the instance, or its teardown starts.
#[derive(Clone, Copy)]
pub struct Waits;

// Lets every read go on that the instance holds, the one of the lowest number first.
fn let_go<P: Port>(port: &mut P)
    ensures far { P.kept port.new ≡ P.kept port.old }
{
    for _gone in 0..OPERATIONS {
        if !let_first_go(port) {
            return;
        }
    }
}

// Lets the first of them go on. False where none is held, or a call is refused.
fn let_first_go<P: Port>(port: &mut P) -> bool
    ensures far { P.kept port.new ≡ P.kept port.old }
{
    match port.first_held(Hold::Pre) {
        Ok(Some(operation)) => port.resume_pre(operation, PreVerdict::NoCallback).is_ok(),
        _ => false,
    }
}

impl Agreeable for Waits {
    ghost use Rattle.std.specs.Prelude.{⊤, true, [], ◌∷◌};
    ghost use Rattle.fm_filter.specs.Registers.{kinds_of, mask_of};
    ghost use Rattle.fm_types.specs.declared.operation.Operation.TheVariants.{Flush, Read};

    ghost registers = { λ _. record { pre = mask_of (Read ∷ Flush ∷ []); post = mask_of []; contexts = kinds_of []; query = true; unload = true } };

    ghost pre_may = { λ _ _ _ _. ⊤ };

    ghost post_may = { λ _ _ _ _ _. ⊤ };

    ghost cleanup_may = { λ _ _ _ _. ⊤ };

    ghost is_quiet = { λ _. ⊥ };

    fn registration(&self) -> Registration {
        Registration {
            pre: OpMask(OpMask::READ.0 | OpMask::FLUSH.0),
            post: OpMask::NONE,
            contexts: ContextMask::NONE,
            query: true,
            unload: true,
        }
    }

    fn pre<P: Port>(&self, lent: &mut CallbackData, port: &mut P) -> PreVerdict
        ensures may { ⊤ }
        ensures kept { lent.new.received ≡ lent.old.received }
        ensures quiet { ⊥ → port.new ≡ port.old }
        ensures far { P.kept port.new ≡ P.kept port.old }
    {
        match lent.params() {
            Params::Read { .. } => PreVerdict::Pending,
            Params::Flush => {
                let_go(port);
                PreVerdict::NoCallback
            }
            _ => PreVerdict::NoCallback,
        }
    }

    fn post<P: Port>(&self, _: &mut CallbackData, _: Completion, _: &mut P) -> PostVerdict {
        PostVerdict::Finished
    }

    fn teardown_start<P: Port>(&self, port: &mut P)
        ensures quiet { ⊥ → port.new ≡ port.old }
        ensures far { P.kept port.new ≡ P.kept port.old }
    {
        let_go(port);
    }

    fn cleanup(&self, _: ContextKind, _: &[u8]) -> u64 {
        0
    }
}
