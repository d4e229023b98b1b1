//! Filters that do what none of test_trial does: one declines its instances, the other holds a read on its way up, and makes mistakes of its own.
#![tactic(auto)]

mod opens;
mod orders;

ghost use Rattle.std.specs.Prelude.{◌≡◌};

use fm_callback_data::{CallbackData, Completion, Params, PostVerdict, PreVerdict};
use crate::opens::Opens;
use crate::orders::Orders;
use fm_filter::{Agreeable, Either, Port};
use fm_types::{Bytes, ContextKind, ContextMask, CtxId, Name, OpMask, Registration, Status};
use std::alloc::Global;

/// How many calls are made of which each is refused: one more than are kept.
const REFUSED: usize = 1_025;

/// A filter.
#[derive(Clone, Copy)]
pub enum Slips {
    /// A read at 0 is held in its postoperation. At 1 it reads a context after its release, at 2 it releases one twice, again and again, and at 3 it leaves two
    /// behind.
    Slips(Global),
    /// Declines its instances.
    Declines,
}

/// The filters under the names by which they are loaded.
pub fn filters(
    alloc: Global,
) -> Result<Vec<(Name, Either<Slips, Either<Orders, Opens>>)>, Status> {
    let mut filters = Vec::new(alloc);
    filters.push((Name::read(b"slips")?, Either::Left(Slips::Slips(alloc))))?;
    filters.push((Name::read(b"declines")?, Either::Left(Slips::Declines)))?;
    let orders = Either::Left(Orders { alloc });
    filters.push((Name::read(b"orders")?, Either::Right(orders)))?;
    filters.push((Name::read(b"opens")?, Either::Right(Either::Right(Opens))))?;
    Ok(filters)
}

// A new context, with its only reference in the hand.
fn new_context<P: Port>(alloc: Global, port: &mut P) -> Option<CtxId>
    ensures far { P.kept port.new ≡ P.kept port.old }
{
    let body = Bytes::copy_of(alloc, &[0; 8]).ok()?;
    port.allocate(ContextKind::Stream, body).ok()
}

impl Agreeable for Slips {
    ghost use Rattle.std.specs.Prelude.{⊤, true};

    ghost registers = { λ _. record { pre = record { 0 = 2 }; post = record { 0 = 2 }; contexts = record { 0 = 4 }; query = true; unload = true } };

    ghost pre_may = { λ _ _ _ _. ⊤ };

    ghost post_may = { λ _ _ _ _ _. ⊤ };

    ghost cleanup_may = { λ _ _ _ _. ⊤ };

    ghost is_quiet = { λ _. ⊥ };

    fn registration(&self) -> Registration {
        Registration {
            pre: OpMask::READ,
            post: OpMask::READ,
            contexts: ContextMask::STREAM,
            query: true,
            unload: true,
        }
    }

    fn setup<P: Port>(&self, _port: &mut P) -> bool {
        matches!(self, Slips::Slips(_))
    }

    fn pre<P: Port>(&self, lent: &mut CallbackData, port: &mut P) -> PreVerdict {
        let (Slips::Slips(alloc), Params::Read { offset, .. }) = (self, lent.params()) else {
            return PreVerdict::NoCallback;
        };
        if *offset == 0 {
            return PreVerdict::WithCallback(Completion {
                number: 0,
                context: None,
            });
        }
        let Some(context) = new_context(*alloc, port) else {
            return PreVerdict::NoCallback;
        };
        if *offset == 3 {
            let _ = new_context(*alloc, port);
            return PreVerdict::NoCallback;
        }
        let _ = port.release(context);
        if *offset == 1 {
            let _ = port.read_body(context);
            return PreVerdict::NoCallback;
        }
        for _ in 0..REFUSED {
            let _ = port.release(context);
        }
        PreVerdict::NoCallback
    }

    fn post<P: Port>(&self, _: &mut CallbackData, _: Completion, _: &mut P) -> PostVerdict {
        PostVerdict::MoreProcessing
    }

    fn cleanup(&self, _kind: ContextKind, _body: &[u8]) -> u64 {
        0
    }
}
