//! The sample that counts, with a report that tells reads and writes apart.

use fm_callback_data::{CallbackData, Completion, PostVerdict, PreVerdict};
use fm_filter::{Agreeable, Port};
use fm_samples::Meter;
use fm_types::{ContextKind, Registration};

/// The meter, but that the cleanup of a context returns a thousand for each read that it counted, and one for each write.
#[derive(Clone, Copy)]
pub struct TellsApart(pub Meter);

// What a body has counted: eight bytes for the reads, and then eight for the writes, the highest first.
fn counted(body: &[u8]) -> Option<(u64, u64)> {
    let (reads, rest) = body.split_first_chunk::<8>()?;
    let (writes, _) = rest.split_first_chunk::<8>()?;
    Some((u64::from_be_bytes(*reads), u64::from_be_bytes(*writes)))
}

impl Agreeable for TellsApart {
    ghost use Rattle.std.specs.Prelude.{⊤};
    ghost use Rattle.fm_samples.specs.Meter.{meter_registers};

    ghost registers = { λ _. meter_registers };

    ghost pre_may = { λ _ _ _ _. ⊤ };

    ghost post_may = { λ _ _ _ _ _. ⊤ };

    ghost cleanup_may = { λ _ _ _ _. ⊤ };

    ghost is_quiet = { λ _. ⊥ };

    fn registration(&self) -> Registration {
        self.0.registration()
    }

    fn pre<P: Port>(&self, lent: &mut CallbackData, port: &mut P) -> PreVerdict {
        self.0.pre(lent, port)
    }

    fn post<P: Port>(
        &self,
        lent: &mut CallbackData,
        completion: Completion,
        port: &mut P,
    ) -> PostVerdict {
        self.0.post(lent, completion, port)
    }

    fn cleanup(&self, _kind: ContextKind, body: &[u8]) -> u64 {
        match counted(body) {
            Some((reads, writes)) => reads.saturating_mul(1000).saturating_add(writes),
            None => 0,
        }
    }
}
