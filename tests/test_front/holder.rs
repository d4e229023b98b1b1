//! A filter that holds creates of new files, until a flush, or until a client lets go of a handle.

ghost use Rattle.std.specs.Prelude.{◌≡◌};

use fm_callback_data::{CallbackData, Completion, Params, PostVerdict, PreVerdict};
use fm_filter::{Agreeable, Port};
use fm_operations::Hold;
use fm_types::{ContextKind, ContextMask, CreateMode, Name, OpMask, Registration, Status};
use std::alloc::Global;
use std::sync::atomic::{AtomicU64, Ordering};
use std::thread;

/// How often a cleanup lets other threads run at most, until the creates that were let go have come back.
const TURNS: u64 = 10_000_000;

/// What lets the creates go. The start of a teardown does it too.
#[derive(Drop)]
pub enum Holder {
    /// A flush.
    Flushed,
    /// The cleanup of a handle, which first waits until those that earlier ones let go have come back: how many were let go, and how many came back.
    CleanedUp { gone: AtomicU64, back: AtomicU64 },
}

/// The filters under the names by which they are loaded.
pub fn holders(alloc: Global) -> Result<Vec<(Name, Holder)>, Status> {
    let mut filters = Vec::new(alloc);
    filters.push((Name::read(b"flushed")?, Holder::Flushed))?;
    let cleaned_up = Holder::CleanedUp {
        gone: AtomicU64::new(0),
        back: AtomicU64::new(0),
    };
    filters.push((Name::read(b"cleanedup")?, cleaned_up))?;
    Ok(filters)
}

// Lets all go that are held there: how many.
fn resume<P: Port>(port: &mut P) -> u64
    ensures far { P.kept port.new ≡ P.kept port.old }
{
    let mut resumed = 0_u64;
    for _ in 0..256 {
        if let Ok(Some(operation)) = port.first_held(Hold::Pre) {
            let verdict = PreVerdict::WithCallback(Completion {
                number: 0,
                context: None,
            });
            if port.resume_pre(operation, verdict).is_ok() {
                resumed = resumed.saturating_add(1);
            }
        }
    }
    resumed
}

// Waits until so many creates have come back.
fn wait_for(back: &AtomicU64, wanted: u64) {
    'waits: for _ in 0..TURNS {
        if back.load(Ordering::SeqCst) >= wanted {
            break 'waits;
        }
        thread::yield_now();
    }
}

impl Agreeable for Holder {
    ghost use Rattle.std.specs.Prelude.{⊤, true};

    ghost registers = { λ _. record { pre = record { 0 = 289 }; post = record { 0 = 1 }; contexts = record { 0 = 0 }; query = true; unload = true } };

    ghost pre_may = { λ _ _ _ _. ⊤ };

    ghost post_may = { λ _ _ _ _ _. ⊤ };

    ghost cleanup_may = { λ _ _ _ _. ⊤ };

    ghost is_quiet = { λ _. ⊥ };

    fn registration(&self) -> Registration {
        Registration {
            pre: OpMask(OpMask::CREATE.0 | OpMask::FLUSH.0 | OpMask::CLEANUP.0),
            post: OpMask::CREATE,
            contexts: ContextMask::NONE,
            query: true,
            unload: true,
        }
    }

    fn pre<P: Port>(&self, lent: &mut CallbackData, port: &mut P) -> PreVerdict {
        match (self, lent.params()) {
            (_, Params::Create { mode: CreateMode::New, .. }) => return PreVerdict::Pending,
            (Holder::Flushed, Params::Flush) => {
                resume(port);
            }
            (Holder::CleanedUp { gone, back }, Params::Cleanup) => {
                wait_for(back, gone.load(Ordering::SeqCst));
                gone.fetch_add(resume(port), Ordering::SeqCst);
            }
            _ => {}
        }
        PreVerdict::NoCallback
    }

    fn post<P: Port>(&self, _: &mut CallbackData, _: Completion, _: &mut P) -> PostVerdict {
        if let Holder::CleanedUp { back, .. } = self {
            back.fetch_add(1, Ordering::SeqCst);
        }
        PostVerdict::Finished
    }

    fn teardown_start<P: Port>(&self, port: &mut P) {
        resume(port);
    }

    fn cleanup(&self, _kind: ContextKind, _body: &[u8]) -> u64 {
        0
    }
}
