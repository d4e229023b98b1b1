//! A filter that sets a context of each kind, where there is none: of the volume and of the instance in its setup, of the stream and of the handle before a read.

ghost use Rattle.std.specs.Prelude.{◌≡◌};

use fm_core::SetMode;
use fm_callback_data::{CallbackData, Completion, Params, PostVerdict, PreVerdict};
use fm_filter::{Agreeable, Port};
use fm_types::{Bytes, ContextKind, ContextMask, OpMask, Registration};
use std::alloc::Global;

/// The filter, and whether it accepts its instances.
#[derive(Clone, Copy)]
pub struct Keeper {
    alloc: Global,
    accepts: bool,
}

impl Keeper {
    /// The filter, which takes memory for the body of each context.
    pub fn new(alloc: Global, accepts: bool) -> Keeper {
        Keeper { alloc, accepts }
    }

    // Sets a new context of that kind.
    fn set_new<P: Port>(&self, kind: ContextKind, port: &mut P)
        ensures far { P.kept port.new ≡ P.kept port.old }
    {
        let Ok(body) = Bytes::copy_of(self.alloc, &[0; 8]) else {
            return;
        };
        if let Ok(context) = port.allocate(kind, body) {
            let _ = port.set(context, SetMode::Keep, false);
            let _ = port.release(context);
        }
    }

    // The same, unless one is there.
    fn keep<P: Port>(&self, kind: ContextKind, port: &mut P)
        ensures far { P.kept port.new ≡ P.kept port.old }
    {
        match port.get(kind) {
            Ok(context) => {
                let _ = port.release(context);
            }
            Err(_) => self.set_new(kind, port),
        }
    }
}

impl Agreeable for Keeper {
    ghost use Rattle.std.specs.Prelude.{⊤, true};

    ghost registers = { λ _. record { pre = record { 0 = 2 }; post = record { 0 = 0 }; contexts = record { 0 = 15 }; query = true; unload = true } };

    ghost pre_may = { λ _ _ _ _. ⊤ };

    ghost post_may = { λ _ _ _ _ _. ⊤ };

    ghost cleanup_may = { λ _ _ _ _. ⊤ };

    ghost is_quiet = { λ _. ⊥ };

    fn registration(&self) -> Registration {
        Registration {
            pre: OpMask::READ,
            post: OpMask::NONE,
            contexts: ContextMask(
                ContextMask::VOLUME.0
                    | ContextMask::INSTANCE.0
                    | ContextMask::STREAM.0
                    | ContextMask::HANDLE.0,
            ),
            query: true,
            unload: true,
        }
    }

    fn setup<P: Port>(&self, port: &mut P) -> bool {
        self.keep(ContextKind::Volume, port);
        self.keep(ContextKind::Instance, port);
        self.accepts
    }

    fn pre<P: Port>(&self, lent: &mut CallbackData, port: &mut P) -> PreVerdict {
        if let Params::Read { .. } = lent.params() {
            self.keep(ContextKind::Stream, port);
            self.keep(ContextKind::Handle, port);
        }
        PreVerdict::NoCallback
    }

    fn post<P: Port>(&self, _: &mut CallbackData, _: Completion, _: &mut P) -> PostVerdict {
        PostVerdict::Finished
    }

    fn cleanup(&self, _kind: ContextKind, _body: &[u8]) -> u64 {
        0
    }
}
