//! A filter that answers a read with what it may know of it.

ghost use Rattle.std.specs.Prelude.{◌≡◌};

use fm_core::{About, AboutOperation};
use fm_callback_data::{CallbackData, Completion, PostVerdict, PreVerdict};
use fm_filter::{Agreeable, Port};
use fm_types::{Bytes, ContextKind, ContextMask, OpMask, Operation, Registration, Status};
use std::alloc::{AllocError, Global};

/// What a postoperation is asked for with, where it brings nothing along.
const NOTHING: Completion = Completion {
    number: 0,
    context: None,
};

/// Its postoperation of a read puts in the answer what its port tells about the callback.
#[derive(Clone, Copy)]
pub struct SaysAbout {
    alloc: Global,
}

// Appends a number of one digit.
fn say_number(text: &mut Vec<u8>, number: u64) -> Result<(), AllocError> {
    text.push(b'0'.wrapping_add((number % 10) as u8))?;
    Ok(())
}

// Appends the operation: its number, whether it is a read, its handle and its path.
fn say_operation(text: &mut Vec<u8>, operation: &AboutOperation) -> Result<(), AllocError> {
    text.extend_from_slice(b" o")?;
    say_number(text, operation.number.0)?;
    if operation.kind == Operation::Read {
        text.extend_from_slice(b" read")?;
    }
    if let Some(handle) = operation.handle {
        text.extend_from_slice(b" h")?;
        say_number(text, handle.0)?;
    }
    if let Some(path) = &operation.path {
        text.extend_from_slice(b" ")?;
        text.extend_from_slice(path.path().text())?;
    }
    Ok(())
}

// All of it.
fn say(alloc: Global, about: &About) -> Result<Bytes, AllocError> {
    let mut text = Vec::new(alloc);
    text.extend_from_slice(about.instance_name.text())?;
    text.extend_from_slice(b" f")?;
    say_number(&mut text, u64::from(about.filter.0))?;
    text.extend_from_slice(b" at ")?;
    text.extend_from_slice(about.altitude.text())?;
    text.extend_from_slice(b" on ")?;
    text.extend_from_slice(about.volume_name.text())?;
    if let Some(operation) = &about.operation {
        say_operation(&mut text, operation)?;
    }
    Bytes::copy_of(alloc, text.as_slice())
}

impl SaysAbout {
    /// The filter, which takes memory for what it says.
    pub fn new(alloc: Global) -> SaysAbout {
        SaysAbout { alloc }
    }
}

impl Agreeable for SaysAbout {
    ghost use Rattle.std.specs.Prelude.{⊤, true, [], ◌∷◌};
    ghost use Rattle.fm_filter.specs.Registers.{kinds_of, mask_of};
    ghost use Rattle.fm_types.specs.declared.operation.Operation.TheVariants.{Read};

    ghost registers = { λ _. record { pre = mask_of (Read ∷ []); post = mask_of (Read ∷ []); contexts = kinds_of []; query = true; unload = true } };

    ghost pre_may = { λ _ _ _ _. ⊤ };

    ghost post_may = { λ _ _ _ _ _. ⊤ };

    ghost cleanup_may = { λ _ _ _ _. ⊤ };

    ghost is_quiet = { λ _. ⊤ };

    fn registration(&self) -> Registration {
        Registration {
            pre: OpMask::READ,
            post: OpMask::READ,
            contexts: ContextMask::NONE,
            query: true,
            unload: true,
        }
    }

    fn pre<P: Port>(&self, _lent: &mut CallbackData, _port: &mut P) -> PreVerdict {
        PreVerdict::WithCallback(NOTHING)
    }

    fn post<P: Port>(&self, lent: &mut CallbackData, _: Completion, port: &mut P) -> PostVerdict {
        let Ok(about) = port.about() else {
            return PostVerdict::Finished;
        };
        if let Ok(said) = say(self.alloc, &about) {
            lent.set_status(Status::Success, said.len() as u64);
            let _ = lent.set_out(said);
        }
        PostVerdict::Finished
    }

    fn cleanup(&self, _kind: ContextKind, _body: &[u8]) -> u64 {
        0
    }
}
