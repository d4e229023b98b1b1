//! Filters of one's own, and the list of those that a program has ready to load.
#![tactic(auto)]

mod audit;
mod waits;

pub use crate::audit::Audit;
pub use crate::waits::Waits;
use fm_filter::Either;
use fm_types::{Name, Status};
use std::alloc::Global;

/// The filters under the names by which they are loaded. Refused with 1, if memory is refused.
pub fn filters(alloc: Global) -> Result<Vec<(Name, Either<Audit, Waits>)>, Status> {
    let mut filters = Vec::new(alloc);
    filters.push((Name::read(b"audit")?, Either::Left(Audit::new(alloc))))?;
    filters.push((Name::read(b"waits")?, Either::Right(Waits)))?;
    Ok(filters)
}
