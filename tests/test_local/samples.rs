//! The sample filters, by what they are.

use crate::steps::{Row, Step, named, run};
use fm_samples::{Carry, Guard, Hold, Meter, Sample, Shift, Stay};
use std::alloc::Global;
use std::process::Abort;

/// A sample.
#[derive(Clone, Copy)]
pub enum Kind {
    Guard,
    Meter,
    Shift,
    Hold,
    Carry,
    Stay,
}

fn sample_of(alloc: Global, kind: Kind) -> Sample {
    match kind {
        Kind::Guard => Sample::Guard(Guard),
        Kind::Meter => Sample::Meter(Meter::new(alloc)),
        Kind::Shift => Sample::Shift(Shift::new(alloc)),
        Kind::Hold => Sample::Hold(Hold),
        Kind::Carry => Sample::Carry(Carry::new(alloc)),
        Kind::Stay => Sample::Stay(Stay),
    }
}

/// Takes the steps with a manager of these samples.
pub fn run_samples(rt: &impl Abort, alloc: Global, rows: &[Row<Kind>], steps: &[Step]) {
    let mut filters = Vec::new(alloc);
    for (name, kind, _) in rows {
        filters
            .push((named(rt, name), sample_of(alloc, *kind)))
            .expect(rt, "memory");
    }
    run(rt, alloc, filters, rows, &[], steps);
}
