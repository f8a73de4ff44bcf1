//! Single point interchanges: fills, and amendments of three kinds, of the junctions without their shared lanes.

use crate::steps::{self, NAMES};
use crate::{junctions, Amend, Calls, Fill};
use compare::generate::{Entries, Rng};
use compare::point::{self, CELLS};

const FILL: Option<Fill> = {
    #[cfg(feature = "point")]
    let call: Option<Fill> = Some(compare::library::point_fill);
    #[cfg(not(feature = "point"))]
    let call: Option<Fill> = None;
    call
};

const AMEND: Option<Amend> = {
    #[cfg(feature = "point")]
    let call: Option<Amend> = Some(compare::library::point_amend);
    #[cfg(not(feature = "point"))]
    let call: Option<Amend> = None;
    call
};

const POINT: Calls<CELLS> = Calls {
    fill: (FILL, point::fill),
    amend: (AMEND, point::amend),
};

/// One kind that reaches an approach's lines, one that reaches only the last cells, and one that reaches them all.
const AMENDED: [&str; 3] = ["volume", "free right", "cycle"];

pub fn time(quiet: &[Entries], walked: &[Entries], mix: &[Entries], rounds: usize) {
    for (name, mix) in [
        ("point fill, no pedestrians", quiet),
        ("point fill, pedestrians", walked),
        ("point fill, mix", mix),
    ] {
        POINT.time_fill(name, &junctions::points(mix), rounds);
    }
    // Draws of its own, so that all other inputs stay what they were without single points.
    let (mut rng, mix) = (Rng::new(7), junctions::points(mix));
    for (kind, name) in NAMES.iter().enumerate() {
        if AMENDED.contains(name) {
            let steps = steps::of_kind(&mut rng, &mix, kind);
            POINT.time_amend(&format!("point amend {name}"), &mix, &steps, rounds);
        }
    }
}
