//! Two junctions that several tests enter.

use icu::{Approach, Entries, Entry, Turn};

/// The same lanes and volumes on each approach.
pub fn junction(lanes: [u32; 3], volumes: [u32; 3], shared: u32) -> Entries {
    let mut entries = Entries::new();
    for a in Approach::ALL {
        for turn in Turn::ALL {
            entries
                .set(Entry::Lanes(a, turn), lanes[turn as usize])
                .set(Entry::Volume(a, turn), volumes[turn as usize])
                .set(Entry::IdealFlow(a, turn), 1_900)
                .set(Entry::LostTime(a, turn), 4_000)
                .set(Entry::MinimumGreen(a, turn), 4_000);
        }
        entries.set(Entry::SharedLane(a), shared);
        entries
            .set(Entry::PushButton(a), 1)
            .set(Entry::WalkTime(a), 16_000);
    }
    entries.set(Entry::Cycle, 120);
    entries
}

pub fn plain() -> Entries {
    junction([1, 1, 0], [100, 400, 0], 0)
}
