//! The wrapper's names and types against figures known for the book's interchange.

use icu::diamond::{Diamond, Interchange, Plan, Side, Storage, Unrated};
use icu::{Approach, Entries, Entry, Refusal, Sheet, Turn};

const EB: Approach = Approach::Eastbound;
const WB: Approach = Approach::Westbound;
const NB: Approach = Approach::Northbound;
const SB: Approach = Approach::Southbound;

/// Lanes and volumes of an approach.
type Leg = (Approach, [(u32, u32); 3]);

fn junction(legs: [Leg; 3]) -> Entries {
    let mut entries = Entries::new();
    for a in Approach::ALL {
        for turn in Turn::ALL {
            entries
                .set(Entry::IdealFlow(a, turn), 2_000)
                .set(Entry::LostTime(a, turn), 4_000)
                .set(Entry::MinimumGreen(a, turn), 4_000);
        }
    }
    for (a, turns) in legs {
        for turn in Turn::ALL {
            let (lanes, volume) = turns[turn as usize];
            entries
                .set(Entry::Lanes(a, turn), lanes)
                .set(Entry::Volume(a, turn), volume);
        }
    }
    entries.set(Entry::Cycle, 120);
    entries
}

/// The book's third example, storages cut to whole vehicles.
fn book() -> Diamond {
    let west = junction([
        (EB, [(0, 0), (2, 500), (0, 200)]),
        (WB, [(2, 300), (2, 1_100), (0, 0)]),
        (SB, [(2, 500), (1, 10), (0, 500)]),
    ]);
    let mut east = junction([
        (WB, [(0, 0), (2, 600), (1, 200)]),
        (EB, [(1, 200), (2, 800), (0, 0)]),
        (NB, [(2, 800), (0, 0), (1, 100)]),
    ]);
    east.set(Entry::FreeRight(WB), 1);
    Diamond {
        west,
        east,
        storages: [19, 19, 26, 26],
        travel: 7_100,
    }
}

#[test]
fn the_books_interchange() {
    let found = book().rate().unwrap();
    assert_eq!(
        (found.best(), found.icu(), found.letter()),
        (105_652, 881, 'E')
    );
    assert_eq!(found.picked(), Plan::LeadingAlternate);
    assert_eq!(found.plan(Plan::LeadingAlternate), Some(105_652));
    assert_eq!(found.plan(Plan::Lagging), None);
    assert_eq!(found.plan(Plan::LeadLag), None);
    let sides = [Side::West, Side::East];
    assert_eq!(sides.map(|side| found.isolated(side)), [80_683, 69_558]);
    assert_eq!(sides.map(|side| found.alternate(side)), [78_542, 59_229]);
    assert_eq!(sides.map(|side| found.combined(side)), [80_683, 69_558]);
    assert_eq!(sides.map(|side| found.overlap(side)), [7_100, 7_100]);
}

#[test]
fn times_are_the_sheets_own() {
    let found = book().rate().unwrap();
    let west = Sheet::fill(&book().west).unwrap();
    let east = Sheet::fill(&book().east).unwrap();
    for (at, (side, approach, turn)) in Interchange::MOVEMENTS.into_iter().enumerate() {
        let sheet = if side == Side::West { &west } else { &east };
        let free = (side, approach, turn) == (Side::East, WB, Turn::Right);
        let due = if free {
            0
        } else {
            sheet.line(approach, 16 + turn as usize).unwrap()
        };
        assert_eq!(found.time(side, approach, turn), Some(due));
        assert_eq!(found.cells()[at], due);
    }
    assert_eq!(found.time(Side::West, NB, Turn::Left), None);
}

#[test]
fn storages_allow_plans() {
    let picked = |storages: [u32; 4]| Diamond { storages, ..book() }.rate().unwrap();
    let all = picked([15, 10, 22, 34]);
    assert_eq!((all.picked(), all.best()), (Plan::Lagging, 80_683));
    let off_ramp = picked([14, 10, 22, 34]);
    assert_eq!(
        (off_ramp.picked(), off_ramp.plan(Plan::Lagging)),
        (Plan::LeadLag, None)
    );
    assert_eq!(picked([15, 10, 22, 33]).picked(), Plan::LeadingAlternate);
}

#[test]
fn refusals_have_names() {
    let (left, cycle) = (Turn::Left, Refusal::Range(Entry::Cycle));
    let factor = Entry::LaneFactor(EB, left);
    for (side, entry, value, due) in [
        (Side::West, Entry::Cycle, 29, cycle),
        (Side::East, Entry::Cycle, 121, cycle),
        (Side::West, factor, 1_001, Refusal::Range(factor)),
        (Side::East, factor, 499, Refusal::Range(factor)),
        (Side::East, Entry::SharedLane(NB), 1, Refusal::Shared(NB)),
        (
            Side::East,
            Entry::Volume(SB, left),
            1,
            Refusal::NoLane(SB, left),
        ),
    ] {
        let mut diamond = book();
        let junction = match side {
            Side::West => &mut diamond.west,
            Side::East => &mut diamond.east,
        };
        junction.set(entry, value);
        assert_eq!(diamond.rate(), Err(Unrated::Junction(side, due)));
    }
    let stored = |storages: [u32; 4], travel: u32| Diamond {
        storages,
        travel,
        ..book()
    };
    let short = stored([19, 19, 0, 1_000], 60_001).rate();
    assert_eq!(short, Err(Unrated::Storage(Storage::RoadEastbound)));
    let far = stored([19, 19, 26, 26], 60_001).rate();
    assert_eq!(far, Err(Unrated::Travel));
    assert_eq!(
        short.unwrap_err().to_string(),
        "RoadEastbound is not 1 to 999 vehicles"
    );
}
