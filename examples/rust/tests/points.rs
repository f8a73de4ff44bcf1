//! A single point interchange by the wrapper's names and types, against figures known for the book's.

mod common;

use common::{junction, plain};
use icu::{
    Approach, Entries, Entry, Kind, Pair, Phasing, PointSheet, Refusal, Sheet, SheetOf, Turn,
};

const EB: Approach = Approach::Eastbound;
const WB: Approach = Approach::Westbound;
const NB: Approach = Approach::Northbound;
const SB: Approach = Approach::Southbound;

/// Lanes and volumes of an approach's turns; its pedestrians, button, pedestrian time and free right.
type Leg = (Approach, [(u32, u32); 3], [u32; 4]);

const LEGS: [Leg; 4] = [
    (EB, [(2, 500), (3, 2_200), (1, 300)], [12, 1, 24_000, 1]),
    (WB, [(2, 700), (3, 1_500), (1, 800)], [0, 1, 24_000, 0]),
    (NB, [(2, 800), (0, 0), (1, 200)], [0, 0, 20_000, 0]),
    (SB, [(2, 900), (0, 0), (2, 800)], [0, 0, 20_000, 1]),
];

/// What is typed over the starting entries for the book's fourth example, lanes before the volumes that use them.
fn typed() -> Vec<(Entry, u32)> {
    let mut typed = Vec::new();
    for (a, turns, [walkers, button, walk, free]) in LEGS {
        for (turn, (lanes, volume)) in Turn::ALL.into_iter().zip(turns) {
            typed.extend([
                (Entry::Lanes(a, turn), lanes),
                (Entry::Volume(a, turn), volume),
                (Entry::MinimumGreen(a, turn), 8_000),
            ]);
        }
        typed.extend([
            (Entry::Pedestrians(a), walkers),
            (Entry::PushButton(a), button),
            (Entry::WalkTime(a), walk),
            (Entry::FreeRight(a), free),
        ]);
    }
    typed
}

fn book() -> Entries {
    let mut entries = Entries::point_start();
    for (entry, value) in typed() {
        entries.set(entry, value);
    }
    entries
}

fn point(entries: &Entries) -> PointSheet {
    PointSheet::fill(entries).unwrap()
}

/// The ratings of either kind are asked for alike.
fn rating<K: Kind>(sheet: &SheetOf<K>) -> (u32, u32, char) {
    (sheet.required(), sheet.icu(), sheet.letter())
}

#[test]
fn the_books_interchange() {
    let sheet = point(&book());
    assert_eq!(rating(&sheet), (122_495, 1_021, 'G'));
    assert_eq!(sheet.total(Pair::EastWest), 85_225);
    assert_eq!(sheet.total(Pair::NorthSouth), 37_270);
    assert_eq!(sheet.combined(), 122_495);
    let adjusted = |a| [16, 17, 18].map(|k| sheet.line(a, k).unwrap());
    assert_eq!(adjusted(EB), [24_262, 54_459, 28_646]);
    assert_eq!(adjusted(WB), [30_766, 39_040, 62_471]);
    assert_eq!(adjusted(NB), [34_018, 0, 20_118]);
    assert_eq!(adjusted(SB), [37_270, 0, 37_905]);
    // The rights of EB and SB are free; the others wait for a through from the left and the oncoming lefts.
    let rights = Approach::ALL.map(|a| sheet.right_total(a));
    assert_eq!(rights, [28_646, 86_733, 111_847, 37_905]);
    assert_eq!(sheet.entries(), book());
    assert_eq!(sheet.entry(Entry::Pedestrians(EB)), 12);
}

#[test]
fn starting_entries() {
    let start = Entries::point_start();
    for place in 0..Entries::COUNT {
        let due = match Entry::at(place) {
            Some(Entry::IdealFlow(..)) => 2_000,
            Some(Entry::LostTime(_, Turn::Left)) => 8_000,
            Some(Entry::LostTime(..)) => 6_000,
            Some(Entry::Cycle) => 120,
            _ => 0,
        };
        assert_eq!(start.numbers()[place], due, "entry {place}");
    }
    assert_eq!(rating(&point(&start)), (0, 0, 'A'));
}

#[test]
fn as_many_cells_as_its_kind_has() {
    let sheet = point(&book());
    assert_eq!((PointSheet::CELLS, sheet.cells().len()), (175, 175));
    assert_eq!(
        (Sheet::CELLS, Sheet::fill(&book()).unwrap().cells().len()),
        (221, 221)
    );
    assert_eq!(sheet.cells()[92..95], [120, 500, 2_200]);
    assert_eq!(sheet.cells()[165..167], [85_225, 37_270]);
    assert_eq!(sheet.cells()[171..], [122_495, 122_495, 1_021, 6]);
    assert_eq!([0, 19, 28].map(|k| sheet.line(EB, k)), [None; 3]);
}

#[test]
fn lines_are_a_junctions_own() {
    for entries in [book(), plain(), junction([1, 2, 0], [90, 500, 70], 0)] {
        let (sheet, whole) = (point(&entries), Sheet::fill(&entries).unwrap());
        for a in Approach::ALL {
            for k in 1..=18 {
                assert_eq!(sheet.line(a, k), whole.line(a, k));
                assert_eq!(sheet.flow(a, k), whole.flow(a, k));
            }
            // no lane is shared
            assert_eq!(sheet.line(a, 8), sheet.line(a, 6));
            assert_eq!(sheet.line(a, 9), sheet.line(a, 5));
        }
        for pair in [Pair::EastWest, Pair::NorthSouth] {
            let protected = whole.total(pair, Phasing::Protected);
            assert_eq!(Some(sheet.total(pair)), protected);
        }
    }
    let flow = point(&book()).flow(EB, 6).unwrap();
    assert_eq!(flow.to_string(), "5448.0");
    assert_eq!(point(&book()).flow(EB, 22), None);
}

#[test]
fn typed_one_after_the_other() {
    let mut sheet = point(&Entries::point_start());
    for (entry, value) in typed() {
        sheet.amend(entry, value).unwrap();
        assert_eq!(sheet, point(&sheet.entries()));
    }
    assert_eq!(sheet, point(&book()));
    let throughs = Entry::Volume(EB, Turn::Through);
    sheet.amend(throughs, 2_400).unwrap();
    assert_eq!(rating(&sheet), (126_900, 1_058, 'G'));
    sheet.amend(throughs, 2_000).unwrap();
    assert_eq!(rating(&sheet), (118_089, 985, 'F'));
    // the rights of NB wait for those throughs
    assert_eq!(sheet.right_total(NB), 107_441);
}

#[test]
fn refusals_have_names() {
    let factor = Entry::LaneFactor(SB, Turn::Right);
    let (left, through) = (Turn::Left, Turn::Through);
    for (entry, value, due) in [
        (Entry::Cycle, 29, Refusal::Range(Entry::Cycle)),
        (factor, 499, Refusal::Range(factor)),
        (
            Entry::SharedLane(WB),
            2,
            Refusal::Range(Entry::SharedLane(WB)),
        ),
        (Entry::SharedLane(NB), 1, Refusal::Shared(NB)),
        (Entry::Lanes(SB, left), 0, Refusal::NoLane(SB, left)),
        (Entry::Volume(NB, through), 1, Refusal::NoLane(NB, through)),
    ] {
        let mut sheet = point(&book());
        assert_eq!(sheet.amend(entry, value), Err(due));
        assert_eq!(sheet, point(&book()));
        let mut bad = book();
        bad.set(entry, value);
        assert_eq!(PointSheet::fill(&bad), Err(due));
    }
}

#[test]
fn no_lane_is_shared() {
    // what a junction may have, a single point may not
    let mut shared = junction([0, 1, 0], [100, 300, 100], 1);
    assert!(Sheet::fill(&shared).is_ok());
    assert_eq!(PointSheet::fill(&shared), Err(Refusal::Shared(EB)));
    shared.set(Entry::SharedLane(EB), 0);
    // told before the lefts that then have no lane
    assert_eq!(PointSheet::fill(&shared), Err(Refusal::Shared(WB)));
    assert_eq!(
        Refusal::Shared(WB).to_string(),
        "Westbound has a shared lane with left lanes, with no through lane, or at a single point"
    );
}
