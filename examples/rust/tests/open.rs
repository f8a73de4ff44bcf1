//! Two offices in one open study, by the wrapper's names and types.

mod common;

use common::{junction, plain};
use icu::open::{Office, OpenStudy};
use icu::{Approach, Entries, Entry, Refusal, Sheet, Turn};
use std::sync::RwLock;
use std::thread;

const EB: Approach = Approach::Eastbound;
const LEFTS: Entry = Entry::Volume(EB, Turn::Left);

fn office(number: u32) -> Office {
    Office::new(number).unwrap()
}

fn shared() -> Entries {
    junction([0, 1, 0], [100, 300, 100], 1)
}

/// The city's plain junction at place 0, the county's shared lanes at 1.
fn study() -> OpenStudy {
    let mut study = OpenStudy::new();
    assert_eq!(study.add(office(1), &plain()), Ok(0));
    assert_eq!(study.add(office(2), &shared()), Ok(1));
    study
}

#[test]
fn each_office_has_its_own() {
    let mut study = study();
    study.amend(office(1), 0, LEFTS, 59).unwrap();
    let mut changed = plain();
    changed.set(LEFTS, 59);
    assert_eq!(study.read(office(1), 0), Sheet::fill(&changed));
    assert_eq!(study.read(office(2), 1), Sheet::fill(&shared()));
    let before = study.clone();
    let others = [(2, 0), (1, 1), (1, 2), (2, 165), (2, u32::MAX), (3, 0)];
    for (number, site) in others {
        let refusal = Refusal::Owner(site);
        assert_eq!(study.read(office(number), site), Err(refusal));
        let amended = study.amend(office(number), site, Entry::Cycle, 29);
        assert_eq!(amended, Err(refusal));
    }
    assert_eq!(study, before);
}

#[test]
fn refusals_have_names() {
    let mut study = study();
    let before = study.clone();
    let (left, through) = (Turn::Left, Turn::Through);
    let factor = Entry::LaneFactor(EB, Turn::Right);
    for (entry, value, due) in [
        (Entry::Cycle, 29, Refusal::Range(Entry::Cycle)),
        (factor, 499, Refusal::Range(factor)),
        (Entry::SharedLane(EB), 1, Refusal::Shared(EB)),
        (Entry::Lanes(EB, left), 0, Refusal::NoLane(EB, left)),
    ] {
        assert_eq!(study.amend(office(1), 0, entry, value), Err(due));
        let mut bad = plain();
        bad.set(entry, value);
        assert_eq!(study.add(office(1), &bad), Err(due));
    }
    assert_eq!(study, before);
    assert_eq!(Office::new(0), None);
    let refused = study.read(office(2), 7).unwrap_err();
    assert_eq!(refused.to_string(), "the office has no site at place 7");
    let lanes = Entry::Lanes(EB, through);
    let refused = study.amend(office(2), 1, lanes, 0).unwrap_err();
    assert_eq!(refused, Refusal::Shared(EB));
}

#[test]
fn a_full_study() {
    let mut study = study();
    for place in 2..OpenStudy::PLACES as u32 {
        assert_eq!(study.add(office(u32::MAX), &plain()), Ok(place));
    }
    assert_eq!(study.add(office(1), &plain()), Err(Refusal::Full));
    assert_eq!(Refusal::Full.to_string(), "every place is taken");
    // bad entries are told of first
    let bad = Refusal::Range(Entry::IdealFlow(EB, Turn::Left));
    assert_eq!(study.add(office(1), &Entries::new()), Err(bad));
    assert_eq!(study.read(office(2), 1), Sheet::fill(&shared()));
}

#[test]
fn lists_from_elsewhere() {
    let (owners, blocks) = (vec![9; OpenStudy::PLACES], vec![0; OpenStudy::NUMBERS]);
    assert_eq!(
        OpenStudy::from_parts(&owners[1..], &blocks[..]),
        Err(Refusal::Size)
    );
    assert_eq!(
        OpenStudy::from_parts(&owners[..], &blocks[1..]),
        Err(Refusal::Size)
    );
    let mut study = OpenStudy::from_parts(owners, blocks).unwrap();
    // blocks that nobody judged are judged when they are read
    let bad = Refusal::Range(Entry::IdealFlow(EB, Turn::Left));
    assert_eq!(study.read(office(9), 164), Err(bad));
    assert_eq!(study.add(office(9), &plain()), Err(Refusal::Full));
    let (mut owners, blocks) = (study.parts().0.to_vec(), study.parts().1.to_vec());
    owners[164] = 0;
    study = OpenStudy::from_parts(owners, blocks).unwrap();
    assert_eq!(study.add(office(4), &plain()), Ok(164));
    assert_eq!(study.read(office(4), 164), Sheet::fill(&plain()));
    assert_eq!(study.parts().0[163..], [9, 4]);
}

/// Each office adds and reads in a thread of its own; what it reads is what it added and amended.
#[test]
fn threads_behind_a_lock() {
    let study = RwLock::new(OpenStudy::new());
    let work = |number: u32| {
        for lefts in 0..20 {
            let site = study.write().unwrap().add(office(number), &plain());
            let site = site.unwrap();
            let value = 10 * number + lefts;
            let amended = study
                .write()
                .unwrap()
                .amend(office(number), site, LEFTS, value);
            assert_eq!(amended, Ok(()));
            let sheet = study.read().unwrap().read(office(number), site).unwrap();
            assert_eq!(sheet.entry(LEFTS), value);
        }
    };
    thread::scope(|scope| {
        for number in 1..=4 {
            scope.spawn(move || work(number));
        }
    });
    let study = study.into_inner().unwrap();
    for number in 1..=4 {
        let own = study.parts().0.iter().filter(|&&owner| owner == number);
        assert_eq!(own.count(), 20);
    }
}
