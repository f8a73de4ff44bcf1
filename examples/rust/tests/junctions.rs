//! The wrapper's names and types against figures known for two junctions.

mod common;

use common::{junction, plain};
use icu::{study, Approach, Entries, Entry, LaneFactor, Pair, Phasing, Refusal, Sheet, Turn};

#[test]
fn a_plain_junction() {
    let sheet = Sheet::fill(&plain()).unwrap();
    assert_eq!(
        (sheet.required(), sheet.icu(), sheet.letter()),
        (79_826, 666, 'C')
    );
    assert_eq!(sheet.picked(Pair::NorthSouth), Phasing::Protected);
    assert_eq!(
        sheet.total(Pair::EastWest, Phasing::Protected),
        Some(39_913)
    );
    assert_eq!(sheet.total(Pair::EastWest, Phasing::Permitted), None);
    assert_eq!(sheet.line(Approach::Southbound, 17), Some(29_264));
    assert_eq!(sheet.line(Approach::Southbound, 29), None);
    assert_eq!(sheet.entries(), plain());
}

#[test]
fn shared_lanes() {
    let sheet = Sheet::fill(&junction([0, 1, 0], [100, 300, 100], 1)).unwrap();
    assert_eq!((sheet.icu(), sheet.letter()), (829, 'E'));
    assert_eq!(sheet.total(Pair::EastWest, Phasing::Protected), None);
    assert_eq!(sheet.picked(Pair::EastWest), Phasing::Permitted);
    assert_eq!(sheet.line(Approach::Eastbound, 23), Some(45_690));
}

#[test]
fn flows_have_their_unit() {
    let eb = Approach::Eastbound;
    let shared = Sheet::fill(&junction([0, 1, 0], [100, 300, 100], 1)).unwrap();
    let flows: Vec<_> = (0..=30).filter_map(|k| shared.flow(eb, k)).collect();
    assert_eq!(
        flows.iter().map(|f| f.tenths()).collect::<Vec<_>>(),
        [0, 18_245, 0, 18_287, 18_050, 13_132]
    );
    let through = shared.flow(eb, 6).unwrap();
    assert_eq!((through.whole(), through.to_string().as_str()), (1_824, "1824.5"));
    assert_eq!(shared.line(eb, 6), Some(through.tenths()));
    let plain = Sheet::fill(&plain()).unwrap();
    assert_eq!([5, 6].map(|k| plain.flow(eb, k).unwrap().tenths()), [18_050, 19_000]);
    assert_eq!([2, 13, 23].map(|k| plain.flow(eb, k)), [None; 3]);
}

fn measured(thousandths: u32) -> LaneFactor {
    LaneFactor::from_thousandths(thousandths).unwrap()
}

#[test]
fn lane_factors_have_their_unit() {
    for good in [0, 500, 971, 1_000] {
        assert_eq!(measured(good).thousandths(), good);
        assert_eq!(measured(good).is_measured(), good > 0);
    }
    for bad in [1, 499, 1_001, u32::MAX] {
        assert_eq!(LaneFactor::from_thousandths(bad), None);
    }
    assert_eq!(LaneFactor::default(), LaneFactor::TABLE);
    let texts = [971, 500, 1_000, 0].map(|number| measured(number).to_string());
    assert_eq!(texts, ["0.971", "0.500", "1.000", "the table's"]);
    let (eb, left) = (Approach::Eastbound, Turn::Left);
    let mut entries = plain();
    assert_eq!(entries.lane_factor(eb, left), Some(LaneFactor::TABLE));
    entries.set_lane_factor(eb, left, measured(971));
    assert_eq!(entries.get(Entry::LaneFactor(eb, left)), 971);
    entries.set(Entry::LaneFactor(eb, left), 97);
    assert_eq!(entries.lane_factor(eb, left), None);
    let refused = Refusal::Range(Entry::LaneFactor(eb, left));
    assert_eq!(Sheet::fill(&entries), Err(refused));
    assert_eq!(
        refused.to_string(),
        "LaneFactor(Eastbound, Left) is out of range"
    );
}

#[test]
fn measured_lane_use() {
    let (eb, left, through) = (Approach::Eastbound, Turn::Left, Turn::Through);
    let flows = |sheet: &Sheet| [5, 6, 8, 9].map(|k| sheet.flow(eb, k).unwrap().tenths());
    let mut sheet = Sheet::fill(&plain()).unwrap();
    assert_eq!(flows(&sheet), [18_050, 19_000, 19_000, 18_050]);
    // also of one lane
    for (turn, factor) in [(left, 900), (through, 800)] {
        let value = measured(factor).thousandths();
        sheet.amend(Entry::LaneFactor(eb, turn), value).unwrap();
    }
    assert_eq!(flows(&sheet), [16_245, 15_200, 15_200, 16_245]);
    let mut changed = plain();
    changed
        .set_lane_factor(eb, left, measured(900))
        .set_lane_factor(eb, through, measured(800));
    assert_eq!(sheet, Sheet::fill(&changed).unwrap());
    // a shared lane's lefts, which have no lane of their own
    let mut shared = junction([0, 2, 0], [100, 300, 0], 1);
    shared.set_lane_factor(eb, left, measured(800));
    assert_eq!(flows(&Sheet::fill(&shared).unwrap())[3], 14_440);
    // back to the table's
    for turn in [left, through] {
        let value = LaneFactor::TABLE.thousandths();
        sheet.amend(Entry::LaneFactor(eb, turn), value).unwrap();
    }
    assert_eq!(sheet, Sheet::fill(&plain()).unwrap());
}

#[test]
fn amended_as_filled_afresh() {
    let mut sheet = Sheet::fill(&plain()).unwrap();
    let count = Entry::Volume(Approach::Westbound, Turn::Through);
    sheet.amend(count, 120).unwrap();
    assert_eq!(sheet.line(Approach::Eastbound, 24), Some(25_264));
    let mut changed = plain();
    changed.set(count, 120);
    assert_eq!(sheet, Sheet::fill(&changed).unwrap());
}

#[test]
fn refusals_have_names() {
    let refused = |entry, value| {
        let mut sheet = Sheet::fill(&plain()).unwrap();
        let before = sheet.clone();
        let answer = sheet.amend(entry, value);
        assert_eq!(sheet, before);
        answer.unwrap_err()
    };
    let (sb, left) = (Approach::Southbound, Turn::Left);
    assert_eq!(refused(Entry::Cycle, 29), Refusal::Range(Entry::Cycle));
    assert_eq!(refused(Entry::SharedLane(sb), 1), Refusal::Shared(sb));
    assert_eq!(
        refused(Entry::Lanes(sb, left), 0),
        Refusal::NoLane(sb, left)
    );
    assert_eq!(
        Sheet::fill(&Entries::new()).unwrap_err().to_string(),
        "IdealFlow(Eastbound, Left) is out of range"
    );
}

#[test]
fn places_and_names_agree() {
    for place in 0..Entries::COUNT {
        assert_eq!(Entry::at(place).map(Entry::place), Some(place));
    }
    assert_eq!(Entry::at(Entries::COUNT), None);
}

#[test]
fn study_files() {
    let mut short = plain();
    short.set(Entry::Cycle, 29);
    let file = study::write(&[plain(), short.clone()]).unwrap();
    assert_eq!(study::count(&file), Ok(2));
    assert_eq!(study::site(&file, 1), Ok(short));
    assert_eq!(study::site(&file, 2), Err(Refusal::File(4)));
    assert_eq!(study::list(&file).unwrap(), "1 666 C PP\n2 R3 92\n");
    assert_eq!(study::count(&file[..759]), Err(Refusal::File(759)));
    assert_eq!(study::list(&file[..3]).unwrap(), "file R6 3\n");
    assert_eq!(study::write(&[]).unwrap(), b"ICUT\0\0\0\0");
    let most = study::write(&vec![plain(); study::SITES]).unwrap();
    assert_eq!((most.len(), study::count(&most)), (62_048, Ok(165)));
    assert_eq!(study::write(&vec![plain(); 166]), Err(Refusal::File(0)));
}

/// A file of before: no block has its lane factors.
fn before(sites: &[Entries]) -> Vec<u8> {
    let measured = |place| matches!(Entry::at(place), Some(Entry::LaneFactor(..)));
    let places: Vec<usize> = (0..Entries::COUNT).filter(|&at| !measured(at)).collect();
    let k = sites.len();
    let offsets = (0..k).map(|j| (8 + 4 * k + 4 * places.len() * j) as u32);
    let blocks = sites
        .iter()
        .flat_map(|site| places.iter().map(|&place| site.numbers()[place]));
    let numbers = [k as u32].into_iter().chain(offsets).chain(blocks);
    let bytes = numbers.flat_map(u32::to_le_bytes);
    b"ICUS".iter().copied().chain(bytes).collect()
}

#[test]
fn study_files_of_before() {
    let eb = Approach::Eastbound;
    let (mut short, mut counted) = (plain(), plain());
    short.set(Entry::Cycle, 29);
    counted.set_lane_factor(eb, Turn::Left, measured(900));
    let file = before(&[counted, short.clone()]);
    assert_eq!((file.len(), study::count(&file)), (664, Ok(2)));
    // the factor was not kept, so it is the table's
    assert_eq!(study::site(&file, 0), Ok(plain()));
    assert_eq!(study::site(&file, 1), Ok(short.clone()));
    assert_eq!(study::list(&file).unwrap(), "1 666 C PP\n2 R3 92\n");
    let today = study::write(&[plain(), short]).unwrap();
    assert_eq!(study::list(&today), study::list(&file));
    let full = before(&vec![plain(); study::SITES_BEFORE]);
    assert_eq!(study::count(&full), Ok(180));
    assert_eq!(study::list(&full).unwrap().lines().count(), 180);
    let more = before(&vec![plain(); 181]);
    assert_eq!(study::count(&more), Err(Refusal::File(4)));
    let other = [b"ICUU", &file[4..]].concat();
    assert_eq!(study::count(&other), Err(Refusal::File(0)));
}
