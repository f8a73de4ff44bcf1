//! Every figure the paper gives for K1 to K10, its listing, the book's third and fourth examples, bus gates, measured
//! lane factors, study files of both kinds and two offices' steps in one study, against the plain rules.

use compare::generate::point::{acceptable_point, nearly_point};
use compare::generate::{amendment, laid_out, laid_out_before, Rng};
use compare::rules::*;
use compare::{diamond, open, point};

fn k1() -> [u32; ENTRIES] {
    let mut e = [0; ENTRIES];
    for m in 0..12 {
        e[6 * m..6 * m + 6].copy_from_slice(&match m % 3 {
            0 => [1, 100, 1_900, 4_000, 4_000, 0],
            1 => [1, 400, 1_900, 4_000, 4_000, 0],
            _ => [0, 0, 1_900, 4_000, 4_000, 0],
        });
    }
    for a in 0..4 {
        e[72 + 5 * a..77 + 5 * a].copy_from_slice(&[0, 0, 1, 16_000, 0]);
    }
    e[CYCLE] = 120;
    e
}

fn k2() -> [u32; ENTRIES] {
    let mut e = k1();
    for a in 0..4 {
        put_leg(&mut e, a, [(0, 100), (1, 300), (0, 100)]);
        e[72 + 5 * a] = 1;
    }
    e
}

fn sheet(e: &[u32; ENTRIES]) -> [u32; CELLS] {
    let mut s = [0; CELLS];
    assert_eq!(fill(e, &mut s), ACCEPTED);
    s
}

fn line(s: &[u32; CELLS], a: usize, k: usize) -> u32 {
    s[FIRST_LINE + LINES * a + k - 1]
}

fn with(mut e: [u32; ENTRIES], changes: &[(usize, u32)]) -> [u32; ENTRIES] {
    changes.iter().for_each(|&(at, value)| e[at] = value);
    e
}

#[test]
fn k1_plain() {
    let s = sheet(&k1());
    for a in 0..4 {
        assert_eq!([5, 6].map(|k| line(&s, a, k)), [18_050, 19_000]);
        assert_eq!(
            [13, 16, 14, 17].map(|k| line(&s, a, k)),
            [6_649, 10_649, 25_264, 29_264]
        );
    }
    assert_eq!(
        (s[PAIRS], s[PAIRS + 3], s[PAIRS + 4], s[PAIRS + 7]),
        (39_913, 0, 39_913, 0)
    );
    assert_eq!(s[LAST + 5..], [79_826, 666, 2]);
}

#[test]
fn k2_shared() {
    let s = sheet(&k2());
    for a in 0..4 {
        let lines = [4, 6, 20, 21, 22, 23].map(|k| line(&s, a, k));
        assert_eq!(lines, [9_603, 18_245, 2_000, 29_455, 13_132, 45_690]);
    }
    assert_eq!(s[PAIRS..PAIRS + 4], [BLANK, 49_690, 73_772, 1]);
    assert_eq!(s[LAST + 4..], [99_380, 99_380, 829, 4]);
}

/// The figures that the rules gave before flows were in tenths.
#[test]
fn in_whole_vehicles() {
    let mut s = [0; CELLS];
    assert_eq!(fill_in::<1>(&k2(), &mut s), ACCEPTED);
    let lines = [4, 6, 20, 21, 22, 23].map(|k| line(&s, 0, k));
    assert_eq!(lines, [9_603, 1_824, 2_000, 29_455, 1_312, 45_732]);
    assert_eq!(s[PAIRS..PAIRS + 4], [BLANK, 49_732, 73_790, 1]);
    assert_eq!(fill_in::<1>(&with(k1(), &[(1, 59)]), &mut s), ACCEPTED);
    assert_eq!([5, 13, 23].map(|k| line(&s, 0, k)), [1_805, 3_923, 118_000]);
    assert_eq!(fill_in::<1>(&k1(), &mut s), ACCEPTED);
    assert_eq!(s[LAST + 5..], [79_826, 666, 2]);
}

/// One eastbound approach at a gate, everything else as in K1.
fn gate(ideals: [u32; 3], turns: [(u32, u32); 3], shared: u32) -> [u32; ENTRIES] {
    let mut e = k1();
    put_leg(&mut e, 0, turns);
    for (turn, ideal) in ideals.into_iter().enumerate() {
        e[6 * turn + 2] = ideal;
    }
    e[72] = shared;
    e
}

#[test]
fn bus_gates() {
    let found = |e: &[u32; ENTRIES], lines: &[usize]| -> Vec<u32> {
        let s = sheet(e);
        lines.iter().map(|&k| line(&s, 0, k)).collect()
    };
    // one lane for 17, 110 and 23: fT 9,714, f 9,740, q 1,134, E 316,255
    let e = gate([1_000; 3], [(0, 17), (1, 110), (0, 23)], 1);
    assert_eq!(found(&e, &[6, 8, 9, 22]), [9_714, 9_740, 9_500, 2_171]);
    // 59 lefts in a lane of their own: E 300,000, sA 31.6
    let e = gate([1_000; 3], [(1, 59), (1, 85), (0, 0)], 0);
    assert_eq!(found(&e, &[5, 13, 23]), [9_500, 7_453, 224_051]);
    // three lanes at 1,003, two right lanes at 1,000
    let e = gate([1_003, 1_003, 1_000], [(3, 480), (3, 700), (2, 900)], 0);
    assert_eq!(found(&e, &[5, 6, 7, 15]), [27_756, 27_321, 15_045, 71_785]);
    // two shared lanes, 120 westbound: sB is 9,343 of 18,687
    let mut e = gate([1_000; 3], [(0, 90), (2, 650), (0, 70)], 1);
    e[25] = 120;
    assert_eq!(found(&e, &[6, 8, 23, 24]), [18_687, 18_762, BLANK, 50_068]);
    // 300 lefts of a shared lane at 1,001
    let mut e = gate([1_001, 1_000, 1_000], [(0, 300), (1, 20), (0, 0)], 1);
    e[25] = 120;
    assert_eq!(found(&e, &[9, 24, 27]), [9_509, 45_859, 40_290]);
}

/// Some lines of an approach.
fn lines(e: &[u32; ENTRIES], a: usize, which: &[usize]) -> Vec<u32> {
    let s = sheet(e);
    which.iter().map(|&k| line(&s, a, k)).collect()
}

#[test]
fn measured_lane_factors() {
    // one lane, half used: also where the table would leave it
    let all: Vec<_> = (0..12).map(|m| (6 * m + 5, 500)).collect();
    let half = with(with(k1(), &[(1, 59)]), &all);
    assert_eq!(
        lines(&half, 0, &[5, 6, 7, 8, 9, 13, 14]),
        [9_025, 9_500, 0, 9_500, 9_025, 7_845, 50_527]
    );
    // two lanes of each: 1,900·2·930·9,500, 870·10,000 and 790·8,500, over 10⁶
    let mut two = k1();
    put_leg(&mut two, 0, [(2, 300), (2, 800), (2, 500)]);
    let table = lines(&two, 0, &[5, 6, 7, 8, 9]);
    assert_eq!(table, [35_053, 36_176, 28_585, 36_176, 35_053]);
    let two = with(two, &[(5, 930), (11, 870), (17, 790)]);
    let counted = lines(&two, 0, &[5, 6, 7, 8, 9]);
    assert_eq!(counted, [33_573, 33_060, 25_517, 33_060, 33_573]);
    // four lanes all used alike
    let mut four = k1();
    put_leg(&mut four, 0, [(1, 100), (4, 2_400), (0, 90)]);
    assert_eq!(lines(&with(four, &[(11, 1_000)]), 0, &[6, 8]), [75_582; 2]);
    // movements without lanes: nothing
    let idle = [(17, 500), (35, 500), (53, 1_000)];
    assert_eq!(sheet(&with(k1(), &idle))[ENTRIES..], sheet(&k1())[ENTRIES..]);
}

#[test]
fn lefts_of_a_shared_lane_by_their_own_factor() {
    // 300 lefts and 20 through in one lane, 110 oncoming: 1,900·600·9,500 over 10⁶ is line 9
    let mut e = k1();
    put_leg(&mut e, 0, [(0, 300), (1, 20), (0, 0)]);
    put_leg(&mut e, 1, [(0, 0), (1, 110), (0, 0)]);
    e[72] = 1;
    let own = with(e, &[(5, 600), (11, 900)]);
    assert_eq!(
        lines(&own, 0, &[5, 6, 8, 9, 24, 27]),
        [0, 16_298, 17_100, 10_830, 41_241, 33_241]
    );
    let through = with(e, &[(11, 600)]);
    assert_eq!(
        lines(&through, 0, &[5, 6, 8, 9, 24, 27]),
        [0, 10_865, 11_400, 18_050, 27_945, 35_343]
    );
}

#[test]
fn lane_factors_out_of_range() {
    for m in 0..12 {
        for value in [0, 500, 971, 1_000] {
            assert_eq!(judge(&with(k1(), &[(6 * m + 5, value)])), ACCEPTED);
        }
        for value in [1, 499, 1_001, 971_000, u32::MAX] {
            let answer = judge(&with(k1(), &[(6 * m + 5, value), (CYCLE, 29)]));
            assert_eq!((answer.number, answer.place), (RANGE, 6 * m as u32 + 5));
        }
    }
}

#[test]
fn amended_lane_factors() {
    // a factor reaches what lanes reach, and is the fresh fill there
    for m in 0..12 {
        for value in [500, 871, 1_000, 0] {
            let mut s = sheet(&with(k2(), &[(6 * m + 5, 700)]));
            assert_eq!(amend(&mut s, 6 * m as u32 + 5, value), ACCEPTED);
            assert_eq!(s, sheet(&with(k2(), &[(6 * m + 5, value)])));
        }
        let [mut by_lanes, mut by_factor] = [[7; CELLS]; 2];
        for (s, entry) in [(&mut by_lanes, 6 * m), (&mut by_factor, 6 * m + 5)] {
            s[..ENTRIES].copy_from_slice(&k1());
            assert_eq!(amend(s, entry as u32, k1()[entry]), ACCEPTED);
        }
        assert_eq!(by_lanes, by_factor);
    }
    let mut s = sheet(&k1());
    for (entry, value, number, place) in [(93, 0, ENTRY, 0), (5, 499, RANGE, 5), (92, 29, RANGE, 92)]
    {
        let answer = amend(&mut s, entry, value);
        assert_eq!((answer.number, answer.place), (number, place));
    }
    assert_eq!(s, sheet(&k1()));
}

#[test]
fn k3_walkers() {
    assert_eq!(decay(2 * 60 * 120), 135_335_283);
    let s = sheet(&with(k1(), &[(73, 60), (75, 40_000)]));
    assert_eq!((line(&s, 0, 12), line(&s, 0, 17)), (8_647, 42_007));
}

#[test]
fn k4_to_k6_letters() {
    let empty: Vec<_> = (0..12).map(|m| (6 * m + 1, 0)).collect();
    let s = sheet(&with(k1(), &empty));
    assert_eq!(
        (s[LAST + 6], s[LAST + 7], s[PAIRS + 3], s[PAIRS + 7]),
        (0, 0, 0, 0)
    );
    assert_eq!((letter(550), letter(551)), (0, 1));
}

#[test]
fn k7_to_k10_options() {
    let eb = |changes, k| line(&sheet(&with(k1(), changes)), 0, k);
    assert_eq!(eb(&[(25, 120)], 24), 25_264);
    assert_eq!(eb(&[(25, 121)], 24), BLANK);
    assert_eq!(eb(&[(1, 59)], 5), 18_050);
    assert_eq!(eb(&[(1, 59)], 23), 117_804);
    assert_eq!(eb(&[(1, 60)], 23), BLANK);
}

#[test]
fn the_papers_listing() {
    let mut entries = k1().to_vec();
    entries.extend(with(k1(), &[(CYCLE, 29)]));
    let mut file = vec![0; file_length(2)];
    assert_eq!(study_write(&entries, &mut file), ACCEPTED);
    assert_eq!(listing(&file), b"1 666 C PP\n2 R3 92\n");
    file.pop();
    assert_eq!(
        listing(&file),
        format!("file R6 {}\n", file.len()).as_bytes()
    );
}

/// A site as it stood before lane factors were measured.
fn narrowed(e: &[u32; ENTRIES]) -> Vec<u32> {
    let factor = |place: &usize| *place < OWN && place % MOVEMENT == FACTOR;
    let places = (0..ENTRIES).filter(|place| !factor(place));
    places.map(|place| e[place]).collect()
}

#[test]
fn study_files_of_before() {
    let bad = with(k2(), &[(CYCLE, 29)]);
    let old = laid_out_before(&[narrowed(&k1()), narrowed(&bad)].concat());
    assert_eq!((old.len(), old_file_length(2)), (664, 664));
    assert_eq!(study_check(&old), ACCEPTED);
    assert!(study_is_old(&old) && study_count(&old) == 2);
    assert_eq!(listing(&old), b"1 666 C PP\n2 R3 92\n");
    for (site, wanted) in [k1(), bad].iter().enumerate() {
        let mut entries = [7; ENTRIES];
        assert_eq!(study_site(&old, site as u32, &mut entries), ACCEPTED);
        assert_eq!(entries, *wanted);
    }
    let mut entries = [7; ENTRIES];
    assert_eq!(study_site(&old, 2, &mut entries).place, 4);
    assert_eq!(study_site(&old, 0, &mut [0; OLD_ENTRIES]).number, SIZE);
    assert_eq!(entries, [7; ENTRIES]);
}

#[test]
fn study_files_of_both_kinds() {
    let place = |file: &[u8]| {
        let answer = study_check(file);
        (answer.number, answer.place)
    };
    let full = |sites: usize| laid_out(&k1().repeat(sites));
    let old_full = |sites: usize| laid_out_before(&narrowed(&k1()).repeat(sites));
    assert_eq!((full(165).len(), file_length(165)), (62_048, 62_048));
    assert_eq!((place(&full(165)), place(&full(166))), ((0, 0), (FILE, 4)));
    let old = [180, 181].map(|sites| place(&old_full(sites)));
    assert_eq!(old, [(0, 0), (FILE, 4)]);
    for (file, other) in [(full(2), b"ICUS"), (old_full(2), b"ICUT")] {
        let mut file = file;
        assert_eq!(place(&file[..3]), (FILE, 3));
        assert_eq!(place(&file[..5]), (FILE, 5));
        file[..4].copy_from_slice(other);
        assert_eq!(place(&file), (FILE, 12));
        file[..4].copy_from_slice(b"ICUO");
        assert_eq!(place(&file), (FILE, 0));
    }
    // only today's is written
    let mut out = vec![9; 384 + 5];
    assert_eq!(study_write(&k1(), &mut out), ACCEPTED);
    assert_eq!((&out[..384], &out[384..]), (&full(1)[..], &[9; 5][..]));
    assert_eq!(study_write(&k1(), &mut [0; 383]).place, 4);
    assert_eq!(study_write(&narrowed(&k1()), &mut out).number, SIZE);
    let answer = study_write(&k1().repeat(166), &mut []);
    assert_eq!((answer.number, answer.place), (FILE, 0));
}

/// A T junction whose southbound leg is closed, and people cross there.
fn closed_leg(button: u32) -> [u32; ENTRIES] {
    let lanes_and_volumes = [
        [(0, 0), (1, 400), (1, 90)],
        [(1, 100), (1, 450), (0, 0)],
        [(1, 150), (0, 0), (1, 120)],
        [(0, 0), (1, 0), (0, 0)],
    ];
    let mut e = k1();
    for (a, turns) in lanes_and_volumes.into_iter().enumerate() {
        put_leg(&mut e, a, turns);
    }
    e[87..92].copy_from_slice(&[0, 60, button, 20_000, 0]);
    e
}

#[test]
fn nobody_drives_and_people_cross() {
    for (button, crossing, pair, required) in [
        (0, 24_000, [37_973, 24_000, 37_973, 1], 63_913),
        (1, 21_836, [35_809, 21_973, 35_809, 1], 61_886),
    ] {
        let s = sheet(&closed_leg(button));
        let lines = [14, 17, 25, 26, 27, 28].map(|k| line(&s, 3, k));
        assert_eq!(lines, [0, crossing, 0, crossing, 0, crossing]);
        assert_eq!(s[PAIRS + 4..PAIRS + 8], pair);
        assert_eq!(s[LAST + 5], required);
    }
    // without pedestrians, or without through lanes, all stay 0
    for change in [(88, 0), (60, 0)] {
        let s = sheet(&with(closed_leg(0), &[change]));
        assert_eq!([17, 26, 28].map(|k| line(&s, 3, k)), [0; 3]);
        assert_eq!(s[PAIRS + 4..PAIRS + 8], [13_973, 21_973, 13_973, 0]);
    }
    // lefts alone: line 17 is for those who cross, 26 and 28 go by the lefts
    let s = sheet(&with(closed_leg(0), &[(54, 1), (55, 50)]));
    assert_eq!(line(&s, 3, 17), 24_000);
    assert_eq!([27, 28].map(|k| line(&s, 3, k)), [3_325, 24_000]);
}

/// Lanes and volumes of an approach.
fn put_leg(e: &mut [u32], a: usize, turns: [(u32, u32); 3]) {
    for (turn, (lanes, volume)) in turns.into_iter().enumerate() {
        e[18 * a + 6 * turn] = lanes;
        e[18 * a + 6 * turn + 1] = volume;
    }
}

/// The book's third example, storages cut to whole vehicles.
fn example_3() -> diamond::Record {
    let mut record = [0; diamond::RECORD];
    for side in [0, diamond::EAST] {
        for m in 0..12 {
            record[side + 6 * m + 2..side + 6 * m + 5].copy_from_slice(&[2_000, 4_000, 4_000]);
        }
        record[side + CYCLE] = 120;
    }
    put_leg(&mut record, 0, [(0, 0), (2, 500), (0, 200)]);
    put_leg(&mut record, 1, [(2, 300), (2, 1_100), (0, 0)]);
    put_leg(&mut record, 3, [(2, 500), (1, 10), (0, 500)]);
    let east = &mut record[diamond::EAST..];
    put_leg(east, 1, [(0, 0), (2, 600), (1, 200)]);
    put_leg(east, 0, [(1, 200), (2, 800), (0, 0)]);
    put_leg(east, 2, [(2, 800), (0, 0), (1, 100)]);
    east[72 + 5 + 4] = 1;
    record[diamond::STORAGES..].copy_from_slice(&[19, 19, 26, 26, 7_100]);
    record
}

fn cells(record: &[u32]) -> [u32; diamond::CELLS] {
    let mut cells = [0; diamond::CELLS];
    assert_eq!(diamond::diamond(record, &mut cells), ACCEPTED);
    cells
}

#[test]
fn the_books_third_example() {
    let found = cells(&example_3());
    assert_eq!(found[..7], [27_048, 0, 13_757, 38_664, 20_262, 39_878, 0]);
    assert_eq!(found[7..14], [22_908, 0, 16_632, 29_211, 30_018, 0, 11_059]);
    assert_eq!(found[14..18], [80_683, 69_558, 78_542, 59_229]);
    assert_eq!(found[18..22], [80_683, 69_558, 7_100, 7_100]);
    assert_eq!(found[22..], [105_652, BLANK, BLANK, 0, 105_652, 881, 4]);
}

#[test]
fn storages_allow_plans() {
    let plans = |storages: [u32; 4]| {
        let mut record = example_3();
        record[diamond::STORAGES..diamond::TRAVEL_TIME].copy_from_slice(&storages);
        let found = cells(&record);
        (found[22], found[23], found[24], found[25])
    };
    // x is 10, 6.67, 16.67 and 26.67: 14.04.., 9.97.., 21.89.. and 33.27.. vehicles
    assert_eq!(plans([15, 10, 22, 34]), (105_652, 80_683, 80_683, 1));
    assert_eq!(plans([14, 10, 22, 34]), (105_652, BLANK, 80_683, 2));
    assert_eq!(plans([15, 9, 22, 34]), (105_652, BLANK, 80_683, 2));
    assert_eq!(plans([15, 10, 21, 34]), (105_652, BLANK, BLANK, 0));
    assert_eq!(plans([15, 10, 22, 33]), (105_652, BLANK, BLANK, 0));
}

#[test]
fn a_ratio_of_1_is_not_below_1() {
    // 625 vehicles and 1.28 times their root 25 are 657 on the point
    let (n, storage) = (9_375 * 240, 657);
    assert!(
        !diamond::fits(n, storage)
            && diamond::fits(n, storage + 1)
            && diamond::fits(n - 1, storage)
    );
    for storage in 1..1_000u64 {
        let root = ((1.6384 + 4.0 * storage as f64).sqrt() - 1.28) / 2.0;
        let end = (3_600.0 * root * root) as u64;
        assert!(diamond::fits(end - 1, storage) && !diamond::fits(end + 1, storage));
        assert!(!diamond::fits(3_600 * storage, storage) && diamond::fits(0, storage));
    }
}

#[test]
fn refused_records() {
    let answer = |changes: &[(usize, u32)]| {
        let mut record = example_3();
        changes.iter().for_each(|&(at, value)| record[at] = value);
        let found = diamond::judge(&record);
        (found.number, found.place)
    };
    let (late, shared) = ([(186, 0), (190, 60_001)], [(77, 1), (93 + 72, 1)]);
    assert_eq!(answer(&late), (7, 186));
    assert_eq!(answer(&[(189, 1_000), (190, 60_001)]), (7, 189));
    assert_eq!(answer(&late[1..]), (8, 190));
    assert_eq!(answer(&[(93 + 54, 0), (93 + 55, 1), late[0]]), (5, 21));
    assert_eq!(answer(&[(93 + 36, 0), (18, 0), late[0]]), (5, 3));
    assert_eq!(answer(&[shared[1], (60, 0), late[0]]), (4, 4));
    assert_eq!(answer(&[shared[0], shared[1], (60, 0)]), (4, 1));
    assert_eq!(answer(&[(185, 121), shared[0]]), (3, 185));
    assert_eq!(answer(&[(185, 121), (184, 2)]), (3, 184));
    assert_eq!(answer(&[(92, 121)]), (3, 185));
    assert_eq!(answer(&[(92, 29), (185, 29), (93, 7)]), (3, 92));
    assert_eq!(answer(&[(93, 7), shared[0]]), (3, 93));
    assert_eq!(answer(&[(93 + 11, 499), (185, 121)]), (3, 104));
    assert_eq!(
        diamond::judge(&[0; 190]),
        Answer {
            number: SIZE,
            place: 0
        }
    );
    let mut short = [7; 28];
    assert_eq!(diamond::diamond(&example_3(), &mut short).number, SIZE);
    assert_eq!(short, [7; 28]);
}

/// An open study, and what a call gives back of it.
struct Shared {
    owners: Vec<u32>,
    blocks: Vec<u32>,
    place: u32,
}

impl Shared {
    /// Free places that hold anything.
    fn new() -> Shared {
        Shared {
            owners: vec![0; open::PLACES],
            blocks: vec![7; open::BLOCKS],
            place: 999,
        }
    }

    fn add(&mut self, office: u32, entries: &[u32]) -> (u32, u32) {
        let (owners, blocks) = (&mut self.owners, &mut self.blocks);
        let answer = open::add(owners, blocks, office, entries, &mut self.place);
        (answer.number, answer.place)
    }

    fn amend(&mut self, office: u32, site: u32, entry: u32, value: u32) -> (u32, u32) {
        let change = (entry, value);
        let answer = open::amend(&self.owners, &mut self.blocks, office, site, change);
        (answer.number, answer.place)
    }

    fn read(&self, office: u32, site: u32) -> Result<[u32; CELLS], (u32, u32)> {
        let mut sheet = [5; CELLS];
        let answer = open::read(&self.owners, &self.blocks, office, site, &mut sheet);
        match answer {
            ACCEPTED => Ok(sheet),
            _ if sheet != [5; CELLS] => panic!("a refused read wrote the sheet"),
            _ => Err((answer.number, answer.place)),
        }
    }
}

#[test]
fn two_offices_in_one_study() {
    let mut study = Shared::new();
    assert_eq!((study.add(1, &k1()), study.place), ((0, 0), 0));
    assert_eq!((study.add(2, &k2()), study.place), ((0, 0), 1));
    assert_eq!((study.owners[..3]).to_vec(), [1, 2, 0]);
    assert_eq!(
        study.blocks[2 * ENTRIES..],
        vec![7; open::BLOCKS][2 * ENTRIES..]
    );
    assert_eq!(study.amend(1, 0, 1, 59), (0, 0));
    assert_eq!(study.read(1, 0), Ok(sheet(&with(k1(), &[(1, 59)]))));
    assert_eq!(study.read(2, 1), Ok(sheet(&k2())));
    assert_eq!(study.amend(2, 0, 1, 60), (open::OWNER, 0));
    assert_eq!(study.read(1, 1), Err((open::OWNER, 1)));
    // a place that became free is the lowest again
    study.owners[0] = 0;
    assert_eq!((study.add(u32::MAX, &k1()), study.place), ((0, 0), 0));
    assert_eq!(study.read(1, 0), Err((open::OWNER, 0)));
}

#[test]
fn refused_in_order() {
    let mut study = Shared::new();
    assert_eq!(study.add(1, &k1()), (0, 0));
    let bad = with(k1(), &[(CYCLE, 29)]);
    assert_eq!(study.add(0, &bad), (open::OWNER, 0));
    assert_eq!(study.add(1, &bad), (RANGE, 92));
    assert_eq!(study.add(0, &bad[..92]), (SIZE, 0));
    assert_eq!(study.add(1, &narrowed(&k1())), (SIZE, 0));
    for site in [1, 165, u32::MAX] {
        assert_eq!(study.amend(1, site, CYCLE as u32, 29), (open::OWNER, site));
        assert_eq!(study.amend(0, site, 93, 0), (ENTRY, 0));
        assert_eq!(study.read(1, site), Err((open::OWNER, site)));
        assert_eq!(study.read(0, site), Err((open::OWNER, site)));
    }
    assert_eq!(study.amend(1, 0, 72, 1), (SHARED, 0));
    assert_eq!(study.amend(1, 0, 42, 0), (NOLANE, 7));
    assert_eq!(study.amend(1, 0, 5, 499), (RANGE, 5));
    study.blocks[3] = 20_001;
    assert_eq!(study.amend(1, 0, CYCLE as u32, 90), (RANGE, 3));
    assert_eq!(study.read(1, 0), Err((RANGE, 3)));
    assert_eq!(study.amend(1, 0, 3, 4_000), (0, 0));
    study.owners.fill(9);
    study.place = 999;
    assert_eq!(study.add(1, &k1()), (open::FULL, 0));
    assert_eq!(study.add(1, &bad), (RANGE, 92));
    assert_eq!(study.place, 999);
    study.owners.push(0);
    assert_eq!(study.add(1, &k1()), (SIZE, 0));
    assert_eq!(study.amend(9, 0, 93, 0), (SIZE, 0));
    assert_eq!(study.read(9, 0), Err((SIZE, 0)));
}

/// The book's fourth example; of its free rights those that line 27 shows.
fn example_4() -> [u32; ENTRIES] {
    let mut e = point::START;
    put_leg(&mut e, 0, [(2, 500), (3, 2_200), (1, 300)]);
    put_leg(&mut e, 1, [(2, 700), (3, 1_500), (1, 800)]);
    put_leg(&mut e, 2, [(2, 800), (0, 0), (1, 200)]);
    put_leg(&mut e, 3, [(2, 900), (0, 0), (2, 800)]);
    (0..12).for_each(|m| e[6 * m + 4] = 8_000);
    e[72..92].copy_from_slice(&[
        0, 12, 1, 24_000, 1, 0, 0, 1, 24_000, 0, 0, 0, 0, 20_000, 0, 0, 0, 0, 20_000, 1,
    ]);
    e
}

fn point_sheet(e: &[u32]) -> point::Sheet {
    let mut s = [0; point::CELLS];
    assert_eq!(point::fill(e, &mut s), ACCEPTED);
    s
}

fn point_lines(s: &point::Sheet, a: usize, which: &[usize]) -> Vec<u32> {
    which.iter().map(|k| s[93 + 18 * a + k - 1]).collect()
}

#[test]
fn the_books_fourth_example() {
    let s = point_sheet(&example_4());
    let flows = [5, 6, 7, 8, 9];
    assert_eq!(point_lines(&s, 0, &flows), [36_898, 54_480, 17_000, 54_480, 36_898]);
    assert_eq!(point_lines(&s, 3, &flows), [36_898, 0, 30_090, 0, 36_898]);
    // the book works out EBR's interference, and leaves it out of its time
    assert_eq!(point_lines(&s, 0, &[10, 11, 12]), [1_469, 0, 3_297]);
    for (a, times) in [
        [16_262, 48_459, 22_646, 24_262, 54_459, 28_646],
        [22_766, 33_040, 56_471, 30_766, 39_040, 62_471],
        [26_018, 0, 14_118, 34_018, 0, 20_118],
        [29_270, 0, 31_905, 37_270, 0, 37_905],
    ]
    .into_iter()
    .enumerate()
    {
        assert_eq!(point_lines(&s, a, &[13, 14, 15, 16, 17, 18]), times);
    }
    assert_eq!(s[165..167], [85_225, 37_270]);
    assert_eq!(s[167..171], [28_646, 86_733, 111_847, 37_905]);
    assert_eq!(s[171..], [122_495, 122_495, 1_021, 6]);
}

#[test]
fn starting_entries() {
    let mut e = [7; ENTRIES];
    assert_eq!(point::start(&mut e), ACCEPTED);
    for m in 0..12 {
        let lost = if m % 3 == 0 { 8_000 } else { 6_000 };
        assert_eq!(e[6 * m..6 * m + 6], [0, 0, 2_000, lost, 0, 0]);
    }
    assert_eq!((&e[72..92], e[CYCLE]), (&[0; 20][..], 120));
    assert_eq!(point_sheet(&e)[165..], [0; 10]);
    for length in [0, 92, 94, 175] {
        let mut list = vec![7; length];
        assert_eq!(point::start(&mut list).number, SIZE);
        assert_eq!(list, vec![7; length]);
    }
}

/// One vehicle on a lane for each time, which is its minimum green; nobody for a time of 0.
fn greens(times: [u32; 12]) -> [u32; ENTRIES] {
    let mut e = point::START;
    for (m, time) in times.into_iter().enumerate() {
        let one = u32::from(time > 0);
        e[6 * m..6 * m + 6].copy_from_slice(&[one, one, 2_000, 0, time, 0]);
    }
    e[CYCLE] = 100;
    e
}

#[test]
fn what_rights_wait_for() {
    // no two sums of these are alike
    let times = [
        10_001, 20_003, 4_007, 8_009, 16_033, 32_063, 11_511, 13_023, 6_047, 9_067, 18_121, 5_003,
    ];
    let [ebl, ebt, ebr, wbl, wbt, wbr, nbl, nbt, nbr, sbl, sbt, sbr] = times;
    let s = point_sheet(&greens(times));
    assert_eq!(s[165..167], [wbl + ebt, nbl + sbt]);
    let rights = [ebr + sbt + wbl, wbr + nbt + ebl, nbr + ebt + sbl, sbr + wbt + nbl];
    assert_eq!(s[167..171], rights);
    let combined = wbl + ebt + nbl + sbt;
    assert_eq!(s[171..], [combined, combined, combined.div_ceil(100), 1]);
    for a in 0..4 {
        // free: the right turn alone; without volume: nothing
        let s = point_sheet(&with(greens(times), &[(76 + 5 * a, 1)]));
        assert_eq!(s[167 + a], times[3 * a + 2]);
        let s = point_sheet(&with(greens(times), &[(18 * a + 13, 0)]));
        assert_eq!(s[167 + a], 0);
    }
    // a right that decides, and one that is as long as combined
    let s = point_sheet(&with(greens(times), &[(5 * 6 + 4, 60_000)]));
    assert_eq!((s[172], s[173]), (60_000 + nbt + ebl, 831));
    let mut tie = [0; 12];
    (tie[2], tie[3], tie[7]) = (30_000, 10_000, 30_000);
    assert_eq!(point_sheet(&greens(tie))[167..], [40_000, 0, 0, 0, 40_000, 40_000, 400, 0]);
}

#[test]
fn refused_single_points() {
    let answer = |changes: &[(usize, u32)]| {
        let found = point::judge(&with(example_4(), changes));
        (found.number, found.place)
    };
    let no_lane = (6, 0);
    for a in 0..4 {
        assert_eq!(answer(&[(72 + 5 * a, 1), no_lane]), (SHARED, a as u32));
        assert_eq!(answer(&[(87, 1), (72 + 5 * a, 1)]), (SHARED, a as u32));
        assert_eq!(answer(&[(72, 1), (72 + 5 * a, 2)]), (RANGE, 72 + 5 * a as u32));
    }
    assert_eq!(answer(&[no_lane]), (NOLANE, 1));
    assert_eq!(answer(&[(54, 0), (66, 0)]), (NOLANE, 9));
    assert_eq!(answer(&[(66, 0)]), (NOLANE, 11));
    assert_eq!(answer(&[(5, 499), (72, 1)]), (RANGE, 5));
    assert_eq!(answer(&[(CYCLE, 241), no_lane]), (RANGE, 92));
    // a lane that a junction may share
    assert_eq!((judge(&k2()), point::judge(&k2()).number), (ACCEPTED, SHARED));
    for (entries, cells) in [(92, 175), (94, 175), (81, 175), (93, 174), (93, 176), (93, 221)] {
        let mut e = example_4().to_vec();
        e.resize(entries, 0);
        let mut s = vec![7; cells];
        assert_eq!(point::fill(&e, &mut s).number, SIZE);
        assert_eq!(s, vec![7; cells]);
    }
}

#[test]
fn lines_of_a_junction() {
    let mut rng = Rng::new(175);
    let (mut protected, mut others) = (0, 0);
    for _ in 0..2_000 {
        let e = acceptable_point(&mut rng);
        let (s, j) = (point_sheet(&e), sheet(&e));
        for a in 0..4 {
            let first = FIRST_LINE + LINES * a;
            assert_eq!(s[93 + 18 * a..111 + 18 * a], j[first..first + 18]);
        }
        assert_eq!([s[165], s[166]], [j[PAIRS], j[PAIRS + 4]]);
        if (j[PAIRS + 3], j[PAIRS + 7]) == (0, 0) {
            assert_eq!(s[167..], j[LAST..]);
            protected += 1;
        } else {
            others += 1;
        }
    }
    assert!(protected > 300 && others > 300, "{protected} and {others}");
}

/// The lines of the own approach that a kind of entry reaches, six kinds of a movement and five of an approach.
fn reached(kind: usize) -> Vec<usize> {
    match kind {
        0 | 1 | 2 | 5 | 6 => (1..19).collect(),
        3 | 4 => vec![16, 17, 18],
        7 => vec![10, 11, 12, 14, 15, 17, 18],
        8 => vec![12, 17],
        9 => vec![17],
        _ => vec![],
    }
}

/// The cells that an entry reaches, itself among them.
fn point_reach(entry: usize) -> Vec<usize> {
    let mut cells = vec![entry];
    if entry == CYCLE {
        cells.extend(93..175);
        return cells;
    }
    let (kind, a) = match entry < 72 {
        true => (entry % 6, entry / 18),
        false => (6 + (entry - 72) % 5, (entry - 72) / 5),
    };
    cells.extend(reached(kind).iter().map(|line| 92 + 18 * a + line));
    if kind != 10 {
        cells.push(165 + a / 2);
    }
    cells.extend(167..175);
    cells
}

#[test]
fn amended_single_points() {
    // on a sheet of sevens, what is reached is fresh and all else stays
    let fresh = point_sheet(&example_4());
    for entry in 0..ENTRIES {
        let mut s = [7; point::CELLS];
        s[..ENTRIES].copy_from_slice(&example_4());
        let mut wanted = s;
        point_reach(entry).iter().for_each(|&at| wanted[at] = fresh[at]);
        assert_eq!(point::amend(&mut s, entry as u32, example_4()[entry]), ACCEPTED);
        assert_eq!(s, wanted);
    }
    // a shared lane typed off
    let mut s = fresh;
    s[77] = 1;
    let place = |answer: Answer| (answer.number, answer.place);
    assert_eq!(place(point::amend(&mut s, 92, 90)), (SHARED, 1));
    assert_eq!((place(point::amend(&mut s, 77, 0)), s), ((0, 0), fresh));
    for (entry, value, answer) in [
        (93, 0, (ENTRY, 0)),
        (u32::MAX, 0, (ENTRY, 0)),
        (87, 1, (SHARED, 3)),
        (87, 2, (RANGE, 87)),
        (43, 1, (NOLANE, 7)),
        (5, 1_001, (RANGE, 5)),
    ] {
        assert_eq!((place(point::amend(&mut s, entry, value)), s), (answer, fresh));
    }
    assert_eq!(point::amend(&mut sheet(&k1()), 0, 1).number, SIZE);
    assert_eq!(point::amend(&mut s[..174], 93, 1).number, SIZE);
}

#[test]
fn amended_as_filled_afresh() {
    let mut rng = Rng::new(167);
    let (mut accepted, mut refused) = (0, 0);
    while accepted < 3_000 {
        let mut s = point_sheet(&acceptable_point(&mut rng));
        for _ in 0..10 {
            let ((entry, value), before) = (amendment(&mut rng), s);
            if point::amend(&mut s, entry, value) != ACCEPTED {
                assert_eq!(s, before);
                refused += 1;
                continue;
            }
            let mut e = [0; ENTRIES];
            e.copy_from_slice(&before[..ENTRIES]);
            assert_eq!(s, point_sheet(&with(e, &[(entry as usize, value)])));
            accepted += 1;
        }
    }
    assert!(refused > 300);
    // what is nearly one comes with each refusal
    let mut numbers = [0; 6];
    for _ in 0..2_000 {
        numbers[point::judge(&nearly_point(&mut rng)).number as usize] += 1;
    }
    assert!([0, RANGE, SHARED, NOLANE].iter().all(|&number| numbers[number as usize] > 20));
}
