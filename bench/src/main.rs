//! Times the library beside the plain Rust rules: `bench [ROUNDS]`.

#![forbid(unsafe_code)]

mod decay;
mod junctions;
mod open;
mod point;
mod steps;
mod timing;

use compare::diamond::{self, Record};
use compare::generate::{laid_out, laid_out_before, Entries, Rng};
use compare::rules::{self, Answer, CELLS, OLD_SITES, SITES};
use std::hint::black_box;
use steps::{Step, NAMES};
use timing::{Times, Work};

type Fill = fn(&[u32], &mut [u32]) -> Answer;
type Amend = fn(&mut [u32], u32, u32) -> Answer;
type List = fn(&[u8], &mut [u8], &mut u32) -> Answer;

const FILL: Option<Fill> = {
    #[cfg(feature = "fill")]
    let call: Option<Fill> = Some(compare::library::fill);
    #[cfg(not(feature = "fill"))]
    let call: Option<Fill> = None;
    call
};

const AMEND: Option<Amend> = {
    #[cfg(feature = "amend")]
    let call: Option<Amend> = Some(compare::library::amend);
    #[cfg(not(feature = "amend"))]
    let call: Option<Amend> = None;
    call
};

const LIST: Option<List> = {
    #[cfg(feature = "study")]
    let call: Option<List> = Some(compare::library::study_list);
    #[cfg(not(feature = "study"))]
    let call: Option<List> = None;
    call
};

const DIAMOND: Option<Fill> = {
    #[cfg(feature = "diamond")]
    let call: Option<Fill> = Some(compare::library::diamond);
    #[cfg(not(feature = "diamond"))]
    let call: Option<Fill> = None;
    call
};

fn row(name: &str, times: Times) {
    let shown = |number: Option<f64>, digits: usize| {
        number.map_or_else(|| "-".to_string(), |number| format!("{number:.digits$}"))
    };
    let (library, ratio) = (shown(times.library, 1), shown(times.ratio, 2));
    println!("{name:<36}{library:>12}{:>12.1}{ratio:>9}", times.rust);
}

/// Fills a sheet of N cells from each.
fn filling<const N: usize>(call: Fill, mix: &[Entries]) -> Work<'_> {
    let mut sheet = [0; N];
    Box::new(move || {
        let filled = |e: &&Entries| call(black_box(*e), black_box(&mut sheet)) == rules::ACCEPTED;
        mix.iter().filter(filled).count()
    })
}

/// The calls for a sheet of N cells: the library's, where they are built in, and the plain Rust's.
struct Calls<const N: usize> {
    fill: (Option<Fill>, Fill),
    amend: (Option<Amend>, Amend),
}

const JUNCTION: Calls<CELLS> = Calls {
    fill: (FILL, rules::fill),
    amend: (AMEND, rules::amend),
};

fn amending<'a, const N: usize>(
    call: Amend,
    sheets: &'a mut [[u32; N]],
    steps: &'a [Step],
) -> Work<'a> {
    Box::new(move || steps::take(sheets, black_box(steps), call))
}

impl<const N: usize> Calls<N> {
    fn time_fill(&self, name: &str, mix: &[Entries], rounds: usize) {
        let (library, rust) = self.fill;
        let library = library.map(|call| filling::<N>(call, mix));
        let rust = filling::<N>(rust, mix);
        row(name, timing::both(library, rust, mix.len(), rounds));
    }

    fn time_amend(&self, name: &str, mix: &[Entries], steps: &[Step], rounds: usize) {
        let sheets = || junctions::sheets::<N>(mix, self.fill.1);
        let ((library, rust), mut theirs, mut ours) = (self.amend, sheets(), sheets());
        assert_eq!(
            steps::take(&mut ours, steps, rust),
            0,
            "an amendment was refused"
        );
        let library = library.map(|call| amending(call, &mut theirs, steps));
        let rust = amending(rust, &mut ours, steps);
        row(name, timing::both(library, rust, steps.len(), rounds));
        // What was timed must also have been right.
        assert!(theirs == ours, "the sheets differ after {name}");
    }
}

fn listing(call: List, file: &[u8]) -> Work<'_> {
    let (mut out, mut length) = (vec![0; 65_536], 0);
    Box::new(move || {
        call(black_box(file), black_box(&mut out), &mut length);
        length as usize
    })
}

fn time_list(name: &str, file: &[u8], rounds: usize) {
    let library = LIST.map(|call| listing(call, file));
    row(
        name,
        timing::both(library, listing(rules::study_list, file), 1, rounds),
    );
}

/// As many sites as a study file holds, and as many as one of before.
fn time_lists(mix: &[Entries], rounds: usize) {
    let file = laid_out(&mix[..SITES].concat());
    time_list(&format!("list of {SITES} sites"), &file, rounds);
    let blocks: Vec<_> = mix[..OLD_SITES].iter().map(junctions::of_before).collect();
    let file = laid_out_before(&blocks.concat());
    time_list(
        &format!("list of {OLD_SITES} sites of before"),
        &file,
        rounds,
    );
}

fn crossing(call: Fill, records: &[Record]) -> Work<'_> {
    let mut cells = [0; diamond::CELLS];
    Box::new(move || {
        let rated = |r: &&Record| call(black_box(*r), black_box(&mut cells)) == rules::ACCEPTED;
        records.iter().filter(rated).count()
    })
}

fn rated(call: Fill, record: &Record) -> [u32; diamond::CELLS] {
    let mut cells = [0; diamond::CELLS];
    call(record, &mut cells);
    cells
}

fn time_diamond(name: &str, records: &[Record], rounds: usize) {
    // What is timed must also be right.
    let same = |r: &Record| DIAMOND.is_none_or(|call| rated(call, r) == rated(diamond::diamond, r));
    assert!(records.iter().all(same), "the cells differ in {name}");
    let library = DIAMOND.map(|call| crossing(call, records));
    let rust = crossing(diamond::diamond, records);
    row(name, timing::both(library, rust, records.len(), rounds));
}

/// The library's records beside its own fills of the same junctions.
fn time_record_in_fills(records: &[Record], rounds: usize) {
    let (Some(rate), Some(fill)) = (DIAMOND, FILL) else {
        return;
    };
    let halves = |r: &Record| [*diamond::junction(r, 0), *diamond::junction(r, 1)];
    let junctions: Vec<Entries> = records.iter().flat_map(halves).collect();
    let times = timing::both(
        Some(crossing(rate, records)),
        filling::<CELLS>(fill, &junctions),
        records.len(),
        rounds,
    );
    // A round rates each record once and fills its two junctions.
    let fills = times.ratio.map_or(0.0, |ratio| 2.0 * ratio);
    println!("a record takes {fills:.2} of the library's fills, at most 2.2 are asked for");
}

fn main() {
    let rounds = std::env::args()
        .nth(1)
        .and_then(|word| word.parse().ok())
        .unwrap_or(401);
    let mut rng = Rng::new(2003);
    let quiet = junctions::mix(&mut rng, 200, false);
    let walked = junctions::mix(&mut rng, 200, true);
    let mix: Vec<Entries> = quiet
        .iter()
        .zip(&walked)
        .flat_map(|(x, y)| [*x, *y])
        .collect();
    println!(
        "{:<36}{:>12}{:>12}{:>9}",
        "ns per call, medians", "library", "Rust", "ratio"
    );
    JUNCTION.time_fill("fill, no pedestrians", &quiet, rounds);
    JUNCTION.time_fill("fill, pedestrians", &walked, rounds);
    JUNCTION.time_fill("fill, mix", &mix, rounds);
    for (kind, name) in NAMES.iter().enumerate() {
        let steps = steps::of_kind(&mut rng, &mix, kind);
        JUNCTION.time_amend(&format!("amend {name}"), &mix, &steps, rounds);
    }
    let steps = steps::of_all_kinds(&mut rng, &mix);
    JUNCTION.time_amend("amend, mix of all kinds", &mix, &steps, rounds);
    point::time(&quiet, &walked, &mix, rounds);
    time_lists(&mix, rounds);
    for (name, mix) in [
        ("diamond, no pedestrians", &quiet),
        ("diamond, pedestrians", &walked),
        ("diamond, mix", &mix),
    ] {
        let records = junctions::records(&mut rng, mix);
        time_diamond(name, &records, rounds);
        time_record_in_fills(&records, rounds);
    }
    open::time(&mut rng, &mix, rounds);
    decay::time(&mut rng, rounds);
}
