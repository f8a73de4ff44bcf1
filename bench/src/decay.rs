//! The decay number by itself: its divisions counted, and its time over every m and over those that pedestrians ask for.

use crate::row;
use crate::timing::{self, Work};
use compare::generate::Rng;
use compare::rules;
use std::hint::black_box;

type Decay = fn(u64) -> u64;

const LIBRARY: Option<Decay> = {
    #[cfg(feature = "decay")]
    let call: Option<Decay> = Some(compare::library::decay_number);
    #[cfg(not(feature = "decay"))]
    let call: Option<Decay> = None;
    call
};

/// From here on it is 0.
const END: u64 = 115_200;
const FOLD: u64 = 7_200;

/// The plain Rust's two ways.
const RUSTS: [(&str, Decay); 2] = [
    ("all terms", rules::decay_of_all_terms),
    ("a stop", rules::decay_with_a_stop),
];

/// How many of the terms 1 to 12 of r are not 0.
fn terms(r: u64) -> u64 {
    let term = |last: &mut u64, k: u64| {
        *last = *last * r / (FOLD * k);
        Some(*last)
    };
    let ends = (1..=12).scan(1_000_000_000, term);
    ends.take_while(|term| *term > 0).count() as u64
}

/// Divisions of terms and of folds, over every m: the mean, and the most for one m.
fn divisions(of_terms: fn(u64) -> u64) -> (f64, u64) {
    let counts = (0..END).map(|m| of_terms(m % FOLD) + m / FOLD);
    let most = counts.clone().max().unwrap_or(0);
    (counts.sum::<u64>() as f64 / END as f64, most)
}

/// Who has to divide to see that a term is 0 divides once more; the library knows from r that the first of a pair is 0.
pub fn count() {
    for (name, (mean, most)) in [
        ("all twelve terms", divisions(|_| 12)),
        (
            "a stop after the division",
            divisions(|r| (terms(r) + 1).min(12)),
        ),
        (
            "a stop before a pair, the library's",
            divisions(|r| terms(r).next_multiple_of(2)),
        ),
    ] {
        println!(
            "divisions of a decay number, {name}: {mean:.2} in the mean of every m, {most} at most"
        );
    }
}

/// What D is asked for by those who cross: a few to many of them, in the usual cycles.
fn walkers(rng: &mut Rng) -> Vec<u64> {
    let mut asked = |_| {
        let (p, cycle) = (
            u64::from(rng.within(5, 250)),
            rng.pick(&[60, 90, 100, 120, 120]),
        );
        [4 * p, p * (cycle - 8), 2 * p * cycle]
    };
    (0..20_000).flat_map(&mut asked).collect()
}

fn mixed(rng: &mut Rng) -> Vec<u64> {
    let mut all: Vec<u64> = (0..END).collect();
    for i in (1..all.len()).rev() {
        all.swap(i, rng.below(i + 1));
    }
    all
}

/// Each by itself: the processor may begin one before the last has ended.
fn apart(call: Decay, all: &[u64]) -> Work<'_> {
    let call = black_box(call);
    Box::new(move || all.iter().map(|m| call(*m) as usize).sum())
}

/// Each waits for the last: what a processor takes that does not work ahead.
fn in_turn(call: Decay, all: &[u64]) -> Work<'_> {
    let call = black_box(call);
    // No decay number has the top bit, so 0 is added; but a processor knows that only once it has the number.
    Box::new(move || all.iter().fold(0, |last, m| call(*m + (last >> 63))) as usize)
}

pub fn time(rng: &mut Rng, rounds: usize) {
    count();
    let sets = [
        ("every m", (0..END).collect()),
        ("mixed", mixed(rng)),
        ("walkers'", walkers(rng)),
    ];
    for (set, all) in &sets {
        // What is timed must also be right.
        let same =
            |m: &u64| LIBRARY.is_none_or(|call| RUSTS.iter().all(|(_, rust)| rust(*m) == call(*m)));
        assert!(all.iter().all(same), "the decay numbers differ");
        for (rust, call) in RUSTS {
            let library = LIBRARY.map(|call| apart(call, all));
            row(
                &format!("decay, {set}; {rust}"),
                timing::both(library, apart(call, all), all.len(), rounds),
            );
            let library = LIBRARY.map(|call| in_turn(call, all));
            row(
                &format!("decay in turn, {set}; {rust}"),
                timing::both(library, in_turn(call, all), all.len(), rounds),
            );
        }
    }
}
