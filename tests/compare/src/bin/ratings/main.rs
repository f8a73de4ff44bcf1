//! What the unit of the flows does to the ratings. Each junction is rated with flows in whole vehicles per hour, as the rules read
//! before, and in tenths, as they read now: `ratings N [SEED]` for N everyday junctions, N with a bus gate and N full of corners, and
//! `ratings search N [SEED]` to look for the largest falls and rises, N steps for each. Lane factors are the table's, as they were
//! when the unit changed. No library is needed.

#![forbid(unsafe_code)]

mod everyday;
mod measure;
mod search;

use compare::generate::{by_table, Entries, Rng};
use measure::{Rated, Set};
use std::process::ExitCode;

const USAGE: &str = "usage: ratings N [SEED], or ratings search N [SEED]";
const SEED: u64 = 2003;

type Make = fn(&mut Rng) -> Entries;
const SETS: [(&str, Make); 3] = [
    ("everyday junctions", everyday::junction),
    ("everyday junctions with a bus gate", everyday::gated),
    ("junctions full of corners", by_table),
];

/// So many junctions of a kind, rated.
fn rate(rng: &mut Rng, count: u64, junction: Make) -> Set {
    let mut set = Set::default();
    for _ in 0..count {
        // All kinds are acceptable by the way they are made.
        let rated = Rated::new(&junction(rng)).expect("an acceptable junction");
        set.add(&rated);
    }
    set
}

fn tables(count: u64, seed: u64) {
    println!("flows in whole vehicles per hour before, in tenths now; seed {seed}\n");
    for (name, junction) in SETS {
        println!("{name}");
        let set = rate(&mut Rng::new(seed), count, junction);
        set.print();
        println!();
        set.print_changes();
        println!();
    }
}

fn main() -> ExitCode {
    let words: Vec<String> = std::env::args().skip(1).collect();
    let searching = words.first().is_some_and(|word| word == "search");
    let numbers: Result<Vec<u64>, _> = words[usize::from(searching)..]
        .iter()
        .map(|word| word.parse())
        .collect();
    let (count, seed) = match numbers.as_deref() {
        Ok(&[count]) => (count, SEED),
        Ok(&[count, seed]) => (count, seed),
        _ => {
            eprintln!("{USAGE}");
            return ExitCode::from(2);
        }
    };
    match searching {
        true => search::print_all(&mut Rng::new(seed), count),
        false => tables(count, seed),
    }
    ExitCode::SUCCESS
}
