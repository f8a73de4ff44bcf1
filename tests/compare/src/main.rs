//! Compares the library with the plain rules on pseudo-random inputs:
//! `compare N [SEED] [fill] [amend] [study] [diamond] [open] [point]`, all the calls built in where none is named.

#![forbid(unsafe_code)]

mod checks;
mod lent;
mod report;

use checks::{Check, CHECKS};
use compare::generate::Rng;
use report::Tally;
use std::process::ExitCode;
use std::time::{SystemTime, UNIX_EPOCH};

const CALLS: [&str; 6] = ["fill", "amend", "study", "diamond", "open", "point"];

struct Wish {
    inputs: u64,
    seed: u64,
    words: Vec<String>,
}

fn wish() -> Option<Wish> {
    let mut numbers = Vec::new();
    let mut words = Vec::new();
    for word in std::env::args().skip(1) {
        match word.parse::<u64>() {
            Ok(number) => numbers.push(number),
            Err(_) if CALLS.contains(&word.as_str()) => words.push(word),
            Err(_) => return None,
        }
    }
    let now = || {
        SystemTime::now()
            .duration_since(UNIX_EPOCH)
            .map_or(1, |t| t.as_secs())
    };
    let seed = numbers.get(1).copied().unwrap_or_else(now);
    Some(Wish {
        inputs: *numbers.first()?,
        seed,
        words,
    })
}

/// The checks asked for, each as often as its share.
fn chosen(words: &[String]) -> Vec<Check> {
    let asked = |word: &str| words.is_empty() || words.iter().any(|w| w == word);
    let kept = CHECKS.iter().filter(|(word, _, _)| asked(word));
    kept.flat_map(|&(_, share, check)| std::iter::repeat_n(check, share))
        .collect()
}

fn main() -> ExitCode {
    let Some(wish) = wish() else {
        eprintln!("usage: compare N [SEED] [fill] [amend] [study] [diamond] [open] [point]");
        return ExitCode::from(2);
    };
    let checks = chosen(&wish.words);
    if checks.is_empty() {
        eprintln!("none of these calls is built in");
        return ExitCode::from(2);
    }
    println!("seed {}", wish.seed);
    let mut tally = Tally::default();
    for i in 0..wish.inputs {
        // Every input has its own start, so that it can be found again by its number.
        let mut rng = Rng::new(
            wish.seed
                .wrapping_mul(0x2545_F491_4F6C_DD1D)
                .wrapping_add(i << 20),
        );
        let check = rng.pick(&checks);
        if let Err(text) = check(&mut rng, &mut tally) {
            println!("input {i} of seed {}:\n{text}", wish.seed);
            println!("{i} passed, 1 failed");
            return ExitCode::FAILURE;
        }
    }
    tally.print();
    println!("{} passed, 0 failed", wish.inputs);
    ExitCode::SUCCESS
}
