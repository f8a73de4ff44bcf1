//! Timing two ways of doing one thing, turn by turn, so that noise hits both.

use std::hint::black_box;
use std::time::Instant;

/// How long one turn should last, in nanoseconds: long for the clock, short enough that most turns
/// are not interrupted.
const TURN: f64 = 2e5;

/// Does its work once, a number of calls, and gives something that depends on all of it.
pub type Work<'a> = Box<dyn FnMut() -> usize + 'a>;

fn turn(work: &mut Work, times: usize) -> f64 {
    let start = Instant::now();
    for _ in 0..times {
        black_box(work());
    }
    start.elapsed().as_nanos() as f64 / times as f64
}

/// How often the work goes into one turn; finding out warms it up as well.
fn times(work: &mut Work) -> usize {
    let first = turn(work, 3).min(turn(work, 3));
    (TURN / first.max(1.0)).ceil().clamp(1.0, 1e6) as usize
}

fn median(mut times: Vec<f64>) -> f64 {
    times.sort_by(f64::total_cmp);
    times[times.len() / 2]
}

/// Medians over the rounds: nanoseconds of one call, and the library's share of the plain Rust's.
pub struct Times {
    pub rust: f64,
    pub library: Option<f64>,
    pub ratio: Option<f64>,
}

/// Times the two in turn, the first to go changing from round to round.
pub fn both(library: Option<Work>, mut rust: Work, calls: usize, rounds: usize) -> Times {
    let rust_times = times(&mut rust);
    let Some(mut library) = library else {
        let alone = (0..rounds).map(|_| turn(&mut rust, rust_times)).collect();
        return Times {
            rust: median(alone) / calls as f64,
            library: None,
            ratio: None,
        };
    };
    let library_times = times(&mut library);
    let mut taken = Vec::new();
    for round in 0..rounds {
        let early = (round % 2 == 0).then(|| turn(&mut rust, rust_times));
        let theirs = turn(&mut library, library_times);
        let ours = early.unwrap_or_else(|| turn(&mut rust, rust_times));
        taken.push((theirs, ours));
    }
    // A ratio within each round is spared what changes from one round to the next.
    let over = |part: fn(&(f64, f64)) -> f64| median(taken.iter().map(part).collect());
    Times {
        rust: over(|t| t.1) / calls as f64,
        library: Some(over(|t| t.0) / calls as f64),
        ratio: Some(over(|t| t.0 / t.1)),
    }
}
