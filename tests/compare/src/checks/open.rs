//! Several offices in one open study: runs of adds, amendments and reads, in lists of any contents.

use crate::lent::Lent;
use crate::report::{block_entry, cell_name, compare_long, Tally};
use compare::generate::open::{any_step, any_study, Act, Step, Study};
use compare::generate::Rng;
use compare::library;
use compare::open::{self, Calls, OWNER, PLACES, RULES};
use compare::rules::{Answer, ACCEPTED, ENTRIES};

/// Every list that the calls are lent.
#[derive(Clone)]
struct Lists {
    owners: Lent<u32>,
    blocks: Lent<u32>,
    entries: Lent<u32>,
    sheet: Lent<u32>,
    place: Lent<u32>,
}

impl Lists {
    fn new(rng: &mut Rng, study: &Study) -> Lists {
        Lists {
            owners: Lent::new(rng, &study.owners),
            blocks: Lent::new(rng, &study.blocks),
            entries: Lent::anything(rng, 0),
            sheet: Lent::anything(rng, 0),
            place: Lent::anything(rng, 1),
        }
    }

    /// The lists that a step brings with it.
    fn lend(&mut self, rng: &mut Rng, act: &Act) {
        match act {
            Act::Add(entries) => self.entries = Lent::new(rng, entries),
            Act::Read(_, length) => self.sheet = Lent::anything(rng, *length),
            Act::Amend(..) => {}
        }
    }

    fn take(&mut self, calls: &Calls, step: &Step) -> Answer {
        let (owners, blocks) = (self.owners.part_mut(), self.blocks.part_mut());
        let (office, place) = (step.office, &mut self.place.part_mut()[0]);
        match step.act {
            Act::Add(_) => (calls.add)(owners, blocks, office, self.entries.part(), place),
            Act::Amend(site, change) => (calls.amend)(owners, blocks, office, site, change),
            Act::Read(site, _) => (calls.read)(owners, blocks, office, site, self.sheet.part_mut()),
        }
    }
}

/// A study before a step, as far as the step is about it.
struct Before {
    owners: Vec<u32>,
    block: Vec<u32>,
}

impl Before {
    fn new(lists: &Lists, act: &Act) -> Before {
        let site = match *act {
            Act::Add(_) => usize::MAX,
            Act::Amend(site, _) | Act::Read(site, _) => site as usize,
        };
        let mut blocks = lists.blocks.part().chunks_exact(ENTRIES);
        Before {
            owners: lists.owners.part().to_vec(),
            block: blocks.nth(site).unwrap_or(&[]).to_vec(),
        }
    }
}

/// Counts the answer and the turn that the step took; `changed` has the places that the run wrote before.
fn count(tally: &mut Tally, step: &Step, before: &Before, answer: Answer, changed: &[bool]) {
    let call = match step.act {
        Act::Add(_) => "open add",
        Act::Amend(..) => "open amend",
        Act::Read(..) => "open read",
    };
    tally.answered(call, answer);
    match (&step.act, answer) {
        (Act::Add(_), _) => tally.added(&before.owners, answer),
        (&Act::Amend(site, _) | &Act::Read(site, _), Answer { number: OWNER, .. }) => {
            tally.had_none(&before.owners, step.office, site)
        }
        (Act::Amend(..), ACCEPTED) => tally.amended(&before.block),
        (&Act::Read(site, _), ACCEPTED) => tally.read(changed[site as usize]),
        _ => {}
    }
}

/// Where an accepted step wrote.
fn written(step: &Step, answer: Answer, lists: &Lists) -> Option<usize> {
    match (&step.act, answer) {
        (Act::Add(_), ACCEPTED) => Some(lists.place.part()[0] as usize),
        (&Act::Amend(site, _), ACCEPTED) => Some(site as usize),
        _ => None,
    }
}

/// The same answer, and the same numbers in every list and around it.
fn same(
    input: &dyn Fn() -> String,
    (first, ours): (Answer, &Lists),
    (second, theirs): (Answer, &Lists),
) -> Result<(), String> {
    let owner = |at: usize| format!("owner of {at}");
    let entry = |at: usize| format!("entry {at}");
    let place = |_: usize| "the place".to_string();
    type Name = fn(usize) -> String;
    let lists: [(&Lent<u32>, &Lent<u32>, Name); 5] = [
        (&ours.owners, &theirs.owners, owner),
        (&ours.blocks, &theirs.blocks, block_entry),
        (&ours.entries, &theirs.entries, entry),
        (&ours.sheet, &theirs.sheet, cell_name),
        (&ours.place, &theirs.place, place),
    ];
    lists
        .into_iter()
        .try_for_each(|(x, y, name)| compare_long(input, (first, x), (second, y), name))
}

pub fn run_of_offices(rng: &mut Rng, tally: &mut Tally) -> Result<(), String> {
    let study = any_study(rng);
    let mut ours = Lists::new(rng, &study);
    let mut theirs = ours.clone();
    let mut changed = [false; PLACES];
    // Where a list has the wrong length every step is refused: a few will do.
    let right = open::laid_out(&study.owners, &study.blocks);
    for number in 0..if right { 120 } else { 6 } {
        let (owners, blocks) = (ours.owners.part(), ours.blocks.part());
        let step = any_step(rng, &study.offices, owners, blocks);
        ours.lend(rng, &step.act);
        (theirs.entries, theirs.sheet) = (ours.entries.clone(), ours.sheet.clone());
        let before = Before::new(&ours, &step.act);
        let first = ours.take(&RULES, &step);
        let second = theirs.take(&library::OPEN, &step);
        count(tally, &step, &before, first, &changed);
        let input = || {
            let Before { owners, block } = &before;
            format!("step {number}, {step:?}\nowners {owners:?}\nblock {block:?}")
        };
        same(&input, (first, &ours), (second, &theirs))?;
        if let Some(place) = written(&step, first, &ours) {
            changed[place] = true;
        }
    }
    Ok(())
}
