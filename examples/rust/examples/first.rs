//! A first junction: fills its sheet, prints the rating, then corrects one count.

use icu::{Approach, Entries, Entry, Pair, Refusal, Sheet, Turn};

/// One left and one through lane on each approach, 100 lefts and 400 throughs.
fn junction() -> Entries {
    let mut entries = Entries::new();
    for a in Approach::ALL {
        for (turn, lanes, volume) in [
            (Turn::Left, 1, 100),
            (Turn::Through, 1, 400),
            (Turn::Right, 0, 0),
        ] {
            entries
                .set(Entry::Lanes(a, turn), lanes)
                .set(Entry::Volume(a, turn), volume)
                .set(Entry::IdealFlow(a, turn), 1_900)
                .set(Entry::LostTime(a, turn), 4_000)
                .set(Entry::MinimumGreen(a, turn), 4_000);
        }
        entries
            .set(Entry::PushButton(a), 1)
            .set(Entry::WalkTime(a), 16_000);
    }
    entries.set(Entry::Cycle, 120);
    entries
}

fn print(sheet: &Sheet) {
    println!(
        "ICU {}.{} %, letter {}",
        sheet.icu() / 10,
        sheet.icu() % 10,
        sheet.letter()
    );
    println!("east-west lefts: {:?}", sheet.picked(Pair::EastWest));
    if let Some(flow) = sheet.flow(Approach::Eastbound, 5) {
        println!("the left lane from the west carries {flow} vehicles per hour");
    }
}

fn main() -> Result<(), Refusal> {
    let mut sheet = Sheet::fill(&junction())?;
    print(&sheet);
    sheet.amend(Entry::Volume(Approach::Westbound, Turn::Through), 600)?;
    print(&sheet);
    if let Err(refusal) = sheet.amend(Entry::Cycle, 29) {
        println!("not accepted: {refusal}");
    }
    Ok(())
}
