//! Judges the sheet on standard input, runs it for at most 10,000 steps, and
//! says what every holder holds.

use lexondar::{report, Holders, Outcome, Work, MAIN};
use std::io::Read;

fn main() -> std::io::Result<()> {
    let mut text = Vec::new();
    std::io::stdin().read_to_end(&mut text)?;
    let mut work = Work::new();
    let mut room = Holders::new();
    match report(&text, 10_000, &mut work, &mut room) {
        Err(refusal) => println!("{refusal}"),
        Ok((run, holders)) => {
            match run.outcome {
                Outcome::Done { value } => println!("done after {} steps: {value}", run.steps),
                other => println!("{other:?} after {} steps", run.steps),
            }
            for (holder, held) in holders {
                match usize::from(holder) {
                    MAIN => println!("main holds {held:?}"),
                    object => println!("object {object} holds {held:?}"),
                }
            }
        }
    }
    Ok(())
}
