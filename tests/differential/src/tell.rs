//! Telling a history: its steps made one by one, thrown by the dice or read from a list.

use crate::call::{Call, Step};
use crate::pair::{Difference, Pair};
use crate::story::Story;
use crate::tally::Tally;
use crate::watch;

/// A history that ended in a difference, as the list of its steps.
pub struct Failure {
    pub steps: Vec<Step>,
    pub difference: Box<Difference>,
}

/// Tells history number `history` of this seed.
pub fn tell(
    seed: u64,
    history: u64,
    edge: usize,
    show: bool,
    tally: &mut Tally,
) -> Option<Failure> {
    let mut story = Story::new(seed, history);
    let mut pair = Pair::new(edge);
    let mut steps = Vec::new();
    while let Some(step) = story.next(&pair) {
        watch::at(history, steps.len());
        if show {
            println!("{:4}  {step}", steps.len());
        }
        let made = perform(&step, &mut pair, tally);
        steps.push(step);
        if let Err(difference) = made {
            return Some(Failure { steps, difference });
        }
    }
    tally.histories += 1;
    None
}

/// Makes the steps of a list again, up to the first difference.
pub fn again(steps: &[Step], edge: usize) -> Option<Failure> {
    let mut pair = Pair::new(edge);
    let mut tally = Tally::new();
    for (place, step) in steps.iter().enumerate() {
        if let Err(difference) = perform(step, &mut pair, &mut tally) {
            let steps = steps[..=place].to_vec();
            return Some(Failure { steps, difference });
        }
    }
    None
}

/// Makes one step of both books.
fn perform(step: &Step, pair: &mut Pair, tally: &mut Tally) -> Result<(), Box<Difference>> {
    match step {
        Step::Call(call) => make(call, pair, tally)?,
        Step::Given { k, c, entries } => pair.given(*k, *c, entries),
        Step::Mend(mending) => pair.mend(mending),
        Step::Spoil(damage) => {
            pair.damage(damage);
            tally.damaged(damage.kind, pair.verdict());
        }
        Step::Try(damage, calls) => {
            let mut copy = pair.clone();
            copy.damage(damage);
            tally.damaged(damage.kind, copy.verdict());
            calls
                .iter()
                .try_for_each(|call| make(call, &mut copy, tally))?;
        }
    }
    Ok(())
}

/// Makes one call of both books.
fn make(call: &Call, pair: &mut Pair, tally: &mut Tally) -> Result<(), Box<Difference>> {
    let damaged = pair.damaged;
    match pair.call(call) {
        Ok(answer) => tally.agreed(call, &answer, damaged),
        Err(difference) => {
            tally.differed(call, damaged);
            return Err(difference);
        }
    }
    Ok(())
}
