//! A failing history made short: what it still fails without is left out, first in large parts, then in small ones.

use crate::call::{Call, Step};
use crate::tell::{again, Failure};
use std::ops::Range;
use std::time::{Duration, Instant};

/// Cutting down ends here, finished or not.
const LONGEST: Duration = Duration::from_secs(120);

/// The shortest failing history that leaving out parts leads to.
pub fn cut_down(failure: Failure, edge: usize) -> Failure {
    let end = Instant::now() + LONGEST;
    let mut best = failure;
    loop {
        let before = size(&best.steps);
        leave_out(&mut best, edge, end, |steps| steps.len(), without_steps);
        for place in (0..best.steps.len()).rev() {
            let inner = |steps: &[Step]| steps.get(place).map_or(0, parts);
            leave_out(&mut best, edge, end, inner, |steps, range| {
                let mut steps = steps.to_vec();
                steps[place] = without_parts(&steps[place], range);
                steps
            });
        }
        let plainer: Vec<Step> = best.steps.iter().flat_map(plainly).collect();
        best = again(&plainer, edge).unwrap_or(best);
        if size(&best.steps) == before || Instant::now() > end {
            return best;
        }
    }
}

/// Steps and parts of steps.
fn size(steps: &[Step]) -> usize {
    steps.len() + steps.iter().map(parts).sum::<usize>()
}

/// Leaves out ranges of something that can be counted, as long as the history fails without them.
fn leave_out(
    best: &mut Failure,
    edge: usize,
    end: Instant,
    count: impl Fn(&[Step]) -> usize,
    without: impl Fn(&[Step], Range<usize>) -> Vec<Step>,
) {
    let mut width = count(&best.steps).next_power_of_two();
    while width > 0 && Instant::now() < end {
        let mut from = 0;
        while from < count(&best.steps) && Instant::now() < end {
            let to = (from + width).min(count(&best.steps));
            match again(&without(&best.steps, from..to), edge) {
                Some(shorter) => *best = shorter,
                None => from = to,
            }
        }
        width /= 2;
    }
}

fn without_steps(steps: &[Step], range: Range<usize>) -> Vec<Step> {
    [&steps[..range.start], &steps[range.end..]].concat()
}

/// A copy that has no damage left as calls of the book itself.
fn plainly(step: &Step) -> Vec<Step> {
    match step {
        Step::Try(damage, calls) if damage.edits.is_empty() => {
            calls.iter().cloned().map(Step::Call).collect()
        }
        _ => vec![step.clone()],
    }
}

/// How many parts a step has that can be left out.
fn parts(step: &Step) -> usize {
    match step {
        Step::Call(Call::TakeIn(text, _)) => text.len(),
        Step::Call(Call::Tray(items, _)) => items.len(),
        Step::Call(_) => 0,
        Step::Given { entries, .. } => entries.len(),
        Step::Spoil(damage) | Step::Mend(damage) => damage.edits.len(),
        Step::Try(damage, calls) => damage.edits.len() + calls.len(),
    }
}

/// The step without some of its parts.
fn without_parts(step: &Step, range: Range<usize>) -> Step {
    let mut step = step.clone();
    match &mut step {
        Step::Call(Call::TakeIn(text, _)) => drop(text.drain(range)),
        Step::Call(Call::Tray(items, _)) => drop(items.drain(range)),
        Step::Call(_) => {}
        Step::Given { entries, .. } => drop(entries.drain(range)),
        Step::Spoil(damage) | Step::Mend(damage) => drop(damage.edits.drain(range)),
        Step::Try(damage, calls) => {
            let edits = damage.edits.len();
            damage
                .edits
                .drain(range.start.min(edits)..range.end.min(edits));
            calls.drain(range.start.max(edits) - edits..range.end.max(edits) - edits);
        }
    }
    step
}
