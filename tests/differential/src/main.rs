//! The compiled library beside the second implementation: seeded histories, compared after every call.

mod call;
mod cut_down;
mod damage;
mod dice;
mod doors;
mod flags;
mod kinds;
mod lent;
mod opening;
mod pair;
mod plain;
mod plan;
#[cfg(feature = "slips")]
mod slips;
mod story;
mod table;
mod tally;
mod tell;
mod texts;
mod trays;
mod values;
mod view;
mod watch;

use flags::Flags;
use std::process::ExitCode;
use std::time::{Duration, Instant};
use tally::Tally;
use tell::{tell, Failure};

fn main() -> ExitCode {
    let flags = match Flags::read(std::env::args()) {
        Ok(flags) => flags,
        Err(why) => {
            eprintln!("{why}");
            return ExitCode::from(2);
        }
    };
    #[cfg(feature = "slips")]
    slips::choose(flags.slip);
    watch::begin(flags.seed);
    let mut tally = Tally::new();
    let failed = run(&flags, &mut tally);
    watch::rest();
    print(&flags, &tally);
    if let Some((history, failure)) = failed {
        report(&flags, history, failure);
    }
    let whole = flags.history.is_none() && tally.histories >= plan::fixed().len() as u64;
    let missing = if whole { tally.missing() } else { Vec::new() };
    for what in &missing {
        println!("never occurred: {what}");
    }
    println!(
        "{} calls, {} histories, {} differences",
        tally.calls_made(),
        tally.histories,
        tally.differences
    );
    ExitCode::from(u8::from(tally.differences > 0 || !missing.is_empty()))
}

/// Tells histories until there are enough or one fails.
fn run(flags: &Flags, tally: &mut Tally) -> Option<(u64, Failure)> {
    let fixed = plan::fixed().len() as u64;
    let end = Instant::now() + Duration::from_secs(flags.seconds);
    let first = flags.history.unwrap_or(0);
    for history in first.. {
        let enough = match (flags.history, flags.histories) {
            (Some(only), _) => history > only,
            (None, Some(count)) => history == count,
            (None, None) => history >= fixed && Instant::now() >= end,
        };
        if enough {
            break;
        }
        if let Some(failure) = tell(flags.seed, history, flags.edge, flags.show, tally) {
            return Some((history, failure));
        }
    }
    None
}

/// Prints the difference, and the shortest history that still has one.
fn report(flags: &Flags, history: u64, failure: Failure) {
    println!(
        "difference: --seed {} --history {history}, step {}",
        flags.seed,
        failure.steps.len() - 1
    );
    say(&failure);
    let long = failure.steps.len();
    let short = cut_down::cut_down(failure, flags.edge);
    println!("cut down from {long} steps to {}:", short.steps.len());
    for (number, step) in short.steps.iter().enumerate() {
        println!("{number:4}  {step}");
    }
    say(&short);
}

/// The call, both answers and the first cell that differs.
fn say(failure: &Failure) {
    let difference = &failure.difference;
    println!("  call       {}", difference.call);
    println!("  library    {:?}", difference.ours);
    println!("  reference  {:?}", difference.plain);
    let cell = difference.cell.as_deref();
    println!(
        "  first cell {}",
        cell.unwrap_or("none: only the answers differ")
    );
}

/// Prints the tables.
fn print(flags: &Flags, tally: &Tally) {
    if !flags.table {
        println!("{}", table::calls(tally));
    }
    println!("{}", table::damage(tally));
    println!("{}", table::texts(tally));
    println!("{}", table::trays(tally));
}
