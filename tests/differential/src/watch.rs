//! Says where a run was when it crashed or hung: the history and the step that were being made.

use std::io::Write;
use std::sync::atomic::{AtomicU64, Ordering::Relaxed};

/// One step takes far less; one that has not ended after so many seconds hangs.
const LONGEST_STEP: u32 = 120;

/// What a crash or the alarm raises on Linux: ILL, ABRT, BUS, FPE, SEGV, ALRM.
const SIGNALS: [i32; 6] = [4, 6, 7, 8, 11, 14];

static SEED: AtomicU64 = AtomicU64::new(0);
static HISTORY: AtomicU64 = AtomicU64::new(0);
static STEP: AtomicU64 = AtomicU64::new(0);

extern "C" {
    fn signal(number: i32, handler: extern "C" fn(i32)) -> usize;
    fn alarm(seconds: u32) -> u32;
    fn _exit(status: i32) -> !;
}

extern "C" fn ended(number: i32) {
    let (seed, history, step) = (
        SEED.load(Relaxed),
        HISTORY.load(Relaxed),
        STEP.load(Relaxed),
    );
    let what = if number == 14 { "hung" } else { "crashed" };
    let place = format!(
        "{what} (signal {number}): --seed {seed} --history {history} --show, step {step}\n"
    );
    let _ = std::io::stdout().write_all(place.as_bytes());
    let _ = std::io::stdout().flush();
    // Safety: ends the process at once, as C declares it.
    unsafe { _exit(1) }
}

/// Begins to watch a run of this seed.
pub fn begin(seed: u64) {
    SEED.store(seed, Relaxed);
    for number in SIGNALS {
        // Safety: the handler has the type that C asks for and never returns.
        unsafe { signal(number, ended) };
    }
}

/// The run has come to this step.
pub fn at(history: u64, step: usize) {
    HISTORY.store(history, Relaxed);
    STEP.store(step as u64, Relaxed);
    // Safety: sets the process's own alarm.
    unsafe { alarm(LONGEST_STEP) };
}

/// No step is being made any more.
pub fn rest() {
    // Safety: takes the process's own alarm back.
    unsafe { alarm(0) };
}
