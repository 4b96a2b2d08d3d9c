//! Points between the file-system steps at which a test stops the process: in the package `stopping` only, which builds
//! these sources with the feature `stops`. The command itself has none: there a point is nothing.

/// A point right before the step of this name.
#[cfg(not(feature = "stops"))]
pub fn before(_step: &str) {}

/// A point right before the step of this name. With CSORVELIN_TEST_STOP set to n the process aborts at the n-th point that
/// it reaches, counted from 1, after naming it on standard error; with CSORVELIN_TEST_PAUSE it waits there until its
/// standard input ends.
#[cfg(feature = "stops")]
pub fn before(step: &str) {
    use std::sync::atomic::{AtomicU64, Ordering};
    static REACHED: AtomicU64 = AtomicU64::new(0);

    let reached = REACHED.fetch_add(1, Ordering::Relaxed) + 1;
    let here = |name: &str| std::env::var(name).is_ok_and(|point| point.parse() == Ok(reached));
    if here("CSORVELIN_TEST_STOP") {
        eprintln!("stopped before: {step}");
        std::process::abort();
    }
    if here("CSORVELIN_TEST_PAUSE") {
        eprintln!("paused before: {step}");
        let _ = std::io::copy(&mut std::io::stdin(), &mut std::io::sink());
    }
}
