//! Runs cases from fixed seeds, and says which one failed and how to run it again.

use evaluator::random::Random;
use std::cell::Cell;
use std::collections::BTreeMap;
use std::env;
use std::ffi::{c_int, c_void};
use std::io::Write;
use std::panic::{self, AssertUnwindSafe};
use std::sync::atomic::{AtomicU64, Ordering};
use std::sync::{Arc, Once};
use std::thread;
use std::time::{Duration, Instant};

/// Counts by name, printed when all cases have passed.
#[derive(Default)]
pub struct Counts(BTreeMap<String, u64>);

impl Counts {
    pub fn add(&mut self, name: impl Into<String>, count: usize) {
        *self.0.entry(name.into()).or_default() += count as u64;
    }

    pub fn get(&self, name: &str) -> u64 {
        self.0.get(name).copied().unwrap_or(0)
    }

    /// The number that a call returned.
    pub fn returned(&mut self, number: u32) {
        let name = if number == 0 { "accepted".to_string() } else { format!("refused {number:02}") };
        self.add(name, 1);
    }
}

thread_local! {
    static RUNNING: Cell<(&'static str, u64)> = const { Cell::new(("", 0)) };
}

fn again(name: &str, seed: u64) -> String {
    format!("run it again: HAVDRIMS_SEED={seed} cargo test --offline -p havdrims --test checker {name}")
}

/// Writes past the test harness, which would hold back what a passing test prints.
pub fn say(line: &str) {
    let _ = writeln!(std::io::stderr(), "{line}");
}

extern "C" {
    fn signal(number: c_int, handler: *const c_void) -> *const c_void;
    fn _exit(status: c_int) -> !;
}

/// A touched guard page: names the case and ends the process.
extern "C" fn touched(_: c_int) {
    let (name, seed) = RUNNING.get();
    say(&format!("{name}: seed {seed} touched memory that was not lent; {}", again(name, seed)));
    // SAFETY: ends the process.
    unsafe { _exit(139) }
}

fn catch_faults() {
    static ONCE: Once = Once::new();
    ONCE.call_once(|| {
        let handler = touched as extern "C" fn(c_int) as *const c_void;
        for number in [7, 11] {
            // SAFETY: bus errors and segmentation faults end in the handler, which does not return.
            unsafe { signal(number, handler) };
        }
    });
}

/// Ends the process if a case takes a minute: a call that does not return.
fn watch(name: &'static str, running: Arc<AtomicU64>) {
    thread::spawn(move || loop {
        let seed = running.load(Ordering::Relaxed);
        thread::sleep(Duration::from_secs(60));
        if seed == u64::MAX {
            return;
        }
        if running.load(Ordering::Relaxed) == seed {
            say(&format!("{name}: seed {seed} does not return; {}", again(name, seed)));
            std::process::abort();
        }
    });
}

/// Runs a test's body for seeds from 0, or for the one that HAVDRIMS_SEED names. What the counts need to show is
/// asserted by `shown`, unless one seed alone is run.
pub fn cases(name: &'static str, count: u64, body: impl Fn(&mut Random, &mut Counts), shown: impl Fn(&Counts) -> bool) {
    catch_faults();
    let only: Option<u64> = env::var("HAVDRIMS_SEED").ok().map(|s| s.parse().expect("a number"));
    let seeds = only.map_or(0..count, |seed| seed..seed + 1);
    let running = Arc::new(AtomicU64::new(0));
    watch(name, running.clone());
    let begun = Instant::now();
    let mut counts = Counts::default();
    for seed in seeds {
        RUNNING.set((name, seed));
        running.store(seed, Ordering::Relaxed);
        let case = AssertUnwindSafe(|| body(&mut Random::new(seed), &mut counts));
        if let Err(cause) = panic::catch_unwind(case) {
            say(&format!("{name}: seed {seed} failed; {}", again(name, seed)));
            panic::resume_unwind(cause);
        }
        counts.add("cases", 1);
    }
    running.store(u64::MAX, Ordering::Relaxed);
    let list: Vec<String> = counts.0.iter().map(|(name, count)| format!("{name} {count}")).collect();
    say(&format!("{name}: {} ({:.1} s)", list.join(", "), begun.elapsed().as_secs_f64()));
    assert!(only.is_some() || shown(&counts), "{name}: the cases do not reach what they should");
}
