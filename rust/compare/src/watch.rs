//! A watch on the calls: names lists and calls when asked to, and ends the run
//! when a call does not end.

use std::fmt::Display;
use std::sync::atomic::{AtomicBool, AtomicU64, Ordering};
use std::time::Duration;

static LISTS_NAMED: AtomicBool = AtomicBool::new(false);
static CALLS_NAMED: AtomicBool = AtomicBool::new(false);
static CALLS: AtomicU64 = AtomicU64::new(0);

/// Without a new call for so long, a call counts as one that does not end.
const PATIENCE: Duration = Duration::from_secs(120);

pub fn start(lists_named: bool, calls_named: bool) {
    LISTS_NAMED.store(lists_named, Ordering::Relaxed);
    CALLS_NAMED.store(calls_named, Ordering::Relaxed);
    std::thread::spawn(|| {
        let mut seen = 0;
        loop {
            std::thread::sleep(PATIENCE);
            let calls = CALLS.load(Ordering::Relaxed);
            if calls == seen {
                println!("MISMATCH\n  no call ended for {PATIENCE:?}; --trace names the list");
                std::process::exit(1);
            }
            seen = calls;
        }
    });
}

pub fn list_begins(seed: u64) {
    if LISTS_NAMED.load(Ordering::Relaxed) {
        eprintln!("list {seed}");
    }
}

pub fn call_begins(number: u64, call: &impl Display) {
    CALLS.fetch_add(1, Ordering::Relaxed);
    if CALLS_NAMED.load(Ordering::Relaxed) {
        eprintln!("call {number}: {call}");
    }
}
