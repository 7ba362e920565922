//! The table of what a run has met, held to what it must have met.

use crate::coverage::Coverage;
use crate::required::{self, Line};

/// Prints the table; returns how many required lines were not met.
pub fn print(coverage: &Coverage) -> usize {
    println!("{:>9}  refusals, pairs of rows and boundaries", "met");
    let lines = required::lines();
    let mut missing = 0;
    for line in &lines {
        let count = match line {
            Line::Pair(pair) => coverage.pair_met(pair),
            Line::Ended(key) | Line::Met(key) => coverage.met(key),
        };
        missing += usize::from(count == 0);
        let mark = if count == 0 { "  <-- NOT MET" } else { "" };
        println!("{count:>9}  {line}{mark}");
    }
    for (call, row, other, reason) in required::EXCLUDED {
        println!("{:>9}  {call}: rows {row} and {other} at once: {reason}", "-");
    }
    let Coverage { orders, entries, refusals, forwards, watched, watched_moved, unmoved, vans, arrived, .. } = coverage;
    let Coverage { loaded, loaded_transactions, loaded_requests, restarts, backs, .. } = coverage;
    println!("one-copy orders: {orders}, entries in them: {entries}, of these refusals 8: {refusals}, forwards: {forwards}");
    println!(
        "of these orders over loaded memory: {loaded}, loaded transactions in them: {loaded_transactions}, requests: {loaded_requests}"
    );
    println!("calls of lists after which engine and simulator loaded what was left: {restarts}");
    println!("answers held to the one before of their session: {watched}, of these with a move between them: {watched_moved}");
    println!("calls played again without moves, by S-7's rule and by the one before: {unmoved}");
    println!("fresh vans: {vans}, messages for them: {arrived}");
    println!("conversions there and back: {backs}");
    println!("required lines: {}, not met: {missing}", lines.len());
    missing
}

/// How much was played.
pub fn counts(coverage: &Coverage, calls: u64) -> String {
    let Coverage { searches, receives, conversions, .. } = coverage;
    format!("{calls} calls, {searches} searches, {receives} receives and {conversions} conversions")
}
