//! The lines that a run must have met, and the pairs that cannot be.

use crate::boundaries;
use crate::conversion::MARK;
use crate::conversion_sweep;
use crate::damage;
use crate::faults::FAULTS;
use crate::keys::{ANSWERS_IN_LIST, ANSWERS_UNREACHED, COLLECT_MOVED, FORWARD_HELD, FORWARD_MOVED, READ_HELD, READ_MOVED};
use crate::keys::{ARRIVED_AGAIN, ARRIVED_LATE, ARRIVED_RETIRED, ARRIVED_SPACED, HELD, RECEIVE, RUN_LOST, RUN_SOON, RUN_WHOLE};
use crate::keys::{BY_BOTH, BY_OUTSIDE, BY_STUDIO, BY_UNUSED, MOVE_AWAY, MOVE_HERE, UNMOVED};
use crate::keys::{COLLECT_BELOW, FORWARD_BELOW, LOADED_EARLIER, LOADED_MADE, MOVE_LOADED, MOVE_STOPPED, READ_BELOW};
use crate::keys::{COLLECT_FORWARDED, COLLECT_KEPT, FORWARD_AGAIN, FORWARD_AGAIN_ALONE, FORWARD_TOLD, MIXED};
use crate::keys::{COLLECT_TOLD, RAISED, RAISED_UNREACHED, READ_TOLD, READ_TOLD_ALONE};
use crate::keys::{DONE, HEAD_END, Key, LENGTHS, PREVIEWED, PREVIEWED_IN_LIST, READ, WAITED};
use crate::keys::{FIRST_FORWARD, FIRST_FORWARD_MOVED, FIRST_READ, FIRST_READ_MOVED, FROM_OLD, TO_OLD};
use crate::keys::{LOAD_BOTH, LOAD_MISFIT_BY_ALL, LOAD_MISFIT_BY_NONE, LOAD_MISFIT_BY_SOME};
use crate::keys::{NONE, ONE, SEARCH_AFTER, SEARCH_NUMBER, SEVERAL, WRONG_LENGTH};
use crate::keys::{READ_FORWARDED, READ_FORWARDED_ALONE, READ_STRAIGHT, VAN_WRITE_LOW, VAN_WRITE_UNSENT};
use crate::older;
use crate::places;
use crate::sweep;
use crate::tears;
use crate::torn;
use crate::van_sweep;
use std::fmt;

pub enum Line {
    /// Two rows of a call that held at once.
    Pair(Key),
    /// A subject that has no number beside it.
    Ended(Key),
    /// A boundary.
    Met(Key),
}

impl fmt::Display for Line {
    fn fmt(&self, f: &mut fmt::Formatter<'_>) -> fmt::Result {
        match self {
            Line::Pair((call, row, other)) => write!(f, "{call}: rows {row} and {other} at once"),
            Line::Ended((subject, _, end)) => write!(f, "{subject}: {}", end_text(*end)),
            Line::Met((subject, number, end)) if subject.contains('−') => {
                write!(f, "{subject} = {}: {}", *number as i32, end_text(*end))
            }
            Line::Met((subject, number, end)) => {
                write!(f, "{subject} {number}: {}", end_text(*end))
            }
        }
    }
}

fn end_text(end: u32) -> String {
    match end {
        DONE => "done".to_string(),
        READ => "answered".to_string(),
        WAITED => "waits".to_string(),
        HEAD_END => "answered by the head end".to_string(),
        NONE => "none".to_string(),
        ONE => "one".to_string(),
        SEVERAL => "several".to_string(),
        WRONG_LENGTH => "a wrong length".to_string(),
        HELD => "held".to_string(),
        row => format!("refused {row}"),
    }
}

const UNUSED: &str = "an unused session is all zero, so a read waiting there is row 2";

/// Pairs of rows that cannot hold at once, each with its reason.
pub const EXCLUDED: [(&str, u32, u32, &str); 5] = [
    ("commit", 3, 4, UNUSED),
    ("preview", 3, 4, UNUSED),
    ("read", 3, 4, UNUSED),
    ("forward", 3, 4, UNUSED),
    ("send", 3, 10, "a studio above S has both counts at 0, so 32 apart is row 2"),
];

/// The rows of commit and of preview, by their numbers.
const EDIT_ROWS: &[u32] = &[1, 2, 3, 4, 5, 6, 7, 8, 16];

/// The calls, and the conversions.
const CALLS: [(&str, &[u32], &[u32]); 14] = [
    ("setup", &[1, 15], &[DONE]),
    ("commit", EDIT_ROWS, &[DONE]),
    ("preview", EDIT_ROWS, &[DONE]),
    ("send", &[1, 2, 3, 9, 10], &[DONE]),
    ("refresh", &[1, 2, 3, 11], &[DONE]),
    ("read", &[1, 2, 3, 4, 12, 13], &[READ, WAITED]),
    ("collect", &[1, 2, 3, 13, 14], &[READ, WAITED]),
    ("forward", &[1, 2, 3, 4, 12, 13], &[READ, HEAD_END]),
    ("van_write", &[1, 2, 17, 21], &[DONE]),
    ("move", &[1, 2, 3, 4], &[DONE]),
    ("load", &[1, 2, 19], &[DONE]),
    ("retire", &[1, 2, 20], &[DONE]),
    (FROM_OLD.name, &[22], &[DONE]),
    (TO_OLD.name, &[22, 23], &[DONE]),
];

/// Every line a run must have met.
pub fn lines() -> Vec<Line> {
    let mut lines = Vec::new();
    for (call, rows, ends) in CALLS {
        lines.extend(rows.iter().chain(ends).map(|end| Line::Ended((call, 0, *end))));
    }
    for (call, rows, _) in CALLS {
        for (i, row) in rows.iter().enumerate() {
            lines.extend(rows[i + 1..].iter().filter_map(|other| pair(call, *row, *other)));
        }
    }
    lines.extend(boundaries::all().into_iter().map(Line::Met));
    lines.extend(EDIT_ROWS.iter().chain(&[DONE]).map(|end| Line::Ended((PREVIEWED, 0, *end))));
    lines.extend([3, 4, 5, 6, 16, 7, 8, DONE].map(|end| Line::Ended((PREVIEWED_IN_LIST, 0, end))));
    for subjects in LENGTHS {
        for (subject, right) in subjects.into_iter().zip([61_440, 40_960, 1_280]) {
            lines.extend([0, right - 1, right + 1].map(|length| Line::Met((subject, length, 1))));
        }
        lines.push(Line::Met((subjects[0], 51_200, 1)));
    }
    lines.extend((0..6).map(|copy| Line::Met((damage::COPIES, copy, 2))));
    let sweeps = places::ALL.iter().map(|(_, name)| *name).chain(sweep::INPUTS).chain(van_sweep::SWEEPS);
    lines.extend(sweeps.chain(conversion_sweep::SWEEPS).map(|name| Line::Ended((name, 0, DONE))));
    lines.extend(damage::names().map(|name| Line::Ended((name, 0, 2))));
    lines.push(Line::Ended((older::NAME, 0, DONE)));
    lines.extend(told().map(Line::Ended));
    lines.extend(forwarded().map(Line::Ended));
    lines.extend(moved().into_iter().map(Line::Ended));
    lines.extend(tears::TORN.iter().flat_map(|torn| torn.ends.iter().map(|end| Line::Ended((torn.name, 0, *end)))));
    lines.extend(torn::MIXED.map(|(name, end)| Line::Ended((name, 0, end))));
    lines.extend(loaded().map(Line::Ended));
    lines.extend([SEARCH_NUMBER, SEARCH_AFTER].map(|subject| Line::Ended((subject, 0, ONE))));
    lines.extend(faulty().map(Line::Met));
    lines.extend(vans().map(Line::Ended));
    lines.extend(reasons().into_iter().map(Line::Met));
    lines.extend([&FROM_OLD, &TO_OLD].into_iter().flat_map(|of| [of.cases, of.back]).map(|subject| Line::Ended((subject, 0, DONE))));
    lines
}

/// Numbers raised by refusal 8, and the reads after it.
fn told() -> [Key; 7] {
    [
        RAISED,
        (RAISED_UNREACHED, 0, DONE),
        (READ_TOLD, 0, READ),
        (READ_TOLD, 0, WAITED),
        (READ_TOLD_ALONE, 0, WAITED),
        (COLLECT_TOLD, 0, READ),
        (COLLECT_TOLD, 0, WAITED),
    ]
}

/// The reads, collects and forwards after a forward by the head end, and the lists that mix them.
fn forwarded() -> [Key; 13] {
    [
        (READ_FORWARDED, 0, READ),
        (READ_FORWARDED, 0, WAITED),
        (READ_STRAIGHT, 0, WAITED),
        (READ_FORWARDED_ALONE, 0, WAITED),
        (COLLECT_FORWARDED, 0, READ),
        (COLLECT_FORWARDED, 0, WAITED),
        (FORWARD_AGAIN, 0, READ),
        (FORWARD_AGAIN, 0, HEAD_END),
        (FORWARD_AGAIN_ALONE, 0, HEAD_END),
        (FORWARD_TOLD, 0, READ),
        (FORWARD_TOLD, 0, HEAD_END),
        (COLLECT_KEPT, 0, READ),
        (MIXED, 0, DONE),
    ]
}

/// Moves by the parts of row 3 and by the studio, the reading calls after them, and that nobody is led back by one.
fn moved() -> Vec<Key> {
    let row_3 = [BY_OUTSIDE, BY_UNUSED, BY_STUDIO, BY_BOTH].map(|subject| (subject, 0, 3));
    let known = [MOVE_HERE, MOVE_AWAY].map(|subject| [(subject, 0, DONE), (subject, 0, 4)]);
    let waits = [READ_MOVED, COLLECT_MOVED].map(|subject| [(subject, 0, READ), (subject, 0, WAITED)]);
    let forwards = [FORWARD_MOVED, ANSWERS_IN_LIST].map(|subject| [(subject, 0, READ), (subject, 0, HEAD_END)]);
    let held = [READ_HELD.map(|subject| (subject, 0, WAITED)), FORWARD_HELD.map(|subject| (subject, 0, HEAD_END))];
    let lists = [ANSWERS_UNREACHED, UNMOVED].map(|subject| (subject, 0, DONE));
    [&row_3[..], &known.concat(), &waits.concat(), &forwards.concat(), &held.concat(), &lists].concat()
}

/// What a load is refused for with no number beside it, and of lists over loaded memory what stands between the loaded transactions, moves,
/// and what the loaded numbers alone hold back.
fn loaded() -> [Key; 15] {
    [
        (LOAD_MISFIT_BY_NONE, 0, 19),
        (LOAD_MISFIT_BY_SOME, 0, 19),
        (LOAD_MISFIT_BY_ALL, 0, 19),
        (LOAD_BOTH, 0, 19),
        (LOADED_EARLIER, 0, DONE),
        (LOADED_MADE, 0, DONE),
        (READ_BELOW, 0, READ),
        (COLLECT_BELOW, 0, READ),
        (FORWARD_BELOW, 0, READ),
        (MOVE_LOADED, 0, DONE),
        (MOVE_STOPPED, 0, 4),
        (FIRST_READ, 0, WAITED),
        (FIRST_READ_MOVED, 0, WAITED),
        (FIRST_FORWARD, 0, HEAD_END),
        (FIRST_FORWARD_MOVED, 0, HEAD_END),
    ]
}

/// Each reason for refusal 17 at the receiver, alone, with a number that else is held, applied or refused with 18. A number 0 else is held.
fn faulty() -> impl Iterator<Item = Key> {
    let places = FAULTS.iter().flat_map(|(subject, _)| (0..=2).map(|ahead| (*subject, ahead, 17)));
    places.filter(|(subject, ahead, _)| *subject != FAULTS[0].0 || *ahead == 0)
}

/// Each reason for refusal 22 at a conversion, alone; of to_old, which has no mark to compare, also beside a longer title.
fn reasons() -> Vec<Key> {
    let from_old = FROM_OLD.reasons.map(|subject| (subject, 0, 22));
    let to_old = TO_OLD.reasons.into_iter().filter(|subject| *subject != TO_OLD.reasons[MARK]);
    from_old.into_iter().chain(to_old.flat_map(|subject| [(subject, 0, 22), (subject, 1, 22)])).collect()
}

/// What has no number beside it: of van_write, of receives, and of the lists for fresh vans.
fn vans() -> [Key; 17] {
    [
        (VAN_WRITE_LOW, 0, 17),
        (VAN_WRITE_UNSENT, 0, DONE),
        (RECEIVE, 0, 17),
        (RECEIVE, 0, 18),
        (RECEIVE, 0, DONE),
        (RECEIVE, 0, HELD),
        (ARRIVED_AGAIN, 0, DONE),
        (ARRIVED_LATE, 0, DONE),
        (ARRIVED_LATE, 0, HELD),
        (ARRIVED_LATE, 0, 18),
        (ARRIVED_RETIRED, 0, DONE),
        (ARRIVED_RETIRED, 0, HELD),
        (ARRIVED_RETIRED, 0, 18),
        (ARRIVED_SPACED, 0, DONE),
        (RUN_LOST, 0, DONE),
        (RUN_SOON, 0, DONE),
        (RUN_WHOLE, 0, DONE),
    ]
}

fn pair(call: &'static str, row: u32, other: u32) -> Option<Line> {
    let excluded = EXCLUDED.iter().any(|(name, a, b, _)| (*name, *a, *b) == (call, row, other));
    (!excluded).then_some(Line::Pair((call, row, other)))
}

#[cfg(test)]
mod tests {
    use super::*;
    use std::collections::BTreeSet;

    #[test]
    fn every_line_is_named_once() {
        let names: Vec<String> = lines().iter().map(Line::to_string).collect();
        let once: BTreeSet<&String> = names.iter().collect();
        assert_eq!(once.len(), names.len());
    }

    #[test]
    fn every_pair_is_required_or_excluded() {
        let pairs = lines().iter().filter(|line| matches!(line, Line::Pair(_))).count();
        let all: usize = CALLS.iter().map(|(_, rows, _)| rows.len() * (rows.len() - 1) / 2).sum();
        assert_eq!(pairs + EXCLUDED.len(), all);
    }
}
