//! Mistakes of setup, and of the lengths.

use super::mistake::{Mistake, Notes, is_refused, mistake, right};
use crate::call::Call;
use crate::lent::{Lent, Part};
use crate::log;
use crate::made::SIXTH;
use simulator::{Answer, COPY, Control, DONE, RECORDS};

pub const MISTAKES: &[Mistake] = &[
    mistake("setup lets a studio byte above S pass", byte_above),
    mistake("setup lets 17 studio bytes pass", seventeen_bytes),
    mistake("refused setup hands back S", hands_back_s),
    mistake("refused setup hands back the studio bytes", hands_back_bytes),
    mistake("refused setup clears the memory", refused_clears),
    mistake("setup leaves the log", leaves_log),
    mistake("setup leaves the log's records unlinked", unlinked),
    mistake("setup leaves the sixth copy", leaves_sixth),
    mistake("setup's free chain begins at record 512", from_512),
    mistake("refused setup hands back a free chain", hands_back_chain),
    mistake("setup answers with S", answers_s),
    mistake("setup: row 15 before row 1", row_15_first),
    mistake("lengths: a longer library is let through", longer_library),
    mistake("lengths: session memory is not looked at", sessions_not_measured),
];

fn byte_above(_: &mut Notes, call: &Call, control: Control, lent: &mut Lent) -> Answer {
    let answer = right(call, control, lent);
    let Call::Setup { studios, session_studios } = call else { return answer };
    if !is_refused(&answer, 15) || session_studios.len() != 16 {
        return answer;
    }
    let lowered = session_studios.iter().map(|byte| (*byte).min(*studios as u8)).collect();
    let mut second = at_bytes(*studios, lowered, control, lent);
    if second.kind == DONE {
        let words = second.control.session_studios.iter_mut();
        words.zip(session_studios).for_each(|(word, byte)| *word = u32::from(*byte));
    }
    second
}

/// A setup with other studio bytes than those lent.
fn at_bytes(studios: u32, bytes: Vec<u8>, control: Control, lent: &mut Lent) -> Answer {
    let handed = lent.input.clone();
    lent.input.set(&bytes);
    let answer = right(&Call::Setup { studios, session_studios: bytes }, control, lent);
    lent.input = handed;
    answer
}

fn seventeen_bytes(_: &mut Notes, call: &Call, control: Control, lent: &mut Lent) -> Answer {
    match call {
        Call::Setup { studios, session_studios } if session_studios.len() > 16 => {
            at_bytes(*studios, session_studios[..16].to_vec(), control, lent)
        }
        _ => right(call, control, lent),
    }
}

fn hands_back_s(_: &mut Notes, call: &Call, control: Control, lent: &mut Lent) -> Answer {
    let mut answer = right(call, control, lent);
    if let Call::Setup { studios, .. } = call {
        answer.control.studios = *studios;
    }
    answer
}

fn hands_back_bytes(_: &mut Notes, call: &Call, control: Control, lent: &mut Lent) -> Answer {
    let mut answer = right(call, control, lent);
    if let Call::Setup { session_studios, .. } = call {
        let words = answer.control.session_studios.iter_mut();
        words.zip(session_studios).for_each(|(word, byte)| *word = u32::from(*byte));
    }
    answer
}

fn refused_clears(_: &mut Notes, call: &Call, control: Control, lent: &mut Lent) -> Answer {
    let answer = right(call, control, lent);
    if is_refused(&answer, 15) {
        lent.library.lent_mut().fill(0);
    }
    answer
}

fn leaves_log(_: &mut Notes, call: &Call, control: Control, lent: &mut Lent) -> Answer {
    let before = lent.log.clone();
    let answer = right(call, control, lent);
    if matches!(call, Call::Setup { .. }) {
        lent.log.copy_from(&before);
    }
    answer
}

/// Plays the call; after an accepted setup `change` makes the mistake. `before` is the library that it was lent.
fn changed(call: &Call, control: Control, lent: &mut Lent, change: fn(before: &Part, &mut Lent, &mut Answer)) -> Answer {
    let before = lent.library.clone();
    let mut answer = right(call, control, lent);
    if matches!(call, Call::Setup { .. }) && answer.kind == DONE {
        change(&before, lent, &mut answer);
    }
    answer
}

fn unlinked(_: &mut Notes, call: &Call, control: Control, lent: &mut Lent) -> Answer {
    changed(call, control, lent, |_, lent, _| lent.log.lent_mut().fill(0))
}

fn leaves_sixth(_: &mut Notes, call: &Call, control: Control, lent: &mut Lent) -> Answer {
    changed(call, control, lent, |before, lent, _| {
        lent.library.lent_mut()[COPY * SIXTH..].copy_from_slice(&before.lent()[COPY * SIXTH..]);
    })
}

fn from_512(_: &mut Notes, call: &Call, control: Control, lent: &mut Lent) -> Answer {
    changed(call, control, lent, |_, lent, answer| {
        let free: Vec<usize> = (0..RECORDS).rev().collect();
        log::put_chains(lent.log.lent_mut(), &mut answer.control, &[], &free);
    })
}

fn hands_back_chain(_: &mut Notes, call: &Call, control: Control, lent: &mut Lent) -> Answer {
    let mut answer = right(call, control, lent);
    if matches!(call, Call::Setup { .. }) {
        (answer.control.free_first, answer.control.free_last) = (1, 512);
    }
    answer
}

fn answers_s(_: &mut Notes, call: &Call, control: Control, lent: &mut Lent) -> Answer {
    let mut answer = right(call, control, lent);
    if matches!(call, Call::Setup { .. }) && answer.kind == DONE {
        answer.value = answer.control.studios;
    }
    answer
}

fn row_15_first(_: &mut Notes, call: &Call, control: Control, lent: &mut Lent) -> Answer {
    let mut answer = right(call, control, lent);
    if let Call::Setup { session_studios, .. } = call
        && is_refused(&answer, 1)
        && session_studios.len() != 16
    {
        answer.value = 15;
    }
    answer
}

fn longer_library(_: &mut Notes, call: &Call, control: Control, lent: &mut Lent) -> Answer {
    if lent.library.len() <= simulator::LIBRARY {
        return right(call, control, lent);
    }
    let whole = lent.library.lent().to_vec();
    lent.library.set(&whole[..simulator::LIBRARY]);
    let answer = right(call, control, lent);
    let mut bytes = lent.library.lent().to_vec();
    bytes.extend_from_slice(&whole[simulator::LIBRARY..]);
    lent.library.set(&bytes);
    answer
}

fn sessions_not_measured(_: &mut Notes, call: &Call, control: Control, lent: &mut Lent) -> Answer {
    let mut answer = right(call, control, lent);
    let others = lent.library.len() == simulator::LIBRARY && lent.log.len() == simulator::LOG;
    if is_refused(&answer, 1) && others && !matches!(call, Call::Setup { .. }) {
        answer.value = 2;
    }
    answer
}
