//! Mistakes of send and refresh.

use super::mistake::{Mistake, Notes, copy_mistake, copy_of, is_refused, mistake, refused, right};
use crate::call::Call;
use crate::lent::Lent;
use crate::log::transaction;
use crate::single;
use simulator::{Answer, Control, DONE};

pub const MISTAKES: &[Mistake] = &[
    copy_mistake("applied raised after the first operation, others later", applied_early),
    copy_mistake("refresh counts and leaves the carts", refresh_counts_only),
    copy_mistake("refresh plays the transaction after", refresh_plays_next),
    mistake("refresh acts on studio 1's copy", refresh_on_first_studio),
    mistake("refresh acts on carts in the other state", refresh_forces),
    mistake("refresh plays a transaction's first seven operations", refresh_seven),
    mistake("rows 9 and 10 swapped", rows_9_10),
    mistake("window of 31", window_31),
    mistake("a studio above S is idle, not unknown", studio_above_s),
    mistake("send returns sent before its rise", sent_before),
    mistake("send raises every studio", send_raises_all),
    mistake("refresh compares with commits, not with sent", refresh_unsent),
];

/// The studio of an accepted refresh.
fn refreshed(call: &Call, answer: &Answer) -> Option<u32> {
    match call {
        Call::Refresh { studio } if answer.kind == DONE => Some(*studio),
        _ => None,
    }
}

fn play_on(copy: &mut [u8], operations: &Operations) {
    operations.iter().for_each(|operation| single::act(copy, operation));
}

type Operations = [Vec<u8>];

/// Plays the call; after a refresh its studio's copy is made anew by `remake`
/// from the copy before, the transaction, and the one before that.
fn remade(call: &Call, control: Control, lent: &mut Lent, remake: fn(&mut [u8], &Operations, &Operations)) -> Answer {
    let before = lent.library.clone();
    let answer = right(call, control, lent);
    if let Some(studio) = refreshed(call, &answer) {
        let (_, operations) = transaction(&control, lent, answer.value);
        let earlier = match answer.value - 1 {
            number if number > control.retired => transaction(&control, lent, number).1,
            _ => Vec::new(),
        };
        lent.library.copy_from(&before);
        remake(copy_of(lent, studio), &operations, &earlier);
    }
    answer
}

fn applied_early(_: &mut Notes, call: &Call, control: Control, lent: &mut Lent) -> Answer {
    remade(call, control, lent, |copy, operations, earlier| {
        play_on(copy, earlier.get(1..).unwrap_or(&[]));
        play_on(copy, &operations[..1]);
    })
}

fn refresh_counts_only(_: &mut Notes, call: &Call, control: Control, lent: &mut Lent) -> Answer {
    remade(call, control, lent, |_, _, _| ())
}

fn refresh_seven(_: &mut Notes, call: &Call, control: Control, lent: &mut Lent) -> Answer {
    remade(call, control, lent, |copy, operations, _| {
        play_on(copy, &operations[..operations.len().min(7)]);
    })
}

fn refresh_forces(_: &mut Notes, call: &Call, control: Control, lent: &mut Lent) -> Answer {
    remade(call, control, lent, |copy, operations, _| {
        for operation in operations {
            let at = 80 * (usize::from(operation[2]) - 1);
            if operation[0] == 1 {
                copy[at..at + 80].fill(0);
            }
            single::act(copy, operation);
        }
    })
}

fn refresh_plays_next(_: &mut Notes, call: &Call, control: Control, lent: &mut Lent) -> Answer {
    let before = lent.library.clone();
    let answer = right(call, control, lent);
    if let Some(studio) = refreshed(call, &answer)
        && answer.value < control.commits
    {
        let (_, operations) = transaction(&control, lent, answer.value + 1);
        lent.library.copy_from(&before);
        play_on(copy_of(lent, studio), &operations);
    }
    answer
}

fn refresh_on_first_studio(_: &mut Notes, call: &Call, control: Control, lent: &mut Lent) -> Answer {
    let before = lent.library.clone();
    let answer = right(call, control, lent);
    if refreshed(call, &answer).is_some() {
        let (_, operations) = transaction(&control, lent, answer.value);
        lent.library.copy_from(&before);
        play_on(copy_of(lent, 1), &operations);
    }
    answer
}

fn rows_9_10(_: &mut Notes, call: &Call, control: Control, lent: &mut Lent) -> Answer {
    let answer = right(call, control, lent);
    if let Call::Send { studio } = call
        && is_refused(&answer, 9)
    {
        let place = *studio as usize - 1;
        if control.sent[place] - control.applied[place] == 32 {
            return refused(10, control);
        }
    }
    answer
}

fn window_31(_: &mut Notes, call: &Call, control: Control, lent: &mut Lent) -> Answer {
    let answer = right(call, control, lent);
    if let Call::Send { studio } = call
        && answer.kind == DONE
    {
        let place = *studio as usize - 1;
        if control.sent[place] - control.applied[place] == 31 {
            return refused(10, control);
        }
    }
    answer
}

fn studio_above_s(_: &mut Notes, call: &Call, control: Control, lent: &mut Lent) -> Answer {
    let answer = right(call, control, lent);
    match call {
        Call::Refresh { studio: 1..=4 } if is_refused(&answer, 3) => refused(11, control),
        _ => answer,
    }
}

fn sent_before(_: &mut Notes, call: &Call, control: Control, lent: &mut Lent) -> Answer {
    let mut answer = right(call, control, lent);
    if matches!(call, Call::Send { .. }) && answer.kind == DONE {
        answer.value -= 1;
    }
    answer
}

fn send_raises_all(_: &mut Notes, call: &Call, control: Control, lent: &mut Lent) -> Answer {
    let mut answer = right(call, control, lent);
    if matches!(call, Call::Send { .. }) && answer.kind == DONE {
        for studio in 0..control.studios as usize {
            answer.control.sent[studio] = answer.value;
        }
    }
    answer
}

fn refresh_unsent(_: &mut Notes, call: &Call, control: Control, lent: &mut Lent) -> Answer {
    let answer = right(call, control, lent);
    let Call::Refresh { studio } = call else { return answer };
    if !is_refused(&answer, 11) {
        return answer;
    }
    let mut ahead = control;
    ahead.sent[*studio as usize - 1] += 1;
    let second = right(call, ahead, lent);
    if second.kind == DONE { second } else { answer }
}
