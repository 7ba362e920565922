//! Mistakes of the records that commits take, of the numbers that they give, and of the walk to a transaction (02's S-9).

use super::mistake::van_mistake;
use super::mistake::{
    Mistake, Notes, copy_mistake, copy_of, is_refused, mistake, order_mistake, refused, refused_8, restart_mistake, right,
};
use crate::call::Call;
use crate::lent::Lent;
use crate::log::{self, NEXT};
use crate::message;
use crate::rows;
use crate::single;
use simulator::{Answer, COMMITS, Control, DONE, UNIT};

pub const MISTAKES: &[Mistake] = &[
    mistake("commit takes records from the end of the free chain", from_end),
    mistake("commit takes the free records with the lowest indexes", lowest),
    mistake("7 though there are records enough: indexes that do not go up", must_go_up),
    mistake("7 though there are records enough: those that served before", must_be_fresh),
    mistake("7 is not given at 65,535 commits", past_last),
    mistake("7 at 65,534 commits", early_last),
    mistake("rows 7 and 8 swapped at 65,535 commits", rows_7_8_at_last),
    mistake("preview does not give 7 at 65,535 commits", preview_past_last),
    mistake("commit leaves free last where it takes the last free record", last_left),
    restart_mistake("commit leaves oldest where the log had no transaction", oldest_left),
    restart_mistake("commit leaves free first", first_left),
    restart_mistake("commit leaves the last record's link to the free chain", link_left),
    order_mistake("commits are numbered by the transactions in the log", numbered_in_log),
    copy_mistake("refresh walks from record 1", refresh_from_1),
    copy_mistake("refresh takes the oldest transaction for the first", refresh_from_oldest),
    van_mistake(mistake("van_write takes the oldest transaction for the first", write_from_oldest)),
    mistake("van_write walks from record 1", write_from_1),
];

fn committed(call: &Call, answer: &Answer) -> bool {
    matches!(call, Call::Commit { .. }) && answer.kind == DONE
}

/// Plays the call; an accepted commit takes the records that `choose` puts first.
fn choosing(call: &Call, control: Control, lent: &mut Lent, choose: fn(&mut Vec<usize>, usize)) -> Answer {
    let before = lent.log.clone();
    let mut answer = right(call, control, lent);
    if committed(call, &answer) {
        let count = call.input().len() / UNIT;
        let (mut transactions, mut free) = (log::transactions(before.lent(), &control), log::free(before.lent(), &control));
        choose(&mut free, count);
        let (taken, free) = free.split_at(count);
        lent.log.copy_from(&before);
        for (record, operation) in taken.iter().zip(call.input().chunks_exact(UNIT)) {
            lent.log.lent_mut()[UNIT * record..UNIT * (record + 1)].copy_from_slice(operation);
        }
        transactions.push(taken.to_vec());
        log::put_chains(lent.log.lent_mut(), &mut answer.control, &transactions, free);
    }
    answer
}

fn from_end(_: &mut Notes, call: &Call, control: Control, lent: &mut Lent) -> Answer {
    choosing(call, control, lent, |free, count| free.rotate_right(count))
}

fn lowest(_: &mut Notes, call: &Call, control: Control, lent: &mut Lent) -> Answer {
    choosing(call, control, lent, |free, _| free.sort_unstable())
}

/// A commit or preview that would be accepted is refused with 7 where this holds.
fn refusing(call: &Call, control: Control, lent: &mut Lent, holds: fn(&[usize], &Control) -> bool) -> Answer {
    let before = lent.clone();
    let answer = right(call, control, lent);
    let edits = matches!(call, Call::Commit { .. } | Call::Preview { .. }) && answer.kind == DONE;
    let taken: Vec<usize> = log::free(&rows::log(&before), &control).into_iter().take(call.input().len() / UNIT).collect();
    if !edits || !holds(&taken, &control) {
        return answer;
    }
    lent.copy_from(&before);
    refused(7, control)
}

fn must_go_up(_: &mut Notes, call: &Call, control: Control, lent: &mut Lent) -> Answer {
    refusing(call, control, lent, |taken, _| taken.windows(2).any(|pair| pair[1] < pair[0]))
}

/// In a log that has served from 1 on, records below the oldest transaction's have served.
fn must_be_fresh(_: &mut Notes, call: &Call, control: Control, lent: &mut Lent) -> Answer {
    refusing(call, control, lent, |taken, control| taken.iter().any(|record| *record + 1 < control.oldest as usize))
}

fn early_last(_: &mut Notes, call: &Call, control: Control, lent: &mut Lent) -> Answer {
    refusing(call, control, lent, |_, control| control.commits == COMMITS - 1)
}

/// Every count one lower, where that can be.
fn lowered(control: Control) -> Option<Control> {
    let mut lower = control;
    let studios = control.studios as usize;
    lower.retired = control.retired.checked_sub(1)?;
    lower.commits -= 1;
    lower.sent[..studios].iter_mut().chain(&mut lower.applied[..studios]).for_each(|count| *count -= 1);
    Some(lower)
}

fn past_last(_: &mut Notes, call: &Call, control: Control, lent: &mut Lent) -> Answer {
    let answer = right(call, control, lent);
    if !is_refused(&answer, 7) || control.commits < COMMITS {
        return answer;
    }
    let Some(lower) = lowered(control) else { return answer };
    let mut second = right(call, lower, lent);
    if !committed(call, &second) {
        return answer;
    }
    (second.value, second.control) = (COMMITS + 1, Control { commits: COMMITS + 1, retired: control.retired, ..second.control });
    (second.control.sent, second.control.applied) = (control.sent, control.applied);
    second
}

fn rows_7_8_at_last(_: &mut Notes, call: &Call, control: Control, lent: &mut Lent) -> Answer {
    let answer = right(call, control, lent);
    match is_refused(&answer, 7) && control.commits == COMMITS && rows::wrong_state_met(call.input(), lent) {
        true => refused_8(call, control, lent),
        false => answer,
    }
}

fn preview_past_last(_: &mut Notes, call: &Call, control: Control, lent: &mut Lent) -> Answer {
    let answer = right(call, control, lent);
    let fits = rows::free_records(&control) >= call.input().len() / UNIT && !rows::wrong_state_met(call.input(), lent);
    match matches!(call, Call::Preview { .. }) && is_refused(&answer, 7) && control.commits == COMMITS && fits {
        true => Answer { kind: DONE, value: COMMITS + 1, ..answer },
        false => answer,
    }
}

type Change = fn(&Control, &mut Lent, &mut Answer);

/// Plays the call; after an accepted commit `change` makes the mistake.
fn changed(call: &Call, control: Control, lent: &mut Lent, change: Change) -> Answer {
    let mut answer = right(call, control, lent);
    if committed(call, &answer) {
        change(&control, lent, &mut answer);
    }
    answer
}

fn last_left(_: &mut Notes, call: &Call, control: Control, lent: &mut Lent) -> Answer {
    changed(call, control, lent, |control, _, answer| answer.control.free_last = control.free_last)
}

fn oldest_left(_: &mut Notes, call: &Call, control: Control, lent: &mut Lent) -> Answer {
    changed(call, control, lent, |control, _, answer| answer.control.oldest = control.oldest)
}

fn first_left(_: &mut Notes, call: &Call, control: Control, lent: &mut Lent) -> Answer {
    changed(call, control, lent, |control, _, answer| answer.control.free_first = control.free_first)
}

fn link_left(_: &mut Notes, call: &Call, control: Control, lent: &mut Lent) -> Answer {
    changed(call, control, lent, |_, lent, answer| {
        let (records, _) = log::transaction(&answer.control, lent, answer.value);
        log::put_link(lent.log.lent_mut(), records[records.len() - 1], NEXT, log::named(answer.control.free_first));
    })
}

fn numbered_in_log(_: &mut Notes, call: &Call, control: Control, lent: &mut Lent) -> Answer {
    changed(call, control, lent, |control, _, answer| answer.value -= control.retired)
}

/// Plays the call; after a refresh its studio's copy is made anew by the transaction that a walk by this control finds.
fn refreshed_by(call: &Call, control: Control, lent: &mut Lent, walked: Control) -> Answer {
    let before = lent.library.clone();
    let answer = right(call, control, lent);
    if let (Call::Refresh { studio }, DONE) = (call, answer.kind) {
        lent.library.copy_from(&before);
        for record in log::records(lent.log.lent(), &walked, answer.value).unwrap_or_default() {
            let operation = lent.log.lent()[UNIT * record..UNIT * (record + 1)].to_vec();
            single::act(copy_of(lent, *studio), &operation);
        }
    }
    answer
}

fn refresh_from_1(_: &mut Notes, call: &Call, control: Control, lent: &mut Lent) -> Answer {
    refreshed_by(call, control, lent, Control { oldest: 1, ..control })
}

fn refresh_from_oldest(_: &mut Notes, call: &Call, control: Control, lent: &mut Lent) -> Answer {
    refreshed_by(call, control, lent, Control { retired: 0, ..control })
}

/// Plays the call; a message that was written is that of the transaction that a walk by this control finds, if there is one.
fn written_by(call: &Call, control: Control, lent: &mut Lent, walked: Control) -> Answer {
    let output = lent.output.clone();
    let answer = right(call, control, lent);
    let (Call::VanWrite { number, .. }, DONE) = (call, answer.kind) else { return answer };
    let Some(operations) = message::operations_in_log(&walked, lent, *number) else { return answer };
    lent.output.copy_from(&output);
    let message = message::of(*number, &operations);
    match lent.output.lent_mut().get_mut(..message.len()) {
        Some(start) => start.copy_from_slice(&message),
        None => return refused(17, control),
    }
    Answer { value: message.len() as u32, ..answer }
}

fn write_from_oldest(_: &mut Notes, call: &Call, control: Control, lent: &mut Lent) -> Answer {
    written_by(call, control, lent, Control { retired: 0, ..control })
}

fn write_from_1(_: &mut Notes, call: &Call, control: Control, lent: &mut Lent) -> Answer {
    written_by(call, control, lent, Control { oldest: 1, ..control })
}
