//! Mistakes of retire (02's S-9).

use super::mistake::{Mistake, Notes, clear_waiting, copy_mistake, copy_of, is_refused, mistake, refused, restart_mistake, right};
use crate::call::Call;
use crate::left::set_number;
use crate::lent::Lent;
use crate::log::{self, NEXT_TRANSACTION};
use crate::made::SIXTH;
use crate::rows;
use crate::single;
use simulator::{Answer, COPY, Control, DONE, UNIT};

pub const MISTAKES: &[Mistake] = &[
    restart_mistake("retire though one studio still needs the oldest", one_lags),
    restart_mistake("retire though the last studio still needs the oldest", last_not_asked),
    restart_mistake("retire once the oldest was sent to every studio", by_sent),
    mistake("retire asks studios above S", above_s),
    mistake("retire refused while something was sent and not applied", in_flight),
    mistake("retire refused while a read waits", while_waiting),
    mistake("retire keeps the last transaction of the log", keeps_last),
    mistake("retire with no transaction in the log is done", none_is_done),
    mistake("retire: row 20 before row 1", row_20_before_1),
    mistake("retire: row 20 before row 2", row_20_before_2),
    restart_mistake("retired records are not cleared", not_cleared),
    restart_mistake("retired records keep the link to the next transaction", link_kept),
    mistake("retired records join the free chain at its front", at_front),
    mistake("retired records join in reverse order", in_reverse),
    mistake("retired records join in the order of their indexes", sorted),
    restart_mistake("retired records join no chain", not_joined),
    restart_mistake("retired records are not linked to the free chain's end", not_linked),
    restart_mistake("retire leaves free last", last_left),
    mistake("retire leaves free first 0 where no record was free", first_left),
    restart_mistake("retire leaves used", used_left),
    restart_mistake("retire leaves oldest", oldest_left),
    restart_mistake("retire leaves the count retired", count_left),
    restart_mistake("retire lowers commits", lowers_commits),
    restart_mistake("the sixth copy is not acted on", not_acted),
    restart_mistake("the first operation alone acts on the sixth copy", first_acts),
    restart_mistake("the sixth copy becomes that of studio 1", copy_of_studio),
    copy_mistake("the retired transaction acts on the head end's copy again", acts_again),
    mistake("retire takes everything that every studio has", takes_all),
    mistake("retire returns 1", returns_1),
    mistake("retire returns the operations", returns_operations),
    mistake("retire returns the transactions left", returns_left),
    mistake("retire raises sessions' numbers to the count retired", raises_numbers),
    mistake("retire clears waiting reads", clears_requests),
    mistake("retire refused with 20 hands back an empty control", empty_control),
];

/// What an accepted retire was lent, and the records of its transaction.
struct Before {
    lent: Lent,
    records: Vec<usize>,
}

type Change = fn(&Before, &Control, &mut Lent, &mut Answer);

/// Plays the call; after an accepted retire `change` makes the mistake.
fn changed(call: &Call, control: Control, lent: &mut Lent, change: Change) -> Answer {
    let Call::Retire = call else { return right(call, control, lent) };
    let before = lent.clone();
    let mut answer = right(call, control, lent);
    if answer.kind == DONE {
        let (records, _) = log::transaction(&control, &before, answer.value);
        change(&Before { lent: before, records }, &control, lent, &mut answer);
    }
    answer
}

/// A retire that would be accepted is refused with 20 where this holds.
fn refusing(call: &Call, control: Control, lent: &mut Lent, holds: fn(&Control, &Lent) -> bool) -> Answer {
    let before = lent.clone();
    let answer = right(call, control, lent);
    if !matches!((call, answer.kind), (Call::Retire, DONE)) || !holds(&control, &before) {
        return answer;
    }
    lent.copy_from(&before);
    refused(20, control)
}

/// A retire that is refused with 20 is played as if each studio that is passed over had applied the oldest.
fn passing_over(call: &Call, control: Control, lent: &mut Lent, is_passed: fn(usize, &Control) -> bool) -> Answer {
    let answer = right(call, control, lent);
    if !matches!(call, Call::Retire) || !is_refused(&answer, 20) || control.commits == control.retired {
        return answer;
    }
    let mut level = control;
    for place in (0..control.studios as usize).filter(|place| is_passed(*place, &control)) {
        level.applied[place] = level.applied[place].max(control.retired + 1);
        level.sent[place] = level.sent[place].max(control.retired + 1);
    }
    let second = right(call, level, lent);
    match second.kind {
        DONE => Answer { control: Control { sent: control.sent, applied: control.applied, ..second.control }, ..second },
        _ => answer,
    }
}

fn one_lags(_: &mut Notes, call: &Call, control: Control, lent: &mut Lent) -> Answer {
    passing_over(call, control, lent, |place, control| {
        let needing = |place: usize| control.applied[place] == control.retired;
        needing(place) && (0..control.studios as usize).filter(|other| needing(*other)).count() == 1
    })
}

fn last_not_asked(_: &mut Notes, call: &Call, control: Control, lent: &mut Lent) -> Answer {
    passing_over(call, control, lent, |place, control| place + 1 == control.studios as usize)
}

fn by_sent(_: &mut Notes, call: &Call, control: Control, lent: &mut Lent) -> Answer {
    passing_over(call, control, lent, |place, control| control.sent[place] > control.retired)
}

fn above_s(_: &mut Notes, call: &Call, control: Control, lent: &mut Lent) -> Answer {
    refusing(call, control, lent, |control, _| control.applied.iter().any(|applied| *applied <= control.retired))
}

fn in_flight(_: &mut Notes, call: &Call, control: Control, lent: &mut Lent) -> Answer {
    refusing(call, control, lent, |control, _| control.sent != control.applied)
}

fn while_waiting(_: &mut Notes, call: &Call, control: Control, lent: &mut Lent) -> Answer {
    refusing(call, control, lent, |_, lent| lent.sessions.lent().chunks_exact(UNIT).any(|unit| unit[0] != 0))
}

fn keeps_last(_: &mut Notes, call: &Call, control: Control, lent: &mut Lent) -> Answer {
    refusing(call, control, lent, |control, _| control.commits - control.retired == 1)
}

fn none_is_done(_: &mut Notes, call: &Call, control: Control, lent: &mut Lent) -> Answer {
    let answer = right(call, control, lent);
    match is_refused(&answer, 20) && control.commits == control.retired {
        true => Answer { kind: DONE, value: control.retired, ..answer },
        false => answer,
    }
}

/// Where this row stops a retire and row 20 holds too, 20 in its place.
fn row_20_before(row: u32, call: &Call, control: Control, lent: &mut Lent) -> Answer {
    let answer = right(call, control, lent);
    match matches!(call, Call::Retire) && is_refused(&answer, row) && !rows::is_retirable(&control) {
        true => refused(20, control),
        false => answer,
    }
}

fn row_20_before_1(_: &mut Notes, call: &Call, control: Control, lent: &mut Lent) -> Answer {
    row_20_before(1, call, control, lent)
}

fn row_20_before_2(_: &mut Notes, call: &Call, control: Control, lent: &mut Lent) -> Answer {
    row_20_before(2, call, control, lent)
}

fn not_cleared(_: &mut Notes, call: &Call, control: Control, lent: &mut Lent) -> Answer {
    changed(call, control, lent, |before, _, lent, _| {
        for record in &before.records {
            let (unit, old) = (UNIT * record, before.lent.log.lent());
            lent.log.lent_mut()[unit..unit + 12].copy_from_slice(&old[unit..unit + 12]);
            lent.log.lent_mut()[unit + 16..unit + UNIT].copy_from_slice(&old[unit + 16..unit + UNIT]);
        }
    })
}

fn link_kept(_: &mut Notes, call: &Call, control: Control, lent: &mut Lent) -> Answer {
    changed(call, control, lent, |before, _, lent, answer| {
        let next = log::named(answer.control.oldest);
        log::put_link(lent.log.lent_mut(), before.records[0], NEXT_TRANSACTION, next);
    })
}

/// Puts the retired records into the free chain in another way.
fn joined(before: &Before, control: &Control, lent: &mut Lent, answer: &mut Answer, join: fn(Vec<usize>, Vec<usize>) -> Vec<usize>) {
    let transactions = log::transactions(lent.log.lent(), &answer.control);
    let free = join(log::free(before.lent.log.lent(), control), before.records.clone());
    log::put_chains(lent.log.lent_mut(), &mut answer.control, &transactions, &free);
}

fn at_front(_: &mut Notes, call: &Call, control: Control, lent: &mut Lent) -> Answer {
    changed(call, control, lent, |before, control, lent, answer| {
        joined(before, control, lent, answer, |free, retired| [retired, free].concat());
    })
}

fn in_reverse(_: &mut Notes, call: &Call, control: Control, lent: &mut Lent) -> Answer {
    changed(call, control, lent, |before, control, lent, answer| {
        joined(before, control, lent, answer, |free, retired| free.into_iter().chain(retired.into_iter().rev()).collect());
    })
}

fn sorted(_: &mut Notes, call: &Call, control: Control, lent: &mut Lent) -> Answer {
    changed(call, control, lent, |before, control, lent, answer| {
        joined(before, control, lent, answer, |free, mut retired| {
            retired.sort_unstable();
            [free, retired].concat()
        });
    })
}

fn not_joined(_: &mut Notes, call: &Call, control: Control, lent: &mut Lent) -> Answer {
    changed(call, control, lent, |before, control, lent, answer| joined(before, control, lent, answer, |free, _| free))
}

fn not_linked(_: &mut Notes, call: &Call, control: Control, lent: &mut Lent) -> Answer {
    changed(call, control, lent, |_, control, lent, _| {
        if let Some(last) = log::named(control.free_last) {
            log::put_link(lent.log.lent_mut(), last, log::NEXT, None);
        }
    })
}

fn last_left(_: &mut Notes, call: &Call, control: Control, lent: &mut Lent) -> Answer {
    changed(call, control, lent, |_, control, _, answer| answer.control.free_last = control.free_last)
}

fn first_left(_: &mut Notes, call: &Call, control: Control, lent: &mut Lent) -> Answer {
    changed(call, control, lent, |_, control, _, answer| answer.control.free_first = control.free_first)
}

fn used_left(_: &mut Notes, call: &Call, control: Control, lent: &mut Lent) -> Answer {
    changed(call, control, lent, |_, control, _, answer| answer.control.used = control.used)
}

fn oldest_left(_: &mut Notes, call: &Call, control: Control, lent: &mut Lent) -> Answer {
    changed(call, control, lent, |_, control, _, answer| answer.control.oldest = control.oldest)
}

fn count_left(_: &mut Notes, call: &Call, control: Control, lent: &mut Lent) -> Answer {
    changed(call, control, lent, |_, control, _, answer| answer.control.retired = control.retired)
}

fn lowers_commits(_: &mut Notes, call: &Call, control: Control, lent: &mut Lent) -> Answer {
    changed(call, control, lent, |_, _, _, answer| answer.control.commits -= 1)
}

/// The operations of the retired transaction.
fn operations(before: &Before) -> impl Iterator<Item = &[u8]> {
    before.records.iter().map(|record| &before.lent.log.lent()[UNIT * record..UNIT * (record + 1)])
}

fn not_acted(_: &mut Notes, call: &Call, control: Control, lent: &mut Lent) -> Answer {
    changed(call, control, lent, |before, _, lent, _| lent.library.copy_from(&before.lent.library))
}

fn first_acts(_: &mut Notes, call: &Call, control: Control, lent: &mut Lent) -> Answer {
    changed(call, control, lent, |before, _, lent, _| {
        lent.library.copy_from(&before.lent.library);
        operations(before).take(1).for_each(|operation| single::act(copy_of(lent, SIXTH as u32), operation));
    })
}

fn copy_of_studio(_: &mut Notes, call: &Call, control: Control, lent: &mut Lent) -> Answer {
    changed(call, control, lent, |_, _, lent, _| lent.library.lent_mut().copy_within(COPY..2 * COPY, SIXTH * COPY))
}

fn acts_again(_: &mut Notes, call: &Call, control: Control, lent: &mut Lent) -> Answer {
    changed(call, control, lent, |before, _, lent, _| operations(before).for_each(|operation| single::act(copy_of(lent, 0), operation)))
}

fn takes_all(_: &mut Notes, call: &Call, control: Control, lent: &mut Lent) -> Answer {
    changed(call, control, lent, |_, _, lent, answer| {
        while let next @ Answer { kind: DONE, .. } = right(&Call::Retire, answer.control, lent) {
            *answer = next;
        }
    })
}

fn returns_1(_: &mut Notes, call: &Call, control: Control, lent: &mut Lent) -> Answer {
    changed(call, control, lent, |_, _, _, answer| answer.value = 1)
}

fn returns_operations(_: &mut Notes, call: &Call, control: Control, lent: &mut Lent) -> Answer {
    changed(call, control, lent, |before, _, _, answer| answer.value = before.records.len() as u32)
}

fn returns_left(_: &mut Notes, call: &Call, control: Control, lent: &mut Lent) -> Answer {
    changed(call, control, lent, |_, control, _, answer| answer.value = control.commits - answer.value)
}

fn raises_numbers(_: &mut Notes, call: &Call, control: Control, lent: &mut Lent) -> Answer {
    changed(call, control, lent, |before, control, lent, answer| {
        for (session, unit) in (1..).zip(before.lent.sessions.lent().chunks_exact(UNIT)) {
            if control.session_studios[session as usize - 1] != 0 {
                set_number(lent, session, rows::session_number(unit).max(answer.value));
            }
        }
    })
}

fn clears_requests(_: &mut Notes, call: &Call, control: Control, lent: &mut Lent) -> Answer {
    changed(call, control, lent, |_, _, lent, _| (1..=16).for_each(|session| clear_waiting(lent, session)))
}

fn empty_control(_: &mut Notes, call: &Call, control: Control, lent: &mut Lent) -> Answer {
    let answer = right(call, control, lent);
    if is_refused(&answer, 20) { refused(20, Control::default()) } else { answer }
}
