//! Mistakes of load (02's S-8), and of the calls after it.

use super::mistake::{Mistake, Notes, clear_waiting, copy_mistake, is_refused, mistake, order_mistake, refused, restart_mistake, right};
use super::mistake::{session_unit, walk_mistake};
use crate::call::Call;
use crate::left::{self, set_number};
use crate::lent::Lent;
use crate::made::{self, Log, Misfit};
use crate::rows;
use simulator::{ANSWERED, Answer, CARTS, COPY, Control, DONE, UNIT, WAITS};

pub const MISTAKES: &[Mistake] = &[
    restart_mistake("load: the head end's copy is held to what studio 1 has applied", head_end_by_studio),
    restart_mistake("load: studios are compared before the walk reaches their applied", one_before),
    restart_mistake("load: studios are held to what was sent to them", by_sent),
    restart_mistake("load: studios are held to commits", by_commits),
    mistake("load: the head end's copy is not compared", no_head_end),
    mistake("load: the first studio's copy is not compared", no_first),
    mistake("load: the last studio's copy is not compared", no_last),
    mistake("load: no studio's copy is compared", no_studios),
    mistake("load: a studio that has applied nothing is not compared", no_fresh_studio),
    mistake("load: a studio that has applied everything is not compared", no_level_studio),
    mistake("load: a copy of the state before is accepted", state_before),
    mistake("load: the last cart is not compared", no_last_cart),
    mistake("load: carts are compared by whether they are held", held_only),
    mistake("load: titles are compared by their lengths", lengths_only),
    mistake("load: audio numbers are not compared", no_audio),
    mistake("load: an operation in a wrong state is passed over", no_misfits),
    mistake("load: only transactions that a studio has applied are judged", applied_by_one),
    mistake("load: only transactions that every studio has applied are judged", applied_by_all),
    mistake("load: the last transaction is not judged", no_last_transaction),
    mistake("load: only the first operation of a transaction is judged", first_operations),
    mistake("load: only new is judged by its cart's state", new_only),
    mistake("load: the layout test alone", layout_only),
    mistake("load: an empty log is accepted with any carts", empty_log_accepted),
    restart_mistake("load: an empty log is refused", empty_log_refused),
    mistake("load: a full log is refused", full_log_refused),
    restart_mistake("load: refused while a read waits", waiting_refused),
    restart_mistake("load: refused while a read waits that its studio has reached", reached_refused),
    restart_mistake("load: refused where a studio is behind a session's number", behind_refused),
    restart_mistake("load: refused where something was sent and not applied", in_flight_refused),
    restart_mistake("load: refused for a spaced title in the log", spaced_refused),
    mistake("load: row 19 before row 1", row_19_before_1),
    mistake("load: row 19 before row 2", row_19_before_2),
    mistake("load: a cart above S is refused with 19", above_s),
    restart_mistake("load: copies are worked out from an empty library", from_empty),
    mistake("load: a studio that has applied what is retired and no more is not compared", no_retired_studio),
    restart_mistake("load: refused where something is retired", retired_refused),
    restart_mistake("load returns the records used", returns_used),
    restart_mistake("load returns the transactions in the log", returns_logged),
    restart_mistake("load returns 0", returns_0),
    restart_mistake("load returns what studio 1 has applied", returns_applied),
    mistake("load refused with 19 hands back an empty control", empty_control),
    mistake("load refused with 19 makes the copies right", mends),
    mistake("load makes the copies right and accepts them", accepts_mended),
    mistake("load clears the waiting reads", clears_requests),
    walk_mistake("load resets the sessions' numbers", resets_numbers),
    walk_mistake("load lowers the sessions' numbers to what their studios have applied", lowers_numbers),
    restart_mistake("load takes back what was sent and not applied", takes_back),
    copy_mistake("load counts every studio as caught up", caught_up),
    order_mistake("commits after a load are numbered from 1", numbered_again),
    order_mistake("a collect after a load takes the first waiting request", first_request),
    order_mistake("a collect takes the request of the last read that waited, not the one in memory", kept_request),
];

/// Whether a load that rows 1 and 2 let through is accepted.
type Accepts = fn(&Control, &Lent) -> bool;

/// Plays the call; a load that rows 1 and 2 let through is accepted where `accepts` says so.
fn judged(call: &Call, control: Control, lent: &mut Lent, accepts: Accepts) -> Answer {
    let answer = right(call, control, lent);
    if !matches!(call, Call::Load) || is_refused(&answer, 1) || is_refused(&answer, 2) {
        return answer;
    }
    if accepts(&control, lent) { left::by_load(control) } else { refused(19, control) }
}

/// Whether no logged operation met its cart in the wrong state, of those that count.
fn all_met(control: &Control, lent: &Lent, counts: fn(&Misfit, &Control) -> bool) -> bool {
    !made::faults(control, lent).misfits.iter().any(|misfit| counts(misfit, control))
}

/// Whether all is as it should be, with each copy held to the state that `state` gives, or not compared.
fn held_to(control: &Control, lent: &Lent, state: fn(usize, &Control) -> Option<u32>) -> bool {
    let log = Log::new(control, lent);
    let is_made = |copy: usize| state(copy, control).is_none_or(|n| *copy_in(lent, copy) == log.library(n));
    made::copies(control).all(is_made) && all_met(control, lent, |_, _| true)
}

/// Whether all is as it should be, with each cart compared by `same`, which is given its place.
fn carts_same(control: &Control, lent: &Lent, same: fn(usize, &[u8], &[u8]) -> bool) -> bool {
    let log = Log::new(control, lent);
    let is_made = |copy: usize| {
        let made = log.library(made::taken(copy, control));
        let mut carts = copy_in(lent, copy).chunks_exact(UNIT).zip(made.chunks_exact(UNIT)).enumerate();
        carts.all(|(place, (cart, right))| same(place, cart, right))
    };
    made::copies(control).all(is_made) && all_met(control, lent, |_, _| true)
}

fn copy_in(lent: &Lent, copy: usize) -> &[u8] {
    &lent.library.lent()[COPY * copy..COPY * (copy + 1)]
}

/// What a copy is rightly held to.
fn taken(copy: usize, control: &Control) -> Option<u32> {
    Some(made::taken(copy, control))
}

fn head_end_by_studio(_: &mut Notes, call: &Call, control: Control, lent: &mut Lent) -> Answer {
    judged(call, control, lent, |control, lent| held_to(control, lent, |copy, control| taken(copy.max(1), control)))
}

fn one_before(_: &mut Notes, call: &Call, control: Control, lent: &mut Lent) -> Answer {
    judged(call, control, lent, |control, lent| {
        held_to(control, lent, |copy, control| taken(copy, control).map(|n| if copy == 0 { n } else { n.saturating_sub(1) }))
    })
}

fn by_sent(_: &mut Notes, call: &Call, control: Control, lent: &mut Lent) -> Answer {
    judged(call, control, lent, |control, lent| {
        held_to(control, lent, |copy, control| if copy == 0 { Some(control.commits) } else { Some(control.sent[copy - 1]) })
    })
}

fn by_commits(_: &mut Notes, call: &Call, control: Control, lent: &mut Lent) -> Answer {
    judged(call, control, lent, |control, lent| held_to(control, lent, |_, control| Some(control.commits)))
}

fn no_head_end(_: &mut Notes, call: &Call, control: Control, lent: &mut Lent) -> Answer {
    judged(call, control, lent, |control, lent| held_to(control, lent, |copy, control| taken(copy, control).filter(|_| copy != 0)))
}

fn no_first(_: &mut Notes, call: &Call, control: Control, lent: &mut Lent) -> Answer {
    judged(call, control, lent, |control, lent| held_to(control, lent, |copy, control| taken(copy, control).filter(|_| copy != 1)))
}

fn no_last(_: &mut Notes, call: &Call, control: Control, lent: &mut Lent) -> Answer {
    judged(call, control, lent, |control, lent| {
        held_to(control, lent, |copy, control| taken(copy, control).filter(|_| copy != control.studios as usize))
    })
}

fn no_studios(_: &mut Notes, call: &Call, control: Control, lent: &mut Lent) -> Answer {
    judged(call, control, lent, |control, lent| held_to(control, lent, |copy, control| taken(copy, control).filter(|_| copy == 0)))
}

fn no_fresh_studio(_: &mut Notes, call: &Call, control: Control, lent: &mut Lent) -> Answer {
    judged(call, control, lent, |control, lent| {
        held_to(control, lent, |copy, control| taken(copy, control).filter(|n| copy == 0 || *n > 0))
    })
}

fn no_level_studio(_: &mut Notes, call: &Call, control: Control, lent: &mut Lent) -> Answer {
    judged(call, control, lent, |control, lent| {
        held_to(control, lent, |copy, control| taken(copy, control).filter(|n| copy == 0 || *n < control.commits))
    })
}

fn state_before(_: &mut Notes, call: &Call, control: Control, lent: &mut Lent) -> Answer {
    judged(call, control, lent, |control, lent| {
        let log = Log::new(control, lent);
        let is_near = |copy: usize| {
            let n = made::taken(copy, control);
            [n, n.saturating_sub(1)].into_iter().any(|n| *copy_in(lent, copy) == log.library(n))
        };
        made::copies(control).all(is_near) && all_met(control, lent, |_, _| true)
    })
}

fn no_last_cart(_: &mut Notes, call: &Call, control: Control, lent: &mut Lent) -> Answer {
    judged(call, control, lent, |control, lent| carts_same(control, lent, |place, cart, right| place == CARTS - 1 || cart == right))
}

fn held_only(_: &mut Notes, call: &Call, control: Control, lent: &mut Lent) -> Answer {
    judged(call, control, lent, |control, lent| carts_same(control, lent, |_, cart, right| cart[0] == right[0]))
}

fn lengths_only(_: &mut Notes, call: &Call, control: Control, lent: &mut Lent) -> Answer {
    judged(call, control, lent, |control, lent| carts_same(control, lent, |_, cart, right| cart[..16] == right[..16]))
}

fn no_audio(_: &mut Notes, call: &Call, control: Control, lent: &mut Lent) -> Answer {
    judged(call, control, lent, |control, lent| {
        carts_same(control, lent, |_, cart, right| cart[..4] == right[..4] && cart[8..] == right[8..])
    })
}

/// A load that judges only those operations that count.
fn judging(call: &Call, control: Control, lent: &mut Lent, counts: fn(&Misfit, &Control) -> bool) -> Answer {
    let answer = judged(call, control, lent, |control, lent| made::faults(control, lent).copies.is_empty());
    let loads = matches!(call, Call::Load) && answer.kind == DONE;
    if loads && !all_met(&control, lent, counts) { refused(19, control) } else { answer }
}

fn no_misfits(_: &mut Notes, call: &Call, control: Control, lent: &mut Lent) -> Answer {
    judging(call, control, lent, |_, _| false)
}

fn applied_by_one(_: &mut Notes, call: &Call, control: Control, lent: &mut Lent) -> Answer {
    judging(call, control, lent, |misfit, control| control.applied.iter().any(|applied| misfit.transaction <= *applied))
}

fn applied_by_all(_: &mut Notes, call: &Call, control: Control, lent: &mut Lent) -> Answer {
    judging(call, control, lent, |misfit, control| {
        control.applied[..control.studios as usize].iter().all(|applied| misfit.transaction <= *applied)
    })
}

fn no_last_transaction(_: &mut Notes, call: &Call, control: Control, lent: &mut Lent) -> Answer {
    judging(call, control, lent, |misfit, control| misfit.transaction < control.commits)
}

fn first_operations(_: &mut Notes, call: &Call, control: Control, lent: &mut Lent) -> Answer {
    judging(call, control, lent, |misfit, _| misfit.place == 1)
}

fn new_only(_: &mut Notes, call: &Call, control: Control, lent: &mut Lent) -> Answer {
    judging(call, control, lent, |misfit, _| misfit.kind == 1)
}

fn layout_only(_: &mut Notes, call: &Call, control: Control, lent: &mut Lent) -> Answer {
    judged(call, control, lent, |_, _| true)
}

/// Whether a load is right to accept.
fn is_whole(control: &Control, lent: &Lent) -> bool {
    !made::faults(control, lent).any()
}

fn empty_log_accepted(_: &mut Notes, call: &Call, control: Control, lent: &mut Lent) -> Answer {
    judged(call, control, lent, |control, lent| control.commits == 0 || is_whole(control, lent))
}

fn empty_log_refused(_: &mut Notes, call: &Call, control: Control, lent: &mut Lent) -> Answer {
    judged(call, control, lent, |control, lent| control.commits > 0 && is_whole(control, lent))
}

fn full_log_refused(_: &mut Notes, call: &Call, control: Control, lent: &mut Lent) -> Answer {
    judged(call, control, lent, |control, lent| control.used < 512 && is_whole(control, lent))
}

/// Whether a session is so; it is given its 80 bytes and what its studio has applied.
fn any_session(control: &Control, lent: &Lent, is: fn(&[u8], u32) -> bool) -> bool {
    let mut units = lent.sessions.lent().chunks_exact(UNIT).zip(control.session_studios);
    units.any(|(unit, studio)| studio != 0 && is(unit, control.applied[studio as usize - 1]))
}

fn waiting_refused(_: &mut Notes, call: &Call, control: Control, lent: &mut Lent) -> Answer {
    judged(call, control, lent, |control, lent| !any_session(control, lent, |unit, _| unit[0] != 0) && is_whole(control, lent))
}

fn reached_refused(_: &mut Notes, call: &Call, control: Control, lent: &mut Lent) -> Answer {
    judged(call, control, lent, |control, lent| {
        let reached = any_session(control, lent, |unit, applied| unit[0] != 0 && rows::session_number(unit) <= applied);
        !reached && is_whole(control, lent)
    })
}

fn behind_refused(_: &mut Notes, call: &Call, control: Control, lent: &mut Lent) -> Answer {
    judged(call, control, lent, |control, lent| {
        !any_session(control, lent, |unit, applied| applied < rows::session_number(unit)) && is_whole(control, lent)
    })
}

fn in_flight_refused(_: &mut Notes, call: &Call, control: Control, lent: &mut Lent) -> Answer {
    judged(call, control, lent, |control, lent| control.sent == control.applied && is_whole(control, lent))
}

fn spaced_refused(_: &mut Notes, call: &Call, control: Control, lent: &mut Lent) -> Answer {
    judged(call, control, lent, |control, lent| !lent.log.lent().chunks_exact(UNIT).any(rows::title_spaced) && is_whole(control, lent))
}

fn from_empty(_: &mut Notes, call: &Call, control: Control, lent: &mut Lent) -> Answer {
    judged(call, control, lent, |control, lent| {
        let mut emptied = lent.clone();
        emptied.library.lent_mut()[COPY * made::SIXTH..].fill(0);
        is_whole(control, &emptied)
    })
}

fn no_retired_studio(_: &mut Notes, call: &Call, control: Control, lent: &mut Lent) -> Answer {
    judged(call, control, lent, |control, lent| {
        held_to(control, lent, |copy, control| taken(copy, control).filter(|n| copy == 0 || control.retired == 0 || *n > control.retired))
    })
}

fn retired_refused(_: &mut Notes, call: &Call, control: Control, lent: &mut Lent) -> Answer {
    judged(call, control, lent, |control, lent| control.retired == 0 && is_whole(control, lent))
}

fn returns_logged(_: &mut Notes, call: &Call, control: Control, lent: &mut Lent) -> Answer {
    changed(call, control, lent, |control, _, answer| answer.value = control.commits - control.retired)
}

/// Where this row stops a load and row 19 holds too, 19 in its place.
fn row_19_before(row: u32, call: &Call, control: Control, lent: &mut Lent) -> Answer {
    let answer = right(call, control, lent);
    let holds = matches!(call, Call::Load) && is_refused(&answer, row) && made::faults(&control, lent).any();
    if holds { refused(19, control) } else { answer }
}

fn row_19_before_1(_: &mut Notes, call: &Call, control: Control, lent: &mut Lent) -> Answer {
    row_19_before(1, call, control, lent)
}

fn row_19_before_2(_: &mut Notes, call: &Call, control: Control, lent: &mut Lent) -> Answer {
    row_19_before(2, call, control, lent)
}

fn above_s(_: &mut Notes, call: &Call, control: Control, lent: &mut Lent) -> Answer {
    let answer = right(call, control, lent);
    let above = COPY * (control.studios.min(4) as usize + 1);
    let copies = above..COPY * made::SIXTH;
    let is_above = matches!(call, Call::Load) && is_refused(&answer, 2) && lent.library.lent()[copies].iter().any(|byte| *byte != 0);
    if is_above { refused(19, control) } else { answer }
}

type Change = fn(&Control, &mut Lent, &mut Answer);

/// Plays the call; after an accepted load `change` makes the mistake.
fn changed(call: &Call, control: Control, lent: &mut Lent, change: Change) -> Answer {
    let mut answer = right(call, control, lent);
    if matches!((call, answer.kind), (Call::Load, DONE)) {
        change(&control, lent, &mut answer);
    }
    answer
}

fn returns_used(_: &mut Notes, call: &Call, control: Control, lent: &mut Lent) -> Answer {
    changed(call, control, lent, |control, _, answer| answer.value = control.used)
}

fn returns_0(_: &mut Notes, call: &Call, control: Control, lent: &mut Lent) -> Answer {
    changed(call, control, lent, |_, _, answer| answer.value = 0)
}

fn returns_applied(_: &mut Notes, call: &Call, control: Control, lent: &mut Lent) -> Answer {
    changed(call, control, lent, |control, _, answer| answer.value = control.applied[0])
}

fn empty_control(_: &mut Notes, call: &Call, control: Control, lent: &mut Lent) -> Answer {
    let answer = right(call, control, lent);
    if is_refused(&answer, 19) { refused(19, Control::default()) } else { answer }
}

fn mends(_: &mut Notes, call: &Call, control: Control, lent: &mut Lent) -> Answer {
    let answer = right(call, control, lent);
    if is_refused(&answer, 19) {
        made::make_copies(&control, lent);
    }
    answer
}

fn accepts_mended(notes: &mut Notes, call: &Call, control: Control, lent: &mut Lent) -> Answer {
    let answer = mends(notes, call, control, lent);
    if is_refused(&answer, 19) { left::by_load(control) } else { answer }
}

fn used_sessions(control: &Control) -> impl Iterator<Item = (u32, u32)> {
    (1..).zip(control.session_studios).filter(|(_, studio)| *studio != 0)
}

fn clears_requests(_: &mut Notes, call: &Call, control: Control, lent: &mut Lent) -> Answer {
    changed(call, control, lent, |control, lent, _| used_sessions(control).for_each(|(session, _)| clear_waiting(lent, session)))
}

fn resets_numbers(_: &mut Notes, call: &Call, control: Control, lent: &mut Lent) -> Answer {
    changed(call, control, lent, |control, lent, _| used_sessions(control).for_each(|(session, _)| set_number(lent, session, 0)))
}

fn lowers_numbers(_: &mut Notes, call: &Call, control: Control, lent: &mut Lent) -> Answer {
    changed(call, control, lent, |control, lent, _| {
        for (session, studio) in used_sessions(control) {
            let number = rows::session_number(session_unit(lent, session));
            set_number(lent, session, number.min(control.applied[studio as usize - 1]));
        }
    })
}

fn takes_back(_: &mut Notes, call: &Call, control: Control, lent: &mut Lent) -> Answer {
    changed(call, control, lent, |control, _, answer| answer.control.sent = control.applied)
}

fn caught_up(_: &mut Notes, call: &Call, control: Control, lent: &mut Lent) -> Answer {
    changed(call, control, lent, |control, _, answer| {
        let studios = control.studios as usize;
        answer.control.sent[..studios].fill(control.commits);
        answer.control.applied[..studios].fill(control.commits);
    })
}

fn numbered_again(notes: &mut Notes, call: &Call, control: Control, lent: &mut Lent) -> Answer {
    let mut answer = right(call, control, lent);
    match (call, answer.kind) {
        (Call::Setup { .. }, _) => notes.loaded = None,
        (Call::Load, DONE) => notes.loaded = Some(answer.value),
        (Call::Commit { .. }, DONE) => answer.value = answer.value.saturating_sub(notes.loaded.unwrap_or(0)).max(1),
        _ => {}
    }
    answer
}

/// Plays a collect as if this were the session's request; where it is not answered the request stays.
fn collect_for(request: &[u8], session: u32, call: &Call, control: Control, lent: &mut Lent) -> Answer {
    let before = session_unit(lent, session).to_vec();
    let unit = session_unit(lent, session);
    unit[..2].copy_from_slice(&request[..2]);
    unit[16..].copy_from_slice(&request[16..]);
    let answer = right(call, control, lent);
    if answer.kind != ANSWERED {
        session_unit(lent, session).copy_from_slice(&before);
    }
    answer
}

fn first_request(notes: &mut Notes, call: &Call, control: Control, lent: &mut Lent) -> Answer {
    let waiting = lent.sessions.lent().chunks_exact(UNIT).find(|unit| unit[0] != 0).map(<[u8]>::to_vec);
    let answer = match (call, waiting, notes.loaded) {
        (Call::Collect { session, .. }, Some(first), Some(_)) if rows::stored(call, lent)[0] != 0 && lent.right_lengths() => {
            collect_for(&first, *session, call, control, lent)
        }
        _ => right(call, control, lent),
    };
    if matches!((call, answer.kind), (Call::Load, DONE)) {
        notes.loaded = Some(answer.value);
    }
    answer
}

fn kept_request(notes: &mut Notes, call: &Call, control: Control, lent: &mut Lent) -> Answer {
    let place = rows::place(call);
    let kept = notes.requests.get(&place).cloned();
    let answer = match (call, kept) {
        (Call::Collect { session, .. }, Some(request)) if rows::stored(call, lent)[0] != 0 && lent.right_lengths() => {
            collect_for(&request, *session, call, control, lent)
        }
        _ => right(call, control, lent),
    };
    match (call, answer.kind) {
        (Call::Read { request, .. }, WAITS) => {
            notes.requests.insert(place, request.clone());
        }
        (Call::Setup { .. }, _) => notes.requests.clear(),
        _ => {}
    }
    answer
}
