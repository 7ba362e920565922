//! Mistakes of the layout test that have to do with the log's two chains, the sixth copy and the counts (02's S-9).

use super::layouts::lax;
use super::mistake::{Mistake, Notes, copy_of, mistake, refused, restart_mistake, right};
use crate::call::Call;
use crate::lent::Lent;
use crate::log::{self, NEXT, NEXT_TRANSACTION};
use crate::made::SIXTH;
use simulator::{Answer, COMMITS, Control, DONE, RECORDS, UNIT};

pub const MISTAKES: &[Mistake] = &[
    mistake("layout: a record in both chains passes", in_both),
    mistake("layout: a record in no chain passes", in_none),
    mistake("layout: a free chain that does not end passes", endless),
    mistake("layout: free last is not compared", no_free_last),
    mistake("layout: free first is not looked at where free last is 0", no_free_first),
    mistake("layout: the last transaction's link is not looked at", no_last_link),
    mistake("layout: oldest is not looked at where the log has none", no_oldest),
    mistake("layout: an index above 512 ends a chain", high_index_ends),
    mistake("layout: bytes of free records are left out", no_free_bytes),
    mistake("layout: used is not compared", no_used),
    mistake("layout: commits is not compared with the log's chain", no_commits),
    mistake("layout: commits above 65,535 pass", no_last_number),
    mistake("layout: retired above an applied passes", no_least_applied),
    mistake("layout: the sixth copy is left out", no_sixth),
    mistake("layout: a sixth copy passes while nothing is retired", sixth_unused),
    restart_mistake("layout: the log's chain must begin at record 1", begins_at_1),
    restart_mistake("layout: next indexes must go up", must_go_up),
    restart_mistake("layout: the sixth copy must be empty", sixth_empty),
    mistake("layout: commits above 512 are refused", above_512),
];

/// Which records a chain has.
fn members(chain: &[usize]) -> [bool; RECORDS] {
    let mut members = [false; RECORDS];
    chain.iter().for_each(|record| members[*record] = true);
    members
}

/// Puts the free chain right where this holds of the log's chain and of the free one: it is as it begins, then come all records that are in
/// no chain.
fn mended(lent: &mut Lent, control: &mut Control, holds: fn(&[usize], &[usize]) -> bool) {
    let log = lent.log.lent_mut();
    let (transactions, free) = (log::transactions(log, control), log::free(log, control));
    if !holds(&transactions.concat(), &free) {
        return;
    }
    let mut left = members(&transactions.concat()).map(|used| !used);
    let begins: Vec<usize> = free.into_iter().take_while(|record| std::mem::take(&mut left[*record])).collect();
    let rest: Vec<usize> = (0..RECORDS).filter(|record| left[*record]).collect();
    log::put_chains(log, control, &transactions, &[begins, rest].concat());
}

fn in_both(_: &mut Notes, call: &Call, control: Control, lent: &mut Lent) -> Answer {
    lax(call, control, lent, |lent, control| {
        mended(lent, control, |used, free| free.iter().any(|record| members(used)[*record]));
    })
}

fn in_none(_: &mut Notes, call: &Call, control: Control, lent: &mut Lent) -> Answer {
    lax(call, control, lent, |lent, control| mended(lent, control, |used, free| used.len() + free.len() < RECORDS))
}

fn endless(_: &mut Notes, call: &Call, control: Control, lent: &mut Lent) -> Answer {
    lax(call, control, lent, |lent, control| {
        mended(lent, control, |_, free| free.len() > members(free).iter().filter(|there| **there).count());
    })
}

fn no_free_last(_: &mut Notes, call: &Call, control: Control, lent: &mut Lent) -> Answer {
    lax(call, control, lent, |lent, control| {
        control.free_last = log::free(lent.log.lent(), control).last().map_or(0, |record| *record as u32 + 1);
    })
}

fn no_free_first(_: &mut Notes, call: &Call, control: Control, lent: &mut Lent) -> Answer {
    lax(call, control, lent, |lent, control| {
        if control.free_last == 0 {
            mended(lent, control, |_, _| true);
        }
    })
}

fn no_last_link(_: &mut Notes, call: &Call, control: Control, lent: &mut Lent) -> Answer {
    lax(call, control, lent, |lent, control| {
        let log = lent.log.lent_mut();
        if let Some(last) = log::transactions(log, control).last() {
            log::put_link(log, last[0], NEXT_TRANSACTION, None);
        }
    })
}

fn no_oldest(_: &mut Notes, call: &Call, control: Control, lent: &mut Lent) -> Answer {
    lax(call, control, lent, |_, control| {
        if control.commits == control.retired {
            control.oldest = 0;
        }
    })
}

fn high_index_ends(_: &mut Notes, call: &Call, control: Control, lent: &mut Lent) -> Answer {
    lax(call, control, lent, |lent, _| {
        let log = lent.log.lent_mut();
        for record in 0..RECORDS {
            for at in [NEXT, NEXT_TRANSACTION] {
                log::put_link(log, record, at, log::named(log::link(log, record, at)));
            }
        }
    })
}

fn no_free_bytes(_: &mut Notes, call: &Call, control: Control, lent: &mut Lent) -> Answer {
    lax(call, control, lent, |lent, control| {
        for record in log::free(lent.log.lent(), control) {
            let unit = &mut lent.log.lent_mut()[UNIT * record..UNIT * (record + 1)];
            unit[..12].fill(0);
            unit[14..].fill(0);
        }
    })
}

fn no_used(_: &mut Notes, call: &Call, control: Control, lent: &mut Lent) -> Answer {
    lax(call, control, lent, |lent, control| control.used = log::transactions(lent.log.lent(), control).concat().len() as u32)
}

fn no_commits(_: &mut Notes, call: &Call, control: Control, lent: &mut Lent) -> Answer {
    lax(call, control, lent, |lent, control| {
        let all = Control { commits: u32::MAX, ..*control };
        control.commits = control.retired.saturating_add(log::transactions(lent.log.lent(), &all).len() as u32);
    })
}

fn no_last_number(_: &mut Notes, call: &Call, control: Control, lent: &mut Lent) -> Answer {
    lax(call, control, lent, |_, control| {
        let (above, studios) = (control.commits.saturating_sub(COMMITS), control.studios.min(4) as usize);
        let counts = control.sent[..studios].iter_mut().chain(&mut control.applied[..studios]);
        counts.chain([&mut control.commits, &mut control.retired]).for_each(|count| *count = count.saturating_sub(above));
    })
}

fn no_least_applied(_: &mut Notes, call: &Call, control: Control, lent: &mut Lent) -> Answer {
    lax(call, control, lent, |_, control| {
        for place in 0..control.studios.min(4) as usize {
            control.applied[place] = control.applied[place].max(control.retired);
            control.sent[place] = control.sent[place].max(control.retired);
        }
    })
}

fn no_sixth(_: &mut Notes, call: &Call, control: Control, lent: &mut Lent) -> Answer {
    lax(call, control, lent, |lent, _| copy_of(lent, SIXTH as u32).fill(0))
}

fn sixth_unused(_: &mut Notes, call: &Call, control: Control, lent: &mut Lent) -> Answer {
    lax(call, control, lent, |lent, control| {
        if control.retired == 0 {
            copy_of(lent, SIXTH as u32).fill(0);
        }
    })
}

/// A call that rows 1 and 2 let through is refused with 2 where this holds of what it was lent.
fn strict(call: &Call, control: Control, lent: &mut Lent, holds: fn(&mut Lent, &Control) -> bool) -> Answer {
    let before = lent.clone();
    let answer = right(call, control, lent);
    let passed = !matches!(call, Call::Setup { .. }) && (answer.kind == DONE || answer.value > 2);
    if !passed || !holds(&mut before.clone(), &control) {
        return answer;
    }
    lent.copy_from(&before);
    refused(2, control)
}

fn begins_at_1(_: &mut Notes, call: &Call, control: Control, lent: &mut Lent) -> Answer {
    strict(call, control, lent, |_, control| control.oldest > 1)
}

fn must_go_up(_: &mut Notes, call: &Call, control: Control, lent: &mut Lent) -> Answer {
    strict(call, control, lent, |lent, _| {
        let log = lent.log.lent();
        let goes_down = |record: usize, at: usize| log::named(log::link(log, record, at)).is_some_and(|next| next < record);
        (0..RECORDS).any(|record| goes_down(record, NEXT) || goes_down(record, NEXT_TRANSACTION))
    })
}

fn sixth_empty(_: &mut Notes, call: &Call, control: Control, lent: &mut Lent) -> Answer {
    strict(call, control, lent, |lent, _| copy_of(lent, SIXTH as u32).iter().any(|byte| *byte != 0))
}

fn above_512(_: &mut Notes, call: &Call, control: Control, lent: &mut Lent) -> Answer {
    strict(call, control, lent, |_, control| control.commits > 512)
}
