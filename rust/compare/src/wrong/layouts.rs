//! Mistakes of the layout test. A rule is left out by putting its fields
//! right in a refused call's memory and playing it again.

use super::mistake::{Mistake, Notes, copy_of, is_refused, mistake, refused, right};
use crate::asides;
use crate::call::Call;
use crate::lent::Lent;
use crate::log::{self, NEXT_TRANSACTION};
use crate::made::{Log, SIXTH};
use simulator::{Answer, COPY, Control, REFUSED};

pub const MISTAKES: &[Mistake] = &[
    mistake("layout: the last studio's copy is left out", no_last_copy),
    mistake("layout: copies above S are left out", no_copies_above),
    mistake("layout: bytes 12–15 of a cart are left out", no_cart_zeros),
    mistake("layout: a cart's number by its low byte", cart_number_low),
    mistake("layout: bytes after a title are left out", no_bytes_after_title),
    mistake("layout: title byte 127 is let through", title_byte_127),
    mistake("layout: audio 0 is let through", audio_0),
    mistake("layout: bytes 14–15 of later records are left out", no_later_links),
    mistake("layout: an unused session is left out", no_unused_sessions),
    mistake("layout: bytes 4–15 of a session are left out", no_session_zeros),
    mistake("layout: session number above commits", no_session_number),
    mistake("layout: window above 32", no_window),
    mistake("layout: counts above S are left out", no_counts_above),
    mistake("layout: control words by their low 16 bits", low_words),
    mistake("layout: session's studio above S", no_session_studio),
    mistake("layout: the head end must be L(commits)", head_end_replayed),
    mistake("layout: a waiting read must be one that has to wait", waiting_must_wait),
    mistake("layout: not tested by refresh", not_by_refresh),
];

/// Plays the call; if it is refused 2, plays it again on what `mend` makes.
pub fn lax(call: &Call, control: Control, lent: &mut Lent, mend: fn(&mut Lent, &mut Control)) -> Answer {
    let answer = right(call, control, lent);
    if !is_refused(&answer, 2) {
        return answer;
    }
    let (mut mended, mut control_mended) = (lent.clone(), control);
    mend(&mut mended, &mut control_mended);
    let second = right(call, control_mended, &mut mended);
    if is_refused(&second, 2) {
        return answer;
    }
    if second.kind != REFUSED {
        lent.copy_from(&mended);
    }
    second
}

fn each_cart(lent: &mut Lent, mend: fn(usize, &mut [u8])) {
    for (at, unit) in lent.library.lent_mut().chunks_exact_mut(80).enumerate() {
        if unit[0] == 1 {
            mend(at % 128 + 1, unit);
        }
    }
}

fn no_last_copy(_: &mut Notes, call: &Call, control: Control, lent: &mut Lent) -> Answer {
    lax(call, control, lent, |lent, control| {
        if let 1..=4 = control.studios {
            copy_of(lent, control.studios).fill(0);
        }
    })
}

fn no_copies_above(_: &mut Notes, call: &Call, control: Control, lent: &mut Lent) -> Answer {
    lax(call, control, lent, |lent, control| {
        let first = COPY * (control.studios.min(4) as usize + 1);
        lent.library.lent_mut()[first..COPY * SIXTH].fill(0);
    })
}

fn no_cart_zeros(_: &mut Notes, call: &Call, control: Control, lent: &mut Lent) -> Answer {
    lax(call, control, lent, |lent, _| each_cart(lent, |_, unit| unit[12..16].fill(0)))
}

fn cart_number_low(_: &mut Notes, call: &Call, control: Control, lent: &mut Lent) -> Answer {
    lax(call, control, lent, |lent, _| each_cart(lent, |_, unit| unit[3] = 0))
}

fn no_bytes_after_title(_: &mut Notes, call: &Call, control: Control, lent: &mut Lent) -> Answer {
    lax(call, control, lent, |lent, _| {
        each_cart(lent, |_, unit| {
            let end = 16 + usize::from(unit[1]).min(64);
            unit[end..].fill(0);
        });
    })
}

fn title_byte_127(_: &mut Notes, call: &Call, control: Control, lent: &mut Lent) -> Answer {
    lax(call, control, lent, |lent, _| {
        each_cart(lent, |_, unit| {
            unit[16..].iter_mut().filter(|byte| **byte == 127).for_each(|byte| *byte = 126);
        });
    })
}

fn audio_0(_: &mut Notes, call: &Call, control: Control, lent: &mut Lent) -> Answer {
    lax(call, control, lent, |lent, _| {
        each_cart(lent, |_, unit| {
            if unit[4..8] == [0; 4] {
                unit[4] = 1;
            }
        });
    })
}

fn no_later_links(_: &mut Notes, call: &Call, control: Control, lent: &mut Lent) -> Answer {
    lax(call, control, lent, |lent, control| {
        let log = lent.log.lent_mut();
        for records in log::transactions(log, control) {
            records[1..].iter().for_each(|record| log::put_link(log, *record, NEXT_TRANSACTION, None));
        }
    })
}

fn each_session(lent: &mut Lent, control: &Control, mend: fn(&mut [u8], u32, &Control)) {
    let units = lent.sessions.lent_mut().chunks_exact_mut(80);
    for (unit, studio) in units.zip(control.session_studios) {
        mend(unit, studio, control);
    }
}

fn no_unused_sessions(_: &mut Notes, call: &Call, control: Control, lent: &mut Lent) -> Answer {
    lax(call, control, lent, |lent, control| {
        each_session(lent, control, |unit, studio, _| {
            if studio == 0 {
                unit.fill(0);
            }
        });
    })
}

fn no_session_zeros(_: &mut Notes, call: &Call, control: Control, lent: &mut Lent) -> Answer {
    lax(call, control, lent, |lent, control| {
        each_session(lent, control, |unit, _, _| unit[4..16].fill(0));
    })
}

fn no_session_number(_: &mut Notes, call: &Call, control: Control, lent: &mut Lent) -> Answer {
    lax(call, control, lent, |lent, control| {
        each_session(lent, control, |unit, _, control| {
            let number = u32::from(unit[2]) | u32::from(unit[3]) << 8;
            let kept = number.min(control.commits) as u16;
            unit[2..4].copy_from_slice(&kept.to_le_bytes());
        });
    })
}

fn no_window(_: &mut Notes, call: &Call, control: Control, lent: &mut Lent) -> Answer {
    lax(call, control, lent, |_, control| {
        for studio in 0..4 {
            let least = control.sent[studio].saturating_sub(32);
            control.applied[studio] = control.applied[studio].max(least);
        }
    })
}

fn no_counts_above(_: &mut Notes, call: &Call, control: Control, lent: &mut Lent) -> Answer {
    lax(call, control, lent, |_, control| {
        for studio in control.studios.min(4) as usize..4 {
            control.sent[studio] = 0;
            control.applied[studio] = 0;
        }
    })
}

fn low_words(_: &mut Notes, call: &Call, control: Control, lent: &mut Lent) -> Answer {
    lax(call, control, lent, |_, control| {
        for at in 0..asides::WORDS {
            *asides::word(control, at) &= 0xFFFF;
        }
    })
}

fn no_session_studio(_: &mut Notes, call: &Call, control: Control, lent: &mut Lent) -> Answer {
    lax(call, control, lent, |_, control| {
        let studios = control.studios;
        control.session_studios.iter_mut().for_each(|studio| *studio = (*studio).min(studios));
    })
}

fn head_end_replayed(_: &mut Notes, call: &Call, control: Control, lent: &mut Lent) -> Answer {
    let is_tested = lent.right_lengths() && !matches!(call, Call::Setup { .. });
    if is_tested && Log::new(&control, lent).library(control.commits) != copy_of(lent, 0) {
        return refused(2, control);
    }
    right(call, control, lent)
}

fn waiting_must_wait(_: &mut Notes, call: &Call, control: Control, lent: &mut Lent) -> Answer {
    let before = lent.clone();
    let answer = right(call, control, lent);
    if is_refused(&answer, 1) || is_refused(&answer, 2) || matches!(call, Call::Setup { .. }) {
        return answer;
    }
    let units = before.sessions.lent().chunks_exact(80);
    let caught_up = units.zip(control.session_studios).any(|(unit, studio)| {
        let number = u32::from(unit[2]) | u32::from(unit[3]) << 8;
        unit[0] != 0 && control.applied[studio as usize - 1] >= number
    });
    if caught_up {
        lent.copy_from(&before);
        return refused(2, control);
    }
    answer
}

fn not_by_refresh(_: &mut Notes, call: &Call, control: Control, lent: &mut Lent) -> Answer {
    let answer = right(call, control, lent);
    match call {
        Call::Refresh { .. } if is_refused(&answer, 2) => refused(11, control),
        _ => answer,
    }
}
