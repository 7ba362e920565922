//! What is met of load (02's S-8): the memory that it accepts, what alone it refuses with 19, and the lists over loaded memory.

use crate::call::Call;
use crate::coverage::{Coverage, outcome};
use crate::keys::{BELOW_ALL, COLLECT_BELOW, DONE, FORWARD_BELOW, HEAD_END, READ, READ_BELOW, WAITED};
use crate::keys::{COLLECT_LOADED, COMMIT_LOADED, LOADED, LOADED_RETIRED, MOVE_LOADED, MOVE_STOPPED, REFUSED_LOADED};
use crate::keys::{FIRST_FORWARD, FIRST_FORWARD_MOVED, FIRST_READ, FIRST_READ_MOVED, FIRST_SHOWN, FIRST_SHOWN_MOVED};
use crate::keys::{LOAD_APPLIED, LOAD_BEHIND, LOAD_BEYOND, LOAD_COMMITS, LOAD_LOGGED, LOAD_RETIRED, LOAD_SENT, LOAD_SPACED};
use crate::keys::{LOAD_BOTH, LOAD_BYTE, LOAD_CART, LOAD_EARLIER, LOAD_LATER, LOAD_LESS, LOAD_LETTER, LOAD_LETTER_LAST, LOAD_MORE};
use crate::keys::{LOAD_HEAD_END, LOAD_LAST, LOAD_STUDIO, LOAD_STUDIO_APPLIED, LOAD_STUDIO_BEHIND, LOAD_STUDIOS, LOAD_USED, LOAD_WAITS};
use crate::keys::{LOAD_MISFIT, LOAD_MISFIT_IN, LOAD_MISFIT_LATER, LOAD_MISFIT_PLACE};
use crate::keys::{LOAD_MISFIT_BY_ALL, LOAD_MISFIT_BY_NONE, LOAD_MISFIT_BY_SOME};
use crate::lent::Lent;
use crate::made::{self, Faults, Log, Misfit};
use crate::one_copy::{History, Loaded};
use crate::rows;
use crate::walks::Walk;
use crate::wall::Wall;
use simulator::{ANSWERED, Answer, COPY, Control, UNIT};

/// A call of a list over loaded memory.
pub struct Over {
    counts: Loaded,
    /// Before the call: its session's studio, number and walk, and the kind of the loaded request that a collect takes.
    studio: u32,
    number: u32,
    walk: Walk,
    request: Option<u8>,
    /// How it ended.
    end: u32,
}

impl Coverage {
    /// A load that rows 1 and 2 let through; `lent` is what it was lent, since it changes nothing.
    pub fn note_load(&mut self, call: &Call, control: &Control, lent: &Lent, answer: &Answer) {
        let (Call::Load, end @ (19 | DONE)) = (call, outcome(answer)) else { return };
        self.count((LOAD_COMMITS, control.commits, end));
        self.count((LOAD_USED, control.used, end));
        self.count((LOAD_STUDIOS, control.studios, end));
        self.count((LOAD_RETIRED, control.retired, end));
        match end {
            DONE => self.note_whole(control, lent),
            _ => self.note_faults(control, lent, &made::faults(control, lent)),
        }
    }

    /// What an accepted load is lent.
    fn note_whole(&mut self, control: &Control, lent: &Lent) {
        let studios = if control.commits == 0 { 0 } else { control.studios as usize };
        if control.retired > 0 {
            self.count((LOAD_LOGGED, (control.commits - control.retired).min(2), DONE));
        }
        for place in 0..studios {
            let (sent, applied) = (control.sent[place], control.applied[place]);
            if control.retired > 0 {
                self.count((LOAD_BEYOND, (applied - control.retired).min(2), DONE));
            }
            self.count((LOAD_APPLIED, applied, DONE));
            self.count((LOAD_BEHIND, (control.commits - applied).min(2), DONE));
            self.count((LOAD_SENT, sent - applied, DONE));
        }
        let sessions = lent.sessions.lent().chunks_exact(UNIT).zip(control.session_studios);
        for (unit, studio) in sessions.filter(|(unit, _)| unit[0] != 0) {
            let behind = i64::from(rows::session_number(unit)) - i64::from(control.applied[studio as usize - 1]);
            self.count((LOAD_WAITS, behind.clamp(-2, 2) as u32, DONE));
        }
        let titled = lent.log.lent().chunks_exact(UNIT).filter(|record| matches!(record[0], 1 | 2));
        for record in titled.filter(|record| rows::title_spaced(record)) {
            self.count((LOAD_SPACED, u32::from(record[0]), DONE));
        }
    }

    /// Why a load is refused with 19.
    fn note_faults(&mut self, control: &Control, lent: &Lent, faults: &Faults) {
        match (&faults.copies[..], &faults.misfits[..]) {
            ([0], []) => {
                self.count((LOAD_HEAD_END, control.commits, 19));
                self.note_copy(0, control, lent);
            }
            ([studio], []) => {
                self.note_studio(*studio, control);
                self.note_copy(*studio, control, lent);
            }
            ([], [first, rest @ ..]) => self.note_misfit(*first, rest.is_empty(), control),
            ([_, ..], [_, ..]) => self.count((LOAD_BOTH, 0, 19)),
            _ => {}
        }
    }

    fn note_studio(&mut self, studio: usize, control: &Control) {
        let applied = control.applied[studio - 1];
        self.count((LOAD_STUDIO, studio as u32, 19));
        self.count((LOAD_STUDIO_APPLIED, applied, 19));
        self.count((LOAD_STUDIO_BEHIND, (control.commits - applied).min(2), 19));
        if studio as u32 == control.studios {
            self.count((LOAD_LAST, control.studios, 19));
        }
    }

    /// How the one copy differs from its L.
    fn note_copy(&mut self, copy: usize, control: &Control, lent: &Lent) {
        let (log, number) = (Log::new(control, lent), made::taken(copy, control));
        let (is, right) = (&lent.library.lent()[COPY * copy..COPY * (copy + 1)], log.library(number));
        let held = |copy: &[u8]| copy.chunks_exact(UNIT).filter(|cart| cart[0] == 1).count();
        let subjects = [
            (LOAD_MORE, held(is) == held(&right) + 1),
            (LOAD_LESS, held(is) + 1 == held(&right)),
            (LOAD_EARLIER, number > 0 && *is == log.library(number - 1)),
            (LOAD_LATER, number < control.commits && *is == log.library(number + 1)),
        ];
        for (subject, _) in subjects.into_iter().filter(|(_, met)| *met) {
            self.count((subject, copy as u32, 19));
        }
        let differ: Vec<usize> = (0..COPY).filter(|at| is[*at] != right[*at]).collect();
        if let [at] = differ[..] {
            self.note_byte(copy as u32, at, control);
        }
    }

    /// The one byte of the one copy that differs.
    fn note_byte(&mut self, copy: u32, at: usize, control: &Control) {
        self.count((LOAD_CART, (at / UNIT) as u32 + 1, 19));
        self.count((LOAD_BYTE, (at % UNIT) as u32, 19));
        if at % UNIT >= 16 {
            self.count((LOAD_LETTER, copy, 19));
        }
        if at % UNIT >= 16 && copy == control.studios {
            self.count((LOAD_LETTER_LAST, copy, 19));
        }
    }

    fn note_misfit(&mut self, misfit: Misfit, alone: bool, control: &Control) {
        let Misfit { transaction, place, kind } = misfit;
        self.count((LOAD_MISFIT, u32::from(kind), 19));
        self.count((LOAD_MISFIT_PLACE, place, 19));
        self.count((LOAD_MISFIT_IN, transaction, 19));
        self.count((LOAD_MISFIT_LATER, (control.commits - transaction).min(2), 19));
        let studios = &control.applied[..control.studios as usize];
        let subject = match studios.iter().filter(|applied| **applied >= transaction).count() {
            0 => LOAD_MISFIT_BY_NONE,
            many if many == studios.len() => LOAD_MISFIT_BY_ALL,
            _ => LOAD_MISFIT_BY_SOME,
        };
        if alone {
            self.count((subject, 0, 19));
        }
    }

    /// A list begins with this memory.
    pub fn note_loaded(&mut self, wall: &Wall) {
        self.count((LOADED, wall.control.commits, DONE));
        self.count((LOADED_RETIRED, wall.control.retired.min(2), DONE));
        self.loaded_requests += wall.used_sessions().into_iter().filter(|session| wall.waiting(*session)).count() as u64;
    }

    /// A call of such a list.
    pub fn note_over(&mut self, call: &Call, over: &Over, answer: &Answer) {
        let Over { counts: Loaded { commits, .. }, end, .. } = *over;
        if answer.kind == ANSWERED {
            self.note_answer_over(call, over, answer.value);
        }
        match (call, end) {
            (Call::Collect { .. }, READ | WAITED) => {
                over.request.into_iter().for_each(|kind| self.count((COLLECT_LOADED, u32::from(kind), end)));
            }
            (Call::Commit { .. }, DONE) => self.count((COMMIT_LOADED, answer.value.saturating_sub(commits).min(2), end)),
            (Call::Commit { .. }, 8) => self.count((REFUSED_LOADED, answer.control.commits.saturating_sub(commits).min(2), end)),
            (Call::Move { studio, .. }, DONE) if *studio != over.studio => self.count((MOVE_LOADED, 0, end)),
            (Call::Move { .. }, 4) if over.request.is_some() => self.count((MOVE_STOPPED, 0, end)),
            (Call::Read { .. }, WAITED) | (Call::Forward { .. }, HEAD_END) => self.note_first_stopped(call, over),
            _ => {}
        }
    }

    /// An answer: where its state stands, and beside the session's loaded number if it is the session's first.
    fn note_answer_over(&mut self, call: &Call, over: &Over, state: u32) {
        let Over { counts: Loaded { commits, retired }, walk, end, .. } = *over;
        if state < commits {
            let subject = match call {
                Call::Read { .. } => READ_BELOW,
                Call::Collect { .. } => COLLECT_BELOW,
                _ => FORWARD_BELOW,
            };
            self.count((subject, 0, end));
        }
        if state == retired && commits > retired {
            self.count((BELOW_ALL, retired.min(1), end));
        }
        if walk.shown.is_none() {
            let above = state.saturating_sub(walk.loaded).min(2);
            self.count((FIRST_SHOWN, above, end));
            if walk.moved {
                self.count((FIRST_SHOWN_MOVED, above, end));
            }
        }
    }

    /// A read that waits or a forward by the head end, because of the loaded number.
    fn note_first_stopped(&mut self, call: &Call, over: &Over) {
        let Over { walk, number, end, .. } = *over;
        if walk.shown.is_some() || number != walk.loaded {
            return;
        }
        let (first, moved) = match call {
            Call::Read { .. } => (FIRST_READ, FIRST_READ_MOVED),
            _ => (FIRST_FORWARD, FIRST_FORWARD_MOVED),
        };
        self.count((if walk.moved { moved } else { first }, 0, end));
    }
}

impl Over {
    /// Before a call of a list, if that is over loaded memory.
    pub fn before(history: &History, wall: &Wall, call: &Call) -> Option<Over> {
        let counts = history.loaded_counts()?;
        let (studio, number) = (rows::session_studio(call, &wall.control), rows::session_number(&rows::stored(call, &wall.played)));
        let request = rows::session_of(call).and_then(|session| history.loaded_request(session));
        Some(Over { counts, studio, number, walk: wall.walks.of(call), request, end: 0 })
    }

    /// After it; an answered forward is the head end's or its studio's.
    pub fn after(self, call: &Call, answer: &Answer) -> Over {
        let end = if rows::by_head_end(call, self.number, answer) { HEAD_END } else { outcome(answer) };
        Over { end, ..self }
    }
}
