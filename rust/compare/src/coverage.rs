//! What was met: refusals, pairs of rows, boundaries, each counted.

use crate::call::Call;
use crate::keys::{Asked, COMMIT, DONE, Edit, FORWARD_ASKED, HEAD_END, Key, LENGTHS, MIXED, PREVIEW, READ, READ_ASKED, WAITED};
use crate::lent::Lent;
use crate::made::SIXTH;
use crate::message;
use crate::one_copy::History;
use crate::rows;
use simulator::{ANSWERED, Answer, COMMITS, COPY, Control, LIBRARY, LOG, REFUSED, SESSION_MEMORY, WAITS};
use std::collections::BTreeMap;

/// Facts of a call's entry that are gone once it has been played.
pub struct Before {
    lengths: [usize; 3],
    pub session: Vec<u8>,
    /// For a commit or a preview.
    pub head_end: Vec<u8>,
    /// For a retire: the sixth copy, and the operations of the oldest transaction.
    pub sixth: Vec<u8>,
    pub oldest: Vec<u8>,
}

#[derive(Default)]
pub struct Coverage {
    counts: BTreeMap<Key, u64>,
    /// A call and two of its rows.
    pairs: BTreeMap<Key, u64>,
    pub orders: u64,
    pub entries: u64,
    /// Entries that are commits refused with 8, and that are forwards.
    pub refusals: u64,
    pub forwards: u64,
    /// Answers held to the one before of their session, and those with a move between them.
    pub watched: u64,
    pub watched_moved: u64,
    /// Calls played again without moves, by S-7's rule and by the one before.
    pub unmoved: u64,
    /// Orders over loaded memory, the entries in them that are loaded transactions, and the requests that were loaded.
    pub loaded: u64,
    pub loaded_transactions: u64,
    pub loaded_requests: u64,
    /// Calls of lists after which memory was loaded.
    pub restarts: u64,
    /// Title searches.
    pub searches: u64,
    /// Receives; fresh vans, and the receives of these.
    pub receives: u64,
    pub vans: u64,
    pub arrived: u64,
    /// Conversions, and those of them that went there and back.
    pub conversions: u64,
    pub backs: u64,
}

impl Coverage {
    pub fn before(call: &Call, control: &Control, lent: &Lent) -> Before {
        let lengths = [lent.library.len(), lent.log.len(), lent.sessions.len()];
        let head_end = match call {
            Call::Commit { .. } | Call::Preview { .. } => rows::head_end(lent),
            _ => Vec::new(),
        };
        let (sixth, oldest) = match call {
            Call::Retire => {
                let oldest = message::operations_in_log(control, lent, control.retired.saturating_add(1));
                (rows::library(lent)[SIXTH * COPY..].to_vec(), oldest.unwrap_or_default())
            }
            _ => (Vec::new(), Vec::new()),
        };
        Before { lengths, session: rows::stored(call, lent), head_end, sixth, oldest }
    }

    pub fn count(&mut self, key: Key) {
        *self.counts.entry(key).or_default() += 1;
    }

    /// Two rows that held at once, the lower number first.
    pub fn count_pair(&mut self, pair: Key) {
        *self.pairs.entry(pair).or_default() += 1;
    }

    pub fn count_order(&mut self, history: &History) {
        self.orders += 1;
        self.entries += history.len() as u64;
        self.refusals += history.refusals() as u64;
        self.forwards += history.forwards() as u64;
        if history.is_mixed() {
            self.count((MIXED, 0, DONE));
        }
        if let Some(loaded) = history.loaded_counts() {
            self.loaded += 1;
            self.loaded_transactions += u64::from(loaded.commits - loaded.retired);
        }
    }

    pub fn note(&mut self, call: &Call, control: &Control, holding: &[u32], before: &Before, after: &Lent, answer: &Answer) {
        let end = end_of(call, before, answer);
        self.count((call.name(), 0, end));
        for (i, row) in holding.iter().enumerate() {
            for other in &holding[i + 1..] {
                self.count_pair((call.name(), *row.min(other), *row.max(other)));
            }
        }
        self.note_lengths(call, before, end);
        if end != 1 {
            self.note_arguments(call, control, before, answer);
            self.note_spaces(call, before, after, answer);
            self.note_wrong_state(call, control, holding, before, answer);
            self.note_van_write(call, control, after, answer);
            self.note_move(call, control, before, answer);
            self.note_raise(call, before, answer);
            self.note_load(call, control, after, answer);
            self.note_retire(call, control, before, answer);
            self.note_taken(call, control, after, answer);
        }
    }

    fn note_arguments(&mut self, call: &Call, control: &Control, before: &Before, answer: &Answer) {
        let end = end_of(call, before, answer);
        match call {
            Call::Setup { studios, session_studios } => {
                self.note_setup(*studios, session_studios, end);
            }
            Call::Commit { session, operations } => {
                self.note_edit(&COMMIT, *session, operations, control, answer);
            }
            Call::Preview { session, operations } => {
                self.note_edit(&PREVIEW, *session, operations, control, answer);
            }
            Call::Send { studio } => {
                self.count(("send, number", answer.value, end));
                self.note_send(*studio, control, end);
            }
            Call::Refresh { studio } => {
                self.count(("refresh, number", answer.value, end));
                self.count(("refresh, studio", *studio, end));
                self.count(("refresh, studio − S", studio.wrapping_sub(control.studios), end));
            }
            Call::Read { .. } => {
                self.note_asked(&READ_ASKED, call, control, before, answer);
                self.note_number(call, control, before, end);
            }
            Call::Collect { session, output } => {
                self.count(("collect, session", *session, end));
                self.note_spare("collect, output − asked", &before.session, *output, end);
                self.note_behind("collect, session number − applied", call, control, before, end);
                self.note_number(call, control, before, end);
                self.count(("collect, kind of read", u32::from(before.session[0]), end));
            }
            Call::Forward { .. } => self.note_asked(&FORWARD_ASKED, call, control, before, answer),
            // `note_van_write` and `note_move` have their arguments; a load and a retire have none.
            Call::VanWrite { .. } | Call::Move { .. } | Call::Load | Call::Retire => {}
        }
    }

    /// How a call ended, under a subject of its own.
    pub fn count_end(&mut self, subject: &'static str, answer: &Answer) {
        self.count((subject, 0, outcome(answer)));
    }

    fn note_lengths(&mut self, call: &Call, before: &Before, end: u32) {
        let right = [LIBRARY, LOG, SESSION_MEMORY];
        let subjects = LENGTHS[call_place(call)];
        for (memory, subject) in subjects.into_iter().enumerate() {
            if before.lengths[memory] != right[memory] {
                self.count((subject, before.lengths[memory] as u32, end));
            }
        }
    }

    fn note_setup(&mut self, studios: u32, session_studios: &[u8], end: u32) {
        self.count(("setup, S", studios, end));
        self.count(("setup, studio bytes", session_studios.len() as u32, end));
        if (1..=4).contains(&studios) && session_studios.len() == 16 {
            let highest = session_studios.iter().copied().max().unwrap_or(0);
            let above = i64::from(highest) - i64::from(studios);
            self.count(("setup, highest studio byte − S", above as u32, end));
        }
    }

    /// The arguments of a commit or a preview.
    fn note_edit(&mut self, of: &Edit, session: u32, operations: &[u8], control: &Control, answer: &Answer) {
        let end = outcome(answer);
        self.count((of.session, session, end));
        self.count((of.size, operations.len() as u32, end));
        if end == DONE {
            self.count((of.number, answer.value, end));
        }
        if matches!(end, 7 | 8 | DONE) {
            let after = control.used + (operations.len() / 80) as u32;
            self.count((of.used, control.used, end));
            self.count((of.used_after, after, end));
        }
        if end == 7 {
            let spare = rows::free_records(control) as i64 - (operations.len() / 80) as i64;
            let subject = if control.commits == COMMITS { of.ended } else { of.full };
            self.count((subject, spare.clamp(-1, 1) as u32, end));
        }
        if matches!(end, 6 | 16 | DONE) {
            for unit in operations.chunks_exact(80) {
                self.note_operation(of, unit, end);
            }
        }
    }

    /// For a refusal 6 only the operations that are out of form count, for 16 only those with a spaced title.
    fn note_operation(&mut self, of: &Edit, unit: &[u8], end: u32) {
        let counts = match end {
            6 => !simulator::operation_in_form(unit),
            16 => rows::title_spaced(unit),
            _ => true,
        };
        if !counts {
            return;
        }
        let cart = u32::from(unit[2]) | u32::from(unit[3]) << 8;
        self.count((of.kind, u32::from(unit[0]), end));
        self.count((of.cart, cart, end));
        if matches!(unit[0], 1 | 2) {
            self.count((of.title_length, u32::from(unit[1]), end));
        }
    }

    fn note_send(&mut self, studio: u32, control: &Control, end: u32) {
        self.count(("send, studio", studio, end));
        self.count(("send, studio − S", studio.wrapping_sub(control.studios), end));
        if let 1..=4 = studio {
            let place = studio as usize - 1;
            let ahead = control.sent[place].wrapping_sub(control.applied[place]);
            self.count(("send, sent − applied", ahead, end));
        }
    }

    /// The arguments of a read or a forward, and what it found.
    fn note_asked(&mut self, of: &Asked, call: &Call, control: &Control, before: &Before, answer: &Answer) {
        let (request, output, end) = (call.input(), call.output(), end_of(call, before, answer));
        self.count((of.session, rows::session_of(call).unwrap_or(0), end));
        self.count((of.size, request.len() as u32, end));
        self.note_request(of, request, end);
        self.note_spare(of.spare, request, output, end);
        self.note_behind(of.behind, call, control, before, end);
        match request {
            [1, 32, ..] => self.count((of.room, output as u32, end)),
            [2, ..] => self.count((of.title_room, output as u32, end)),
            _ => {}
        }
        if answer.kind == ANSWERED {
            let subject = if request[0] == 2 { of.found_by_title } else { of.found_by_numbers };
            self.count((subject, answer.found, end));
        }
    }

    fn note_request(&mut self, of: &Asked, request: &[u8], end: u32) {
        if request.len() != 80 || !matches!(end, READ | WAITED | HEAD_END | 12) {
            return;
        }
        let length = u32::from(request[1]);
        if request[0] == 1 {
            self.count((of.numbers, length, end));
            for place in request[16..].chunks_exact(2).take(length.min(32) as usize) {
                let cart = u32::from(place[0]) | u32::from(place[1]) << 8;
                self.count((of.cart, cart, end));
            }
        } else {
            self.count((of.title_length, length, end));
        }
    }

    fn note_spare(&mut self, subject: &'static str, request: &[u8], output: usize, end: u32) {
        if matches!(end, READ | WAITED | HEAD_END | 13) {
            let spare = output as i64 - rows::output_asked(request) as i64;
            self.count((subject, spare.clamp(-2, 2) as u32, end));
        }
    }

    /// Of a session in use, in memory of the layout.
    fn note_behind(&mut self, subject: &'static str, call: &Call, control: &Control, before: &Before, end: u32) {
        if let (false, Some(applied)) = (matches!(end, 1..=3), rows::applied(call, control)) {
            let behind = i64::from(rows::session_number(&before.session)) - i64::from(applied);
            self.count((subject, behind.clamp(-2, 2) as u32, end));
        }
    }

    fn note_number(&mut self, call: &Call, control: &Control, before: &Before, end: u32) {
        if matches!(end, READ | WAITED) {
            self.count(("read or collect, session number", rows::session_number(&before.session), end));
            self.count(("read or collect, studio", rows::session_studio(call, control), end));
        }
    }

    /// How often a call ended so at this number.
    pub fn met(&self, key: &Key) -> u64 {
        self.counts.get(key).copied().unwrap_or(0)
    }

    /// How often two rows of a call held at once.
    pub fn pair_met(&self, pair: &Key) -> u64 {
        self.pairs.get(pair).copied().unwrap_or(0)
    }

    pub fn add(&mut self, other: Coverage) {
        for (key, count) in other.counts {
            *self.counts.entry(key).or_default() += count;
        }
        for (key, count) in other.pairs {
            *self.pairs.entry(key).or_default() += count;
        }
        self.orders += other.orders;
        self.entries += other.entries;
        self.refusals += other.refusals;
        self.forwards += other.forwards;
        self.watched += other.watched;
        self.watched_moved += other.watched_moved;
        self.unmoved += other.unmoved;
        self.loaded += other.loaded;
        self.loaded_transactions += other.loaded_transactions;
        self.loaded_requests += other.loaded_requests;
        self.restarts += other.restarts;
        self.searches += other.searches;
        self.receives += other.receives;
        self.vans += other.vans;
        self.arrived += other.arrived;
        self.conversions += other.conversions;
        self.backs += other.backs;
    }
}

pub fn outcome(answer: &Answer) -> u32 {
    match answer.kind {
        REFUSED => answer.value,
        ANSWERED => READ,
        WAITS => WAITED,
        _ => DONE,
    }
}

/// How a call ended; of an answered forward also whether the head end answered.
pub fn end_of(call: &Call, before: &Before, answer: &Answer) -> u32 {
    match rows::by_head_end(call, rows::session_number(&before.session), answer) {
        true => HEAD_END,
        false => outcome(answer),
    }
}

fn call_place(call: &Call) -> usize {
    match call {
        Call::Setup { .. } => 0,
        Call::Commit { .. } => 1,
        Call::Send { .. } => 2,
        Call::Refresh { .. } => 3,
        Call::Read { .. } => 4,
        Call::Collect { .. } => 5,
        Call::Preview { .. } => 6,
        Call::Forward { .. } => 7,
        Call::VanWrite { .. } => 8,
        Call::Move { .. } => 9,
        Call::Load => 10,
        Call::Retire => 11,
    }
}
