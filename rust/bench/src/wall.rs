//! Lent memory in the states that are measured, made by calls of the simulator.

use crate::call::{self, Call};
use crate::memory::Memory;
use crate::units;
use simulator::{Answer, CARTS, Control, LIBRARY, LOG, RECORDS, REFUSED, SESSION_MEMORY, TRANSACTION_OPERATIONS, UNIT};

#[derive(Clone)]
pub struct Wall {
    pub memory: Box<Memory>,
    pub control: Control,
}

/// Sessions by what they are measured for. All sit in studio 1, but for the two that wait, in studio 2: there the reader's forwards are
/// answered by the head end.
pub const READER: u32 = 1;
pub const NUMBERS_COLLECTOR: u32 = 2;
pub const TITLE_COLLECTOR: u32 = 3;
pub const WAITING_READER: u32 = 4;
pub const WAITING_COLLECTOR: u32 = 5;
const EDITOR: u32 = 6;

/// Studio 1 has one transaction sent and not applied; studio 2 has one not sent.
pub const REFRESHED: u32 = 1;
pub const SENT: u32 = 2;

/// The transactions of full memory that are retired: they made its carts.
pub const RETIRED: u32 = (CARTS / TRANSACTION_OPERATIONS) as u32;

/// The studio that the reader moves to.
pub const MOVED_TO: u32 = 2;

impl Wall {
    fn fresh(studios: u32, places: [u8; 16]) -> Wall {
        let memory = Memory { library: [0; LIBRARY], log: [0; LOG], sessions: [0; SESSION_MEMORY] };
        let mut wall = Wall { memory: Box::new(memory), control: Control::default() };
        wall.accept(&Call::Setup { studios, places });
        wall
    }

    /// Plays a call that must be accepted.
    fn accept(&mut self, call: &Call) {
        let Answer { kind, value, control, .. } = call::simulate(call, &mut self.memory, &self.control, &mut [0; 2560]);
        assert_ne!(kind, REFUSED, "refused: {value}");
        self.control = control;
    }

    fn commit(&mut self, operations: &[[u8; UNIT]]) {
        self.accept(&Call::Commit { session: EDITOR, operations: operations.concat() });
    }

    /// Every studio is sent and applies the first so many transactions.
    fn apply(&mut self, count: u32) {
        for studio in 1..=self.control.studios {
            for _ in self.control.applied[studio as usize - 1]..count {
                self.accept(&Call::Send { studio });
                self.accept(&Call::Refresh { studio });
            }
        }
    }

    /// Sends and applies what is committed, the last transaction apart, which is only sent, and to studio 1 only.
    fn catch_up(&mut self) {
        self.apply(self.control.commits - 1);
        self.accept(&Call::Send { studio: REFRESHED });
    }

    fn retire(&mut self, count: usize) {
        (0..count).for_each(|_| self.accept(&Call::Retire));
    }

    /// A session's number, and what it has waiting.
    fn put_session(&mut self, session: u32, number: u32, waiting: Option<[u8; UNIT]>) {
        let start = UNIT * (session as usize - 1);
        let unit = &mut self.memory.sessions[start..start + UNIT];
        unit.copy_from_slice(&waiting.unwrap_or([0; UNIT]));
        unit[2..4].copy_from_slice(&(number as u16).to_le_bytes());
    }

    fn put_sessions(&mut self, last: u32, letters: &[u8]) {
        let commits = self.control.commits;
        self.put_session(NUMBERS_COLLECTOR, 0, Some(units::by_numbers(32)));
        self.put_session(TITLE_COLLECTOR, 0, Some(units::by_title(letters)));
        self.put_session(WAITING_READER, commits, None);
        self.put_session(WAITING_COLLECTOR, commits, Some(units::by_numbers(32)));
        for session in EDITOR + 1..=last {
            let by_numbers = session % 2 == 0;
            let waiting = if by_numbers { units::by_numbers(32) } else { units::by_title(letters) };
            self.put_session(session, commits, Some(waiting));
        }
        let Wall { memory, control } = &*self;
        assert!(simulator::of_layout(&memory.library, &memory.log, &memory.sessions, control));
    }

    /// A fresh system of two studios and six sessions.
    pub fn empty() -> Wall {
        let mut wall = Wall::fresh(2, [1, 1, 1, 2, 2, 1, 0, 0, 0, 0, 0, 0, 0, 0, 0, 0]);
        wall.put_session(NUMBERS_COLLECTOR, 0, Some(units::by_numbers(32)));
        wall.put_session(TITLE_COLLECTOR, 0, Some(units::by_title(&units::title(7, 20))));
        wall
    }

    /// Two studios, six sessions, 40 carts with titles of 12 to 40 letters, 60 commits of 1 or 2 operations, 20 of them retired.
    pub fn typical() -> Wall {
        let mut wall = Wall::fresh(2, [1, 1, 1, 2, 2, 1, 0, 0, 0, 0, 0, 0, 0, 0, 0, 0]);
        let place = |i: usize| i * 29 % CARTS + 1;
        let letters = |cart: usize| units::title(cart, 12 + cart * 5 % 29);
        for i in 0..44 {
            wall.commit(&[units::new(place(i), &letters(place(i)))]);
        }
        for i in 0..4 {
            wall.commit(&[units::withdraw(place(40 + i))]);
        }
        for i in 0..12 {
            let retitled = units::retitle(place(i), &letters(place(i)));
            wall.commit(&[units::recut(place(i), 900 + i as u32), retitled]);
        }
        wall.catch_up();
        wall.retire(20);
        wall.put_sessions(EDITOR, &letters(place(7)));
        wall
    }

    /// Four studios, sixteen sessions, six copies of 128 held carts with titles of 64 letters, and a log of so many records in transactions
    /// of so many operations. The transactions that made the carts are retired, so that the log begins in its middle.
    pub fn full(records: usize, operations: usize) -> Wall {
        Wall::titled(records, operations, |cart| units::title(cart, 64))
    }

    /// The same with other titles, one for each cart.
    pub fn titled(records: usize, operations: usize, title: impl Fn(usize) -> Vec<u8>) -> Wall {
        assert!(records <= RECORDS && records.is_multiple_of(operations));
        let mut wall = Wall::fresh(4, [1, 1, 1, 2, 2, 1, 3, 4, 3, 4, 3, 4, 3, 4, 3, 4]);
        let carts: Vec<[u8; UNIT]> = (1..=CARTS).map(|cart| units::new(cart, &title(cart))).collect();
        carts.chunks(TRANSACTION_OPERATIONS).for_each(|transaction| wall.commit(transaction));
        wall.apply(RETIRED);
        wall.retire(RETIRED as usize);
        let cart = |i: usize| i % CARTS + 1;
        let all: Vec<[u8; UNIT]> = (0..records).map(|i| units::retitle(cart(i), &title(cart(i)))).collect();
        all.chunks(operations).for_each(|transaction| wall.commit(transaction));
        wall.catch_up();
        wall.put_sessions(16, &title(7));
        wall
    }

    /// The same memory with the log's records in another order: no link of either chain leads to a neighbour.
    pub fn shuffled(&self) -> Wall {
        let mut wall = self.clone();
        for (record, unit) in self.memory.log.as_chunks::<UNIT>().0.iter().enumerate() {
            let place = UNIT * elsewhere(record);
            let moved = &mut wall.memory.log[place..place + UNIT];
            moved.copy_from_slice(unit);
            for at in [12, 14] {
                let index = elsewhere_of(u32::from(unit[at]) | u32::from(unit[at + 1]) << 8);
                moved[at..at + 2].copy_from_slice(&(index as u16).to_le_bytes());
            }
        }
        let Control { oldest, free_first, free_last, .. } = &mut wall.control;
        [oldest, free_first, free_last].into_iter().for_each(|index| *index = elsewhere_of(*index));
        let Wall { memory, control } = &wall;
        assert!(simulator::of_layout(&memory.library, &memory.log, &memory.sessions, control));
        wall
    }
}

/// Where a record, counted from 0, stands in a shuffled log.
fn elsewhere(record: usize) -> usize {
    (record * 197 + 61) % RECORDS
}

/// The same of an index, 0 being none.
fn elsewhere_of(index: u32) -> u32 {
    match index {
        0 => 0,
        _ => elsewhere(index as usize - 1) as u32 + 1,
    }
}
