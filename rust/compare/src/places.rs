//! The kinds of 80-byte units in memory of the layout, and where they are.

use crate::lent::{Lent, Part};
use crate::log;
use crate::made::SIXTH;
use simulator::{CARTS, Control, UNIT};

#[derive(Clone, Copy, PartialEq, Eq, Debug)]
pub enum Place {
    HeldCart,
    EmptyCart,
    CartAboveS,
    /// Of the sixth copy, where something is retired, and where nothing is.
    SixthCart,
    UnusedSixthCart,
    Record,
    TitledRecord,
    UntitledRecord,
    CutRecord,
    UncutRecord,
    FirstRecord,
    LaterRecord,
    FreeRecord,
    /// The last one of the free chain.
    LastFreeRecord,
    Session,
    IdleSession,
    NumbersSession,
    TitleSession,
    UnusedSession,
}

/// Every kind, with the name of its sweep.
pub const ALL: [(Place, &str); 19] = [
    (Place::HeldCart, "sweep of a held cart"),
    (Place::EmptyCart, "sweep of an empty cart"),
    (Place::CartAboveS, "sweep of a cart above S"),
    (Place::SixthCart, "sweep of a cart of the sixth copy"),
    (Place::UnusedSixthCart, "sweep of a cart of the sixth copy, nothing retired"),
    (Place::Record, "sweep of a record"),
    (Place::TitledRecord, "sweep of a record with a title"),
    (Place::UntitledRecord, "sweep of a record without title"),
    (Place::CutRecord, "sweep of a record with a cut"),
    (Place::UncutRecord, "sweep of a record without cut"),
    (Place::FirstRecord, "sweep of a first record"),
    (Place::LaterRecord, "sweep of a later record"),
    (Place::FreeRecord, "sweep of a free record"),
    (Place::LastFreeRecord, "sweep of the last free record"),
    (Place::Session, "sweep of a session"),
    (Place::IdleSession, "sweep of an idle session"),
    (Place::NumbersSession, "sweep of a session with numbers waiting"),
    (Place::TitleSession, "sweep of a session with a title waiting"),
    (Place::UnusedSession, "sweep of an unused session"),
];

/// The memory that a kind of unit is in.
pub fn memory(place: Place, lent: &mut Lent) -> &mut Part {
    match place {
        Place::HeldCart | Place::EmptyCart | Place::CartAboveS | Place::SixthCart | Place::UnusedSixthCart => &mut lent.library,
        Place::Session | Place::IdleSession | Place::NumbersSession | Place::TitleSession | Place::UnusedSession => &mut lent.sessions,
        _ => &mut lent.log,
    }
}

/// The units of a kind, counted from 0 in their memory.
pub fn find(place: Place, lent: &mut Lent, control: &Control) -> Vec<usize> {
    let bytes = memory(place, lent).lent();
    let units = bytes.chunks_exact(UNIT).enumerate();
    match place {
        Place::HeldCart | Place::EmptyCart | Place::CartAboveS | Place::SixthCart | Place::UnusedSixthCart => {
            units.filter(|(at, unit)| cart_fits(place, *at, unit, control)).map(|(at, _)| at).collect()
        }
        Place::Session | Place::IdleSession | Place::NumbersSession | Place::TitleSession | Place::UnusedSession => {
            units.filter(|(at, unit)| session_fits(place, unit, control.session_studios[*at] != 0)).map(|(at, _)| at).collect()
        }
        _ => records(place, bytes, control),
    }
}

fn cart_fits(place: Place, at: usize, unit: &[u8], control: &Control) -> bool {
    let copy = at / CARTS;
    match place {
        Place::CartAboveS => copy > control.studios as usize && copy < SIXTH,
        Place::SixthCart => copy == SIXTH && control.retired > 0,
        Place::UnusedSixthCart => copy == SIXTH && control.retired == 0,
        Place::HeldCart => unit[0] == 1,
        _ => unit[0] == 0 && (copy <= control.studios as usize || cart_fits(Place::SixthCart, at, unit, control)),
    }
}

fn session_fits(place: Place, unit: &[u8], used: bool) -> bool {
    match place {
        Place::Session => used,
        Place::IdleSession => used && unit[0] == 0,
        Place::NumbersSession => used && unit[0] == 1,
        Place::TitleSession => used && unit[0] == 2,
        _ => !used,
    }
}

/// The records of a kind, of the log's chain or of the free one.
fn records(place: Place, log: &[u8], control: &Control) -> Vec<usize> {
    let transactions = log::transactions(log, control);
    let of_kinds = |kinds: [u8; 2]| transactions.concat().into_iter().filter(|record| kinds.contains(&log[UNIT * record])).collect();
    match place {
        Place::TitledRecord => of_kinds([1, 2]),
        Place::UntitledRecord => of_kinds([3, 4]),
        Place::CutRecord => of_kinds([1, 3]),
        Place::UncutRecord => of_kinds([2, 4]),
        Place::FirstRecord => transactions.iter().map(|records| records[0]).collect(),
        Place::LaterRecord => transactions.iter().flat_map(|records| records[1..].to_vec()).collect(),
        Place::FreeRecord => log::free(log, control),
        Place::LastFreeRecord => log::free(log, control).last().copied().into_iter().collect(),
        _ => transactions.concat(),
    }
}
