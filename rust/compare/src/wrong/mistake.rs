//! What every wrong engine is made with.

use crate::call::Call;
use crate::conversion::Conversion;
use crate::delivery::Delivery;
use crate::engine::simulate;
use crate::left;
use crate::lent::Lent;
use crate::sought::Sought;
use simulator::{Answer, Control, Search, VanAnswer};
use std::collections::BTreeMap;

/// What a wrong engine keeps between calls.
#[derive(Default)]
pub struct Notes {
    /// The session of each commit.
    pub sessions: BTreeMap<u32, u32>,
    /// The studio that each session left by its latest move, until it reads.
    pub left: BTreeMap<usize, u32>,
    /// The commits that were loaded last.
    pub loaded: Option<u32>,
    /// The request of each session's latest read that waited.
    pub requests: BTreeMap<usize, Vec<u8>>,
}

pub type Play = fn(&mut Notes, &Call, Control, &mut Lent) -> Answer;
pub type Seek = fn(&mut Sought) -> Search;
pub type Receive = fn(&mut Delivery) -> VanAnswer;
pub type Convert = fn(&mut Conversion) -> Answer;

/// What catches a mistake without the simulator beside it.
#[derive(Clone, Copy, PartialEq, Eq)]
pub enum Alone {
    Nothing,
    /// The one-copy order: for one of 01's "Mistakes this trade has made", or one that demand 3 shows.
    Order,
    /// The one-copy order, and apart from it S-7's "nobody walks back in time".
    Walks,
    /// S-7's "In a list without moves every answer is the same as it was".
    Unmoved,
    /// What 02's S-6 says of fresh vans.
    Vans,
    /// That what a list leaves is loaded (02's S-8).
    Restarts,
    /// The one-copy order, and apart from it that what a list leaves is loaded.
    Copies,
    /// What 02's S-10 says of conversions.
    Conversions,
}

/// A mistake: its name, and the simulator with it, in calls, in searches, in receives or in conversions.
#[derive(Clone, Copy)]
pub struct Mistake {
    pub name: &'static str,
    pub play: Play,
    pub search: Seek,
    pub receive: Receive,
    pub convert: Convert,
    pub alone: Alone,
}

/// The simulator under this name, with no mistake yet.
const fn simulated(name: &'static str) -> Mistake {
    Mistake {
        name,
        play: |_, call, control, lent| right(call, control, lent),
        search: |sought| sought.simulate(),
        receive: |delivery| delivery.simulate(),
        convert: |conversion| conversion.simulate(),
        alone: Alone::Nothing,
    }
}

/// A mistake that the comparison must catch.
pub const fn mistake(name: &'static str, play: Play) -> Mistake {
    Mistake { play, ..simulated(name) }
}

/// A mistake that the one-copy order alone must catch as well.
pub const fn order_mistake(name: &'static str, play: Play) -> Mistake {
    Mistake { alone: Alone::Order, ..mistake(name, play) }
}

/// A mistake that the one-copy order alone must catch as well, and apart from it that nobody walks back in time.
pub const fn walk_mistake(name: &'static str, play: Play) -> Mistake {
    Mistake { alone: Alone::Walks, ..mistake(name, play) }
}

/// A mistake that lists without moves alone must catch as well: they are not answered as before S-7.
pub const fn unmoved_mistake(name: &'static str, play: Play) -> Mistake {
    Mistake { alone: Alone::Unmoved, ..mistake(name, play) }
}

/// A mistake that restarts alone must catch as well: what a list leaves is not loaded.
pub const fn restart_mistake(name: &'static str, play: Play) -> Mistake {
    Mistake { alone: Alone::Restarts, ..mistake(name, play) }
}

/// A mistake that the one-copy order alone must catch as well, and apart from it restarts, since a copy is not what the log makes.
pub const fn copy_mistake(name: &'static str, play: Play) -> Mistake {
    Mistake { alone: Alone::Copies, ..mistake(name, play) }
}

/// A mistake of the title search.
pub const fn search_mistake(name: &'static str, search: Seek) -> Mistake {
    Mistake { search, ..simulated(name) }
}

/// A mistake of the van's receiver.
pub const fn receive_mistake(name: &'static str, receive: Receive) -> Mistake {
    Mistake { receive, ..simulated(name) }
}

/// A mistake, in calls or in receives, that fresh vans alone must catch as well.
pub const fn van_mistake(mistake: Mistake) -> Mistake {
    Mistake { alone: Alone::Vans, ..mistake }
}

/// A mistake of a conversion, that 02's words alone must catch as well.
pub const fn conversion_mistake(name: &'static str, convert: Convert) -> Mistake {
    Mistake { convert, alone: Alone::Conversions, ..simulated(name) }
}

/// An answer of a number without a control change.
pub fn refused(number: u32, control: Control) -> Answer {
    Answer { kind: simulator::REFUSED, value: number, found: 0, control }
}

/// Refusal 8 where the right engine answers otherwise, with what it leaves of memory.
pub fn refused_8(call: &Call, control: Control, lent: &mut Lent) -> Answer {
    left::by_refusal(8, call, control, lent)
}

pub fn is_refused(answer: &Answer, number: u32) -> bool {
    answer.kind == simulator::REFUSED && answer.value == number
}

/// The 80 bytes of a session from 1 to 16.
pub fn session_unit(lent: &mut Lent, session: u32) -> &mut [u8] {
    let start = 80 * (session as usize - 1);
    &mut lent.sessions.lent_mut()[start..start + 80]
}

/// Takes a session's waiting read away; its number stays.
pub fn clear_waiting(lent: &mut Lent, session: u32) {
    let unit = session_unit(lent, session);
    unit[..2].fill(0);
    unit[16..].fill(0);
}

/// The copy of a studio, or the head end's for 0.
pub fn copy_of(lent: &mut Lent, studio: u32) -> &mut [u8] {
    let start = simulator::COPY * studio as usize;
    &mut lent.library.lent_mut()[start..start + simulator::COPY]
}

/// Plays the call as the simulator does.
pub fn right(call: &Call, control: Control, lent: &mut Lent) -> Answer {
    simulate(call, control, lent)
}
