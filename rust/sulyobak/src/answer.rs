use crate::cart::Cart;
use std::error::Error;
use std::fmt;

/// Why a call was refused. A refused call changes nothing, with one exception: a commit that is refused by [`Refusal::WrongState`] raises
/// its session's number ([`Library::commit`](crate::Library::commit) says why).
///
/// ```
/// use sulyobak::{Library, Refusal};
///
/// let mut library = Library::new(1, &[1]).unwrap();
/// let refusal = library.send(1).unwrap_err();
/// assert_eq!(refusal, Refusal::AllSent);
/// assert_eq!(refusal.number(), 9);
/// assert_eq!(refusal.to_string(), "refused (9): every committed transaction was sent to this studio");
/// ```
#[derive(Clone, Copy, Debug, PartialEq, Eq, Hash)]
#[non_exhaustive]
pub enum Refusal {
    /// 1: one of the three memories does not have its exact length.
    Lengths,
    /// 2: control and memory are not of the layout.
    Layout,
    /// 3: there is no such session in use, or no such studio.
    Nobody,
    /// 4: the session has a read waiting.
    ReadWaiting,
    /// 5: a commit takes 1 to 8 operations.
    Size,
    /// 6: an operation is out of form.
    Operation,
    /// 7: the log has fewer free records than operations ([`Library::retire`](crate::Library::retire) makes room), or 65,535 transactions
    /// were committed.
    LogFull,
    /// 8: an operation meets its cart in the wrong state. A commit refused so leaves its session's number at the count of commits, and
    /// changes nothing else; a preview changes nothing.
    WrongState,
    /// 9: every committed transaction was sent to this studio.
    AllSent,
    /// 10: 32 transactions were sent to this studio and not yet applied.
    WindowFull,
    /// 11: everything that was sent to this studio is applied.
    AllApplied,
    /// 12: the request is out of form.
    Request,
    /// 13: output is too short.
    Output,
    /// 14: the session has no read waiting.
    NothingWaiting,
    /// 15: setup's studios are out of range.
    Studios,
    /// 16: the title of a new or retitle begins or ends with a space.
    SpacedTitle,
    /// 17: at the van's writer there is no such transaction, or output is shorter than its message; in the van the message is out of
    /// form, or the copy is not of the layout.
    Message,
    /// 18: the message's number is above applied + 1.
    MessageAhead,
    /// 19: a copy is not what the log makes, or a logged operation met its cart in the wrong state. Only a load is refused so
    /// ([`Library::load`](crate::Library::load)).
    NotWhole,
    /// 20: a studio has not applied the oldest transaction of the log yet, or the log has none. Only a retire is refused so
    /// ([`Library::retire`](crate::Library::retire)).
    NotRetirable,
    /// 21: the transaction is retired, and no longer in the log: no message of it can be written.
    Retired,
    /// 22: the input is not of its length or form, or the output is not of its length. Only a conversion is refused so
    /// ([`old::from_old`](crate::old::from_old), [`old::to_old`](crate::old::to_old)).
    NotConvertible,
    /// 23: a title has more than 32 letters, and an old file has no room for it. Only a conversion to an old file is refused so
    /// ([`old::to_old`](crate::old::to_old)).
    LongTitle,
    /// A number that this version of the crate does not know.
    Unknown(u32),
    /// The linked engine is of this version of the interface, and this crate is for [`VERSION`](crate::VERSION): nothing was called.
    Version(u32),
}

impl Refusal {
    // Every refusal, by its number from 1, but a conversion's.
    const ALL: [Refusal; 21] = [
        Refusal::Lengths,
        Refusal::Layout,
        Refusal::Nobody,
        Refusal::ReadWaiting,
        Refusal::Size,
        Refusal::Operation,
        Refusal::LogFull,
        Refusal::WrongState,
        Refusal::AllSent,
        Refusal::WindowFull,
        Refusal::AllApplied,
        Refusal::Request,
        Refusal::Output,
        Refusal::NothingWaiting,
        Refusal::Studios,
        Refusal::SpacedTitle,
        Refusal::Message,
        Refusal::MessageAhead,
        Refusal::NotWhole,
        Refusal::NotRetirable,
        Refusal::Retired,
    ];

    /// The refusal with this number of documents 01 and 02.
    pub fn from_number(number: u32) -> Refusal {
        let place = (number as usize).checked_sub(1);
        place.and_then(|place| Refusal::ALL.get(place)).copied().unwrap_or(Refusal::Unknown(number))
    }

    // A conversion has two numbers of its own, which version 9 gives to no other call.
    pub(crate) fn of_conversion(number: u32) -> Refusal {
        match number {
            22 => Refusal::NotConvertible,
            23 => Refusal::LongTitle,
            _ => Refusal::from_number(number),
        }
    }

    /// Its number in documents 01 and 02; 0 for [`Refusal::Version`], which they do not have.
    pub fn number(self) -> u32 {
        match self {
            Refusal::Lengths => 1,
            Refusal::Layout => 2,
            Refusal::Nobody => 3,
            Refusal::ReadWaiting => 4,
            Refusal::Size => 5,
            Refusal::Operation => 6,
            Refusal::LogFull => 7,
            Refusal::WrongState => 8,
            Refusal::AllSent => 9,
            Refusal::WindowFull => 10,
            Refusal::AllApplied => 11,
            Refusal::Request => 12,
            Refusal::Output => 13,
            Refusal::NothingWaiting => 14,
            Refusal::Studios => 15,
            Refusal::SpacedTitle => 16,
            Refusal::Message => 17,
            Refusal::MessageAhead => 18,
            Refusal::NotWhole => 19,
            Refusal::NotRetirable => 20,
            Refusal::Retired => 21,
            Refusal::NotConvertible => 22,
            Refusal::LongTitle => 23,
            Refusal::Unknown(number) => number,
            Refusal::Version(_) => 0,
        }
    }

    /// What it says to people.
    pub fn sentence(self) -> &'static str {
        match self {
            Refusal::Lengths => "one of the three memories does not have its exact length",
            Refusal::Layout => "control and memory are not of the layout: damaged, mixed up, or never set up",
            Refusal::Nobody => "there is no such session in use, or no such studio",
            Refusal::ReadWaiting => "the session has a read waiting; collect it first",
            Refusal::Size => "a commit takes 1 to 8 operations",
            Refusal::Operation => {
                "an operation is out of form: cart number 1 to 128, audio and length at least 1, title of 1 to 64 letters"
            }
            Refusal::LogFull => {
                "the log has fewer free records than there are operations (retire makes room), or 65,535 transactions were committed"
            }
            Refusal::WrongState => "a new cart is there already, or the cart to retitle, re-cut or withdraw is empty",
            Refusal::AllSent => "every committed transaction was sent to this studio",
            Refusal::WindowFull => "32 transactions were sent to this studio and not yet applied; refresh it first",
            Refusal::AllApplied => "everything that was sent to this studio is applied",
            Refusal::Request => "the request is out of form: 1 to 32 cart numbers from 1 to 128, or a title of 1 to 64 letters",
            Refusal::Output => "output is shorter than 80 bytes for each number asked, or 80 for a title",
            Refusal::NothingWaiting => "the session has no read waiting",
            Refusal::Studios => "studios are 1 to 4, with a studio for each of 16 sessions, none above the number of studios",
            Refusal::SpacedTitle => "the title begins or ends with a space",
            Refusal::Message => {
                "no such transaction, or output shorter than its message; in the van: a message out of form, or a copy not of the layout"
            }
            Refusal::MessageAhead => "the message comes too soon: a transaction before it has not been applied yet",
            Refusal::NotWhole => {
                "a copy is not what the log makes, or a logged operation met its cart in the wrong state: damaged, or not saved together"
            }
            Refusal::NotRetirable => "a studio has not applied the oldest transaction of the log yet, or the log has none",
            Refusal::Retired => "the transaction is retired, and no longer in the log",
            Refusal::NotConvertible => "the input is not of its length or form, or the output is not of its length",
            Refusal::LongTitle => "a title has more than 32 letters, and an old file has no room for it",
            Refusal::Unknown(_) => "a number that this version of the crate does not have",
            Refusal::Version(_) => "the linked libsulyobak.a is of another version than this crate",
        }
    }
}

impl fmt::Display for Refusal {
    fn fmt(&self, f: &mut fmt::Formatter<'_>) -> fmt::Result {
        match self {
            Refusal::Version(linked) => write!(f, "{}: {linked}, not {}", self.sentence(), sulyobak_sys::VERSION),
            _ => write!(f, "refused ({}): {}", self.number(), self.sentence()),
        }
    }
}

impl Error for Refusal {}

/// What read and collect answer.
#[derive(Clone, Debug, PartialEq, Eq, Hash)]
pub enum Read {
    /// Answered from the copy of the session's studio.
    Answered {
        /// How many transactions the copy had taken.
        state: u32,
        /// How many of the places asked hold a cart, or how many carts have the title.
        found: u32,
        /// A cart for each number asked, in order, or none where it is empty. For a title one place: the cart, if exactly one has it.
        carts: Vec<Option<Cart>>,
    },
    /// The studio's copy has not reached the session's number yet. The request is kept: [`collect`](crate::Library::collect) it later.
    Waits {
        /// How many transactions the copy has to reach: the session's number.
        number: u32,
    },
}

/// What read and collect answer where the caller lends the output ([`Memory::read_into`](crate::Memory::read_into)).
#[derive(Clone, Copy, Debug, PartialEq, Eq, Hash)]
pub enum Found {
    /// Answered; the carts' bytes stand at output's start.
    Answered {
        /// How many transactions the copy had taken.
        state: u32,
        /// How many of the places asked hold a cart, or how many carts have the title.
        found: u32,
    },
    /// The read waits; output is left alone.
    Waits {
        /// How many transactions the copy has to reach: the session's number.
        number: u32,
    },
}

impl Found {
    // With the carts of the output.
    pub(crate) fn with_carts(self, output: &[u8]) -> Read {
        match self {
            Found::Answered { state, found } => Read::Answered { state, found, carts: Cart::all(output) },
            Found::Waits { number } => Read::Waits { number },
        }
    }
}

/// What forward answers. It never waits.
#[derive(Clone, Debug, PartialEq, Eq, Hash)]
pub struct Forwarded {
    /// How many transactions the copy that answered had taken: the studio's where that has reached the session's number, else the head
    /// end's, which has taken every commit.
    pub state: u32,
    /// How many of the places asked hold a cart, or how many carts have the title.
    pub found: u32,
    /// A cart for each number asked, in order, or none where it is empty. For a title one place: the cart, if exactly one has it.
    pub carts: Vec<Option<Cart>>,
}

/// What forward answers where the caller lends the output ([`Memory::forward_into`](crate::Memory::forward_into)): the carts' bytes stand
/// at output's start.
#[derive(Clone, Copy, Debug, PartialEq, Eq, Hash)]
pub struct ForwardFound {
    /// How many transactions the copy that answered had taken, as in [`Forwarded`].
    pub state: u32,
    /// How many of the places asked hold a cart, or how many carts have the title.
    pub found: u32,
}

impl ForwardFound {
    // With the carts of the output.
    pub(crate) fn with_carts(self, output: &[u8]) -> Forwarded {
        Forwarded { state: self.state, found: self.found, carts: Cart::all(output) }
    }
}

/// What a van answers to a message that it does not refuse.
#[derive(Clone, Copy, Debug, PartialEq, Eq, Hash)]
pub enum Received {
    /// The message's transaction is applied: it was the next one.
    Applied {
        /// The message's number, which is what the van has applied now.
        number: u32,
    },
    /// The van holds the message's transaction already: nothing was changed.
    Held {
        /// The message's number, up to what the van has applied.
        number: u32,
    },
}

#[cfg(test)]
mod tests {
    use super::Refusal;

    #[test]
    fn every_refusal_has_its_number() {
        for number in 1..=21 {
            let refusal = Refusal::from_number(number);
            assert_eq!(refusal.number(), number);
            assert!(!matches!(refusal, Refusal::Unknown(_)));
        }
        for number in [0, 22, u32::MAX] {
            assert_eq!(Refusal::from_number(number), Refusal::Unknown(number));
        }
    }

    #[test]
    fn conversions_have_two_numbers_more() {
        for (number, refusal) in
            [(22, Refusal::NotConvertible), (23, Refusal::LongTitle), (24, Refusal::Unknown(24)), (1, Refusal::Lengths)]
        {
            assert_eq!(Refusal::of_conversion(number), refusal);
            assert_eq!(refusal.number(), number);
        }
    }
}
