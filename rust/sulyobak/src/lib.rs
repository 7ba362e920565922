//! A replication engine for radio cart libraries.
//!
//! One head end commits edits to its copy of the library and to a log. Up to four studios are sent the committed transactions and
//! apply them, in order, to copies of their own. A session is at one studio at a time and reads that studio's copy. Its read is answered
//! once the copy has reached the session's number, and waits until then; where it cannot wait, the read is forwarded to the head end
//! ([`Library::forward`]). The number is the highest of what the session knows of: its last commit, the count of commits at which the head
//! end refused it one because of a cart's state ([`Refusal::WrongState`]) or answered it, and the state that a read showed it. So nobody is
//! handed an old cut that they have just replaced, or told or shown what the head end or a studio has and then shown a copy from before,
//! also after a move to another studio ([`Library::move_session`]). A copy beyond a line that loses, repeats and reorders, in an
//! outside-broadcast van, is kept by messages, one for each transaction ([`Library::van_write`], [`Van::receive`]). The log has 512 records;
//! a transaction that every studio has applied is retired, and its records serve again ([`Library::retire`]). Wall files of the
//! thirty-two-character edition become one copy, and a copy such a file ([`old`]).
//!
//! The engine is written in Rattle and linked as a static library; each of its functions is proved to answer, and to leave in
//! memory, exactly what its specification gives. This crate is a safe wrapper around it, with no dependency but the
//! declarations of its calls (`sulyobak-sys`): it makes the bytes of operations and requests, reads the bytes of carts, and turns
//! answers into enums. It decides nothing.
//!
//! - [`Library`] owns its memory: the usual choice.
//! - [`Memory`] borrows memory that lies elsewhere, such as a mapped file.
//! - [`Van`] owns the van's copy; it needs nothing of the head end but [`Message`]s.
//! - [`old`] converts wall files of the thirty-two-character edition.
//! - [`Operation`], [`Request`] and [`Title`] are what goes in; [`Read`], [`Forwarded`], [`Received`], [`Cart`] and [`Refusal`] what
//!   comes out.
//!
//! **One chair is one session.** The wait goes by the session's own number, so whoever edits must read in the session that committed.
//! With two sessions in one chair, an edit committed in the first does not raise the second's number: a read in the second is answered at
//! once, with the old cut. That is right by the rules; it is the caller who keeps a person to one session.
//!
//! The first call asks the linked engine for its version; where it is another than [`VERSION`], every call is refused by
//! [`Refusal::Version`].
//!
//! # Saving
//!
//! Save the three memories and control together ([`Library::into_parts`]), as one call left them, with the [`VERSION`] that wrote them.
//! Write them to another file and rename it, so that a stop in the middle leaves the last whole save. Answered reads change a session's
//! number: save after them, too.
//!
//! After reading them back, look at the version (docs/FORMAT.md says which versions have the same layout), and call [`Library::load`] (or
//! [`Memory::load`]) once, before any other call. A save that is whole is accepted and goes on exactly as if the system had never stopped:
//! sessions keep their numbers and their waiting reads.
//!
//! What a torn save gives: a library, a log and a control of different moments are refused ([`Refusal::Layout`] or [`Refusal::NotWhole`])
//! wherever a copy then differs from what log and control make of it. What cannot be told, and is accepted:
//!
//! - sessions of another moment: a number too low shows its session an earlier copy;
//! - in control, counts of sent and studios of sessions from another moment;
//! - a byte of the log that no copy depends on any more, as a title that was replaced later;
//! - a sixth copy that is not what the retired transactions made, where all the other copies fit it;
//! - a whole system of an earlier moment.
//!
//! `examples/rust/restart.rs` saves to a file, reads it back, loads, goes on, and shows what torn files give.
//!
//! # Example
//!
//! A producer re-cuts a jingle and reads it back in the same chair.
//!
//! ```
//! use sulyobak::{Library, Operation, Read, Request, Title};
//!
//! # fn main() -> Result<(), Box<dyn std::error::Error>> {
//! // Two studios; sessions 1 and 2 sit in studio 1, session 3 in studio 2.
//! let mut library = Library::new(2, &[1, 1, 2])?;
//! let title = Title::new("Sponsor's jingle")?;
//!
//! let number = library.commit(1, &[Operation::New { cart: 7, title, audio: 501, milliseconds: 8_000 }])?;
//! assert_eq!(number, 1);
//!
//! // Studio 1's copy does not have the cart yet: the producer's read waits ..
//! assert_eq!(library.read(1, &Request::cart(7))?, Read::Waits { number: 1 });
//!
//! // .. and is collected once the transaction is sent and applied.
//! library.send(1)?;
//! library.refresh(1)?;
//! let Read::Answered { state, carts, .. } = library.collect(1)? else { panic!("still waiting") };
//! assert_eq!(state, 1);
//! assert_eq!(carts[0].map(|cart| cart.audio), Some(501));
//! # Ok(())
//! # }
//! ```

mod answer;
mod call;
mod cart;
mod library;
mod memory;
mod message;
pub mod old;
mod operation;
mod request;
mod title;
mod van;
mod version;
mod view;

pub use answer::{ForwardFound, Forwarded, Found, Read, Received, Refusal};
pub use cart::Cart;
pub use library::{Library, Parts};
pub use memory::Memory;
pub use message::Message;
pub use operation::Operation;
pub use request::{Numbers, NumbersError, Request};
pub use sulyobak_sys::{sizes, Control, VERSION};
pub use title::{Title, TitleError};
pub use van::Van;
