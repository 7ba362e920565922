use crate::answer::{Forwarded, Read, Refusal};
use crate::memory::{self, Memory};
use crate::message::Message;
use crate::operation::{self, Operation};
use crate::request::Request;
use crate::view::View;
use std::fmt;
use sulyobak_sys::{sizes, Control};

/// A system that owns its memory: the head end's copy, up to four studios' copies and that of what is retired, the log and the sessions
/// (some 104 kB).
///
/// A call that changes something takes `&mut self`, so there is one at a time. See the [crate's page](crate) for an example.
#[derive(Clone, PartialEq, Eq)]
pub struct Library {
    library: Box<[u8]>,
    log: Box<[u8]>,
    sessions: Box<[u8]>,
    control: Control,
}

/// A library taken apart, to be saved together with [`VERSION`](crate::VERSION).
#[derive(Clone, PartialEq, Eq)]
pub struct Parts {
    /// The six copies, [`sizes::LIBRARY`] bytes.
    pub library: Box<[u8]>,
    /// The log, [`sizes::LOG`] bytes.
    pub log: Box<[u8]>,
    /// The sessions, [`sizes::SESSIONS`] bytes.
    pub sessions: Box<[u8]>,
    /// The counts.
    pub control: Control,
}

impl Library {
    /// A fresh system with 1 to 4 studios and the studio of each session in turn, 0 for an unused one. Sessions that
    /// the list leaves out are unused; it has at most 16.
    ///
    /// ```
    /// use sulyobak::{Library, Refusal};
    ///
    /// let library = Library::new(2, &[1, 1, 2])?; // sessions 1 and 2 at studio 1, session 3 at studio 2
    /// assert_eq!(library.control().commits, 0);
    /// assert_eq!(Library::new(5, &[1]).err(), Some(Refusal::Studios));
    /// # Ok::<(), Refusal>(())
    /// ```
    pub fn new(studios: u32, session_studios: &[u8]) -> Result<Library, Refusal> {
        let mut library = Library {
            library: vec![0; sizes::LIBRARY].into_boxed_slice(),
            log: vec![0; sizes::LOG].into_boxed_slice(),
            sessions: vec![0; sizes::SESSIONS].into_boxed_slice(),
            control: Control::default(),
        };
        let mut all = session_studios.to_vec();
        if all.len() < sizes::SESSION_COUNT {
            all.resize(sizes::SESSION_COUNT, 0);
        }
        library.memory().setup(studios, &all)?;
        Ok(library)
    }

    /// Loads a system that was saved: the library with these parts, as they were read back. It goes on as if it had never stopped: sessions
    /// have their numbers, and waiting reads are collected. The [crate's page](crate#saving) says how to save.
    ///
    /// Beyond the layout ([`Refusal::Lengths`], [`Refusal::Layout`]) it works out from the log what its transactions make, beginning with the
    /// sixth copy, which is what the retired ones made. The head end's copy must be what all of them make, each studio's what they make up to
    /// the number that it has applied, and each operation must have met its cart in the right state: else [`Refusal::NotWhole`]. Whatever
    /// calls leave is accepted, so a restart is safe at any moment.
    ///
    /// A save that is torn, with a library, a log and a control of different moments, is refused wherever a copy then differs from what log
    /// and control make of it. What cannot be told, and is accepted: sessions of another moment, counts of sent and studios of sessions from
    /// another moment, a sixth copy that is not what was retired where all the other copies fit it, and a whole system of an earlier moment.
    ///
    /// ```
    /// use sulyobak::{Library, Operation, Read, Refusal, Request, Title};
    ///
    /// # fn main() -> Result<(), Box<dyn std::error::Error>> {
    /// let mut library = Library::new(1, &[1])?;
    /// library.commit(1, &[Operation::New { cart: 7, title: Title::new("Top hour A")?, audio: 501, milliseconds: 8_000 }])?;
    /// assert_eq!(library.read(1, &Request::cart(7))?, Read::Waits { number: 1 });
    /// let saved = library.into_parts();
    ///
    /// // After the restart the read still waits, and is collected.
    /// let mut library = Library::load(saved.clone())?;
    /// library.send(1)?;
    /// library.refresh(1)?;
    /// let Read::Answered { carts, .. } = library.collect(1)? else { panic!("still waiting") };
    /// assert_eq!(carts[0].map(|cart| cart.audio), Some(501));
    ///
    /// // A library of before the refresh with the control of after it: the studio's copy lacks the cart.
    /// let mut torn = library.into_parts();
    /// torn.library = saved.library;
    /// assert_eq!(Library::load(torn), Err(Refusal::NotWhole));
    /// # Ok(())
    /// # }
    /// ```
    pub fn load(parts: Parts) -> Result<Library, Refusal> {
        let library = Library::put_together(parts);
        library.view().load()?;
        Ok(library)
    }

    /// The library with these parts, or [`Refusal::Lengths`] or [`Refusal::Layout`] where they are not of the layout. For parts that were
    /// saved call [`load`](Library::load), which tests more.
    ///
    /// The layout is tested, as each call does: every field within its rule, the log's two chains and the counts agreeing. Whether a copy is
    /// what the log makes is not seen.
    ///
    /// ```
    /// use sulyobak::{Library, Refusal};
    ///
    /// let mut parts = Library::new(2, &[1, 2])?.into_parts();
    /// let mut library = Library::from_parts(parts.clone())?;
    /// parts.library[0] = 9;
    /// assert_eq!(Library::from_parts(parts).err(), Some(Refusal::Layout));
    /// # Ok::<(), Refusal>(())
    /// ```
    pub fn from_parts(parts: Parts) -> Result<Library, Refusal> {
        let library = Library::put_together(parts);
        library.view().check()?;
        Ok(library)
    }

    // Nothing is tested.
    fn put_together(parts: Parts) -> Library {
        let Parts { library, log, sessions, control } = parts;
        Library { library, log, sessions, control }
    }

    /// The library's parts, to be saved; [`load`](Library::load) takes them up again.
    pub fn into_parts(self) -> Parts {
        let Library { library, log, sessions, control } = self;
        Parts { library, log, sessions, control }
    }

    /// The counts: studios, commits, for each studio what was sent and applied, how many transactions are retired, and how many records of
    /// the log are used. The others, [`sizes::RECORDS`] less these, are free: a commit takes one for each operation.
    pub fn control(&self) -> &Control {
        &self.control
    }

    /// Its memory, for calls with bytes.
    pub fn memory(&mut self) -> Memory<'_> {
        Memory { library: &mut self.library, log: &mut self.log, sessions: &mut self.sessions, control: &mut self.control }
    }

    fn view(&self) -> View<'_> {
        View { library: &self.library, log: &self.log, sessions: &self.sessions, control: &self.control }
    }

    /// Commits 1 to 8 operations at the head end, all or none. Returns the commit's number. Later reads of this session
    /// wait until its studio's copy has taken this commit.
    ///
    /// A title that begins or ends with a space is refused, since on the wall it could not be told from the title without. A read may
    /// ask for such a title: a cart may have it from before version 3.
    ///
    /// ```
    /// use sulyobak::{Library, Operation, Read, Refusal, Request, Title};
    ///
    /// # fn main() -> Result<(), Box<dyn std::error::Error>> {
    /// let mut library = Library::new(1, &[1])?;
    /// let spaced = Title::new("News bed ")?;
    /// let news = |title| Operation::New { cart: 30, title, audio: 401, milliseconds: 60_000 };
    ///
    /// assert_eq!(library.read(1, &Request::Title(spaced))?, Read::Answered { state: 0, found: 0, carts: vec![None] });
    /// assert_eq!(library.commit(1, &[news(spaced)]), Err(Refusal::SpacedTitle));
    /// assert_eq!(library.commit(1, &[news(Title::new("News bed")?)]), Ok(1));
    /// # Ok(())
    /// # }
    /// ```
    ///
    /// [`Refusal::WrongState`] tells of the library at the head end. So it raises the session's number to the count of commits, its only
    /// change, and the session's later reads wait until the studio's copy has all that was committed by then. No other refusal changes
    /// anything.
    ///
    /// ```
    /// use sulyobak::{Library, Operation, Read, Refusal, Request, Title};
    ///
    /// # fn main() -> Result<(), Box<dyn std::error::Error>> {
    /// // Session 1 sits in studio 1, session 2 in studio 2, and fills cart 40.
    /// let mut library = Library::new(2, &[1, 2])?;
    /// let travel = Operation::New { cart: 40, title: Title::new("Travel bed")?, audio: 403, milliseconds: 45_000 };
    /// assert_eq!(library.commit(2, &[travel]), Ok(1));
    ///
    /// // Session 1 is told that cart 40 is taken, and is not shown the copy in which it is empty.
    /// assert_eq!(library.commit(1, &[travel]), Err(Refusal::WrongState));
    /// assert_eq!(library.read(1, &Request::cart(40))?, Read::Waits { number: 1 });
    ///
    /// library.send(1)?;
    /// library.refresh(1)?;
    /// let Read::Answered { carts, .. } = library.collect(1)? else { panic!("still waiting") };
    /// assert_eq!(carts[0].map(|cart| cart.audio), Some(403));
    /// # Ok(())
    /// # }
    /// ```
    pub fn commit(&mut self, session: u32, operations: &[Operation]) -> Result<u32, Refusal> {
        self.memory().commit(session, operations)
    }

    /// Answers what [`commit`](Library::commit) would for the same session and operations, and changes nothing, whatever it answers: the
    /// number that the commit would have, or its refusal. The answer is the commit's as long as nothing is changed in between.
    ///
    /// A producer tries an edit before making it:
    ///
    /// ```
    /// use sulyobak::{Library, Operation, Refusal, Title};
    ///
    /// # fn main() -> Result<(), Box<dyn std::error::Error>> {
    /// let mut library = Library::new(1, &[1])?;
    /// let news = Operation::New { cart: 30, title: Title::new("News bed")?, audio: 401, milliseconds: 60_000 };
    /// assert_eq!(library.commit(1, &[news])?, 1);
    /// let before = library.clone();
    ///
    /// // Cart 30 is there already, so the edit would be refused ..
    /// let weather = Operation::New { cart: 30, title: Title::new("Weather bed")?, audio: 402, milliseconds: 30_000 };
    /// assert_eq!(library.preview(1, &[weather]), Err(Refusal::WrongState));
    ///
    /// // .. and with the cart withdrawn first it would be commit 2.
    /// let mended = [Operation::Withdraw { cart: 30 }, weather];
    /// assert_eq!(library.preview(1, &mended)?, 2);
    /// assert_eq!(library, before, "nothing has changed so far");
    ///
    /// assert_eq!(library.commit(1, &mended)?, 2);
    /// # Ok(())
    /// # }
    /// ```
    pub fn preview(&self, session: u32, operations: &[Operation]) -> Result<u32, Refusal> {
        self.view().preview(session, &operation::bytes_of(operations))
    }

    /// Counts the next transaction as sent to a studio. Returns how many were sent.
    pub fn send(&mut self, studio: u32) -> Result<u32, Refusal> {
        self.memory().send(studio)
    }

    /// Applies the next transaction that was sent to a studio to its copy. Returns how many the copy has taken.
    pub fn refresh(&mut self, studio: u32) -> Result<u32, Refusal> {
        self.memory().refresh(studio)
    }

    /// Reads from the copy of the session's studio, or waits until that copy has reached the session's number. Where a session
    /// cannot wait, call [`forward`](Library::forward).
    ///
    /// An answer raises the session's number to the state that it shows, where that is higher: so no later read of the session shows a
    /// lower state, also after a move to another studio ([`move_session`](Library::move_session)).
    pub fn read(&mut self, session: u32, request: &Request) -> Result<Read, Refusal> {
        self.memory().read(session, request)
    }

    /// Collects the read that the session has waiting, if its studio's copy has caught up; else it waits on. An answer raises the session's
    /// number as that of [`read`](Library::read) does.
    pub fn collect(&mut self, session: u32) -> Result<Read, Refusal> {
        self.memory().collect(session)
    }

    /// Reads now, where a session cannot wait. Where the copy of the session's studio has reached the session's number, it answers and leaves
    /// exactly what [`read`](Library::read) would. Else it answers from the head end's copy, and the session's number becomes the count of commits:
    /// so the session's later reads wait until its studio's copy has all that was committed by then, and none shows a copy from before.
    ///
    /// It never waits and keeps no request. A session that has a read waiting is refused ([`Refusal::ReadWaiting`]), and that read waits
    /// on. An answer is the head end's exactly where its state is not what the session's studio has applied.
    ///
    /// Ten seconds before the hour:
    ///
    /// ```
    /// use sulyobak::{Library, Operation, Read, Request, Title};
    ///
    /// # fn main() -> Result<(), Box<dyn std::error::Error>> {
    /// let mut library = Library::new(1, &[1, 1])?;
    /// let top = Operation::New { cart: 7, title: Title::new("Top hour A")?, audio: 501, milliseconds: 8_000 };
    /// assert_eq!(library.commit(1, &[top])?, 1);
    /// assert_eq!(library.commit(2, &[Operation::Retitle { cart: 7, title: Title::new("Top hour B")? }])?, 2);
    ///
    /// // Session 1 would wait for its commit; the head end shows the cart as it stands after 2.
    /// let shown = library.forward(1, &Request::cart(7))?;
    /// assert_eq!((shown.state, shown.found), (2, 1));
    /// assert_eq!(shown.carts[0].map(|cart| cart.title), Some(Title::new("Top hour B")?));
    /// assert_eq!(library.control().applied[0], 0, "the studio's copy has taken nothing yet");
    ///
    /// // A read then waits for these 2 commits.
    /// assert_eq!(library.read(1, &Request::cart(7))?, Read::Waits { number: 2 });
    /// # Ok(())
    /// # }
    /// ```
    pub fn forward(&mut self, session: u32, request: &Request) -> Result<Forwarded, Refusal> {
        self.memory().forward(session, request)
    }

    /// Moves a session to another studio. Returns that studio. Its later reads are answered from the copy there; at a studio whose copy is
    /// behind the session's number they wait, or are forwarded. A move to the session's own studio is no refusal, and changes nothing.
    ///
    /// Nothing but control changes: the studio of that session. A session that has a read waiting is refused ([`Refusal::ReadWaiting`]),
    /// and so is a studio that there is not ([`Refusal::Nobody`]).
    ///
    /// A presenter walks to the other studio, and not back in time:
    ///
    /// ```
    /// use sulyobak::{Library, Operation, Read, Request, Title};
    ///
    /// # fn main() -> Result<(), Box<dyn std::error::Error>> {
    /// // The editor, session 1, and the presenter, session 2, sit in studio 1.
    /// let mut library = Library::new(2, &[1, 1])?;
    /// library.commit(1, &[Operation::New { cart: 7, title: Title::new("Top hour A")?, audio: 501, milliseconds: 8_000 }])?;
    /// library.send(1)?;
    /// library.refresh(1)?;
    ///
    /// // The presenter is shown cart 7 in studio 1, and then not the copy of studio 2 in which it is empty.
    /// let Read::Answered { state: 1, found: 1, .. } = library.read(2, &Request::cart(7))? else { panic!("not answered") };
    /// assert_eq!(library.move_session(2, 2)?, 2);
    /// assert_eq!(library.read(2, &Request::cart(7))?, Read::Waits { number: 1 });
    ///
    /// library.send(2)?;
    /// library.refresh(2)?;
    /// let Read::Answered { carts, .. } = library.collect(2)? else { panic!("still waiting") };
    /// assert_eq!(carts[0].map(|cart| cart.audio), Some(501));
    /// # Ok(())
    /// # }
    /// ```
    pub fn move_session(&mut self, session: u32, studio: u32) -> Result<u32, Refusal> {
        self.memory().move_session(session, studio)
    }

    /// Retires the oldest transaction of the log, once every studio has applied it: its records are free again, so that later commits find
    /// room. Returns how many are retired by now. Commit numbers, copies and sessions stay as they are.
    ///
    /// While a studio still needs the oldest transaction, or the log has none, it is refused ([`Refusal::NotRetirable`]). So a station that
    /// retires until that refusal, and whose studios keep up, never fills its log, until 65,535 transactions were committed. A retired
    /// transaction can no longer be written for a van ([`Refusal::Retired`]): keep those that a van may still need.
    ///
    /// A busy station commits more than the log holds:
    ///
    /// ```
    /// use sulyobak::{Library, Operation, Refusal, Title};
    ///
    /// # fn main() -> Result<(), Box<dyn std::error::Error>> {
    /// let mut library = Library::new(1, &[1])?;
    /// library.commit(1, &[Operation::New { cart: 7, title: Title::new("Top hour A")?, audio: 1, milliseconds: 8_000 }])?;
    /// assert_eq!(library.retire(), Err(Refusal::NotRetirable), "studio 1 still needs it");
    ///
    /// for number in 2..=1_000 {
    ///     assert_eq!(library.commit(1, &[Operation::Recut { cart: 7, audio: number, milliseconds: 8_000 }])?, number);
    ///     library.send(1)?;
    ///     library.refresh(1)?;
    ///     assert_eq!(library.retire()?, number - 1);
    /// }
    /// assert_eq!((library.control().commits, library.control().retired, library.control().used), (1_000, 999, 1));
    /// assert_eq!(library.retire(), Err(Refusal::NotRetirable), "transaction 1,000 is not applied yet");
    /// # Ok(())
    /// # }
    /// ```
    ///
    /// Where the studios cannot be waited for, a commit tells that the log is full:
    ///
    /// ```
    /// use sulyobak::{sizes, Library, Operation, Refusal};
    ///
    /// let mut library = Library::new(1, &[1])?;
    /// let title = "News bed".parse().expect("a title");
    /// library.commit(1, &[Operation::New { cart: 30, title, audio: 401, milliseconds: 60_000 }])?;
    /// let recut = Operation::Recut { cart: 30, audio: 402, milliseconds: 60_000 };
    /// while library.control().used < sizes::RECORDS as u32 {
    ///     library.commit(1, &[recut])?;
    /// }
    /// assert_eq!(library.commit(1, &[recut]), Err(Refusal::LogFull));
    ///
    /// // Once the studio has applied the oldest one there is room again.
    /// library.send(1)?;
    /// library.refresh(1)?;
    /// library.retire()?;
    /// assert_eq!(library.commit(1, &[recut]), Ok(513));
    /// # Ok::<(), Refusal>(())
    /// ```
    pub fn retire(&mut self) -> Result<u32, Refusal> {
        self.memory().retire()
    }

    /// Writes the message of a committed transaction, for a [`Van`](crate::Van), and changes nothing. The transaction need not have been
    /// sent to any studio; one that is retired is refused ([`Refusal::Retired`]), and a number outside 1 to commits too
    /// ([`Refusal::Message`]).
    ///
    /// The same number gives the same message until the transaction is retired, whatever is called in between: where one was lost on the
    /// way, write it again.
    ///
    /// ```
    /// use sulyobak::{Library, Operation, Refusal, Title, Van};
    ///
    /// # fn main() -> Result<(), Box<dyn std::error::Error>> {
    /// let mut library = Library::new(1, &[1])?;
    /// library.commit(1, &[Operation::New { cart: 7, title: Title::new("Top hour A")?, audio: 501, milliseconds: 8_000 }])?;
    ///
    /// let message = library.van_write(1)?;
    /// assert_eq!((message.number(), message.count(), message.as_bytes().len()), (1, 1, 84));
    /// assert_eq!(library.van_write(2), Err(Refusal::Message), "not committed yet");
    ///
    /// library.commit(1, &[Operation::Withdraw { cart: 7 }])?;
    /// assert_eq!(library.van_write(1)?, message);
    /// # Ok(())
    /// # }
    /// ```
    pub fn van_write(&self, number: u32) -> Result<Message, Refusal> {
        self.view().van_write(number)
    }

    /// The same into output that the caller lends, such as a packet of the radio link. Returns the message's length; what is after it in
    /// output stays. Output of [`sizes::MESSAGE_MOST`] bytes is long enough for every message; one that is shorter than the message is
    /// refused ([`Refusal::Message`]), and left alone.
    ///
    /// ```
    /// use sulyobak::{sizes, Library, Operation, Refusal};
    ///
    /// let mut library = Library::new(1, &[1])?;
    /// let title = "News bed".parse().expect("a title");
    /// library.commit(1, &[Operation::New { cart: 30, title, audio: 401, milliseconds: 60_000 }])?;
    ///
    /// let mut packet = [0; sizes::MESSAGE_MOST];
    /// let length = library.van_write_into(1, &mut packet)?;
    /// assert_eq!(packet[..length], *library.van_write(1)?.as_bytes());
    /// assert_eq!(library.van_write_into(1, &mut packet[..length - 1]), Err(Refusal::Message));
    /// # Ok::<(), Refusal>(())
    /// ```
    pub fn van_write_into(&self, number: u32, output: &mut [u8]) -> Result<usize, Refusal> {
        self.view().van_write_into(number, output)
    }
}

impl fmt::Debug for Library {
    fn fmt(&self, f: &mut fmt::Formatter<'_>) -> fmt::Result {
        memory::debug(f, "Library", [&self.library, &self.log, &self.sessions], &self.control)
    }
}

impl fmt::Debug for Parts {
    fn fmt(&self, f: &mut fmt::Formatter<'_>) -> fmt::Result {
        memory::debug(f, "Parts", [&self.library, &self.log, &self.sessions], &self.control)
    }
}
