use crate::answer::{ForwardFound, Forwarded, Found, Read, Refusal};
use crate::call::{call, counted, other_version};
use crate::message::Message;
use crate::operation::{self, Operation};
use crate::request::Request;
use crate::view::View;
use std::fmt;
use sulyobak_sys::{self as sys, sizes, Control};

/// A system in memory that lies elsewhere: three borrowed slices and control.
///
/// The slices should have the sizes of [`sizes`]; where they have not, each call is refused ([`Refusal::Lengths`]).
/// Nothing here can go wrong otherwise: the engine tests control and memory at each call.
///
/// ```
/// use sulyobak::{sizes, Control, Memory, Refusal};
///
/// let mut library = vec![0; sizes::LIBRARY];
/// let mut log = vec![0; sizes::LOG];
/// let mut sessions = vec![0; sizes::SESSIONS];
/// let mut control = Control::default();
/// let mut memory = Memory { library: &mut library, log: &mut log, sessions: &mut sessions, control: &mut control };
///
/// assert_eq!(memory.check(), Err(Refusal::Layout)); // not set up yet
/// memory.setup(2, &[1, 1, 2, 0, 0, 0, 0, 0, 0, 0, 0, 0, 0, 0, 0, 0])?;
/// assert_eq!(memory.check(), Ok(()));
/// assert_eq!(control.studios, 2);
/// # Ok::<(), Refusal>(())
/// ```
pub struct Memory<'a> {
    /// The six copies, [`sizes::LIBRARY`] bytes.
    pub library: &'a mut [u8],
    /// The log, [`sizes::LOG`] bytes.
    pub log: &'a mut [u8],
    /// The sessions, [`sizes::SESSIONS`] bytes.
    pub sessions: &'a mut [u8],
    /// The counts; each call leaves here what the engine hands back.
    pub control: &'a mut Control,
}

// The answer of a function that is passed a request and an output: read or forward.
macro_rules! ask {
    ($function:ident, $self:ident, $session:ident, $request:ident, $output:ident) => {{
        let (asked, room) = ($request.len(), $output.len());
        let answer = call!(as_mut_ptr, $function, $self, *$self.control, $session, $request.as_ptr(), asked, $output.as_mut_ptr(), room);
        $self.answered(answer)
    }};
}

impl Memory<'_> {
    /// Sets up a fresh system: every cart empty, nothing waiting, every record of the log free, all counts zero.
    ///
    /// There are 1 to 4 studios, and 16 bytes with the studio of each session; 0 leaves a session unused.
    /// A refused setup changes neither memory nor control, so a system that was live stays so. (The engine hands back a control of zeros
    /// then; it is not taken over.)
    pub fn setup(&mut self, studios: u32, session_studios: &[u8]) -> Result<(), Refusal> {
        let answer = call!(as_mut_ptr, sulyobak_setup, self, studios, session_studios.as_ptr(), session_studios.len());
        counted(&answer)?;
        *self.control = answer.control;
        Ok(())
    }

    /// Loads a system that was saved: tests memory and control as they were read back, and changes nothing. Returns the count of commits.
    /// Call it once, before any other call on such memory: [`Library::load`](crate::Library::load) tells what is tested.
    ///
    /// ```
    /// use sulyobak::{Library, Operation, Refusal, Title};
    ///
    /// # fn main() -> Result<(), Box<dyn std::error::Error>> {
    /// let mut library = Library::new(1, &[1])?;
    /// library.commit(1, &[Operation::New { cart: 7, title: Title::new("Top hour A")?, audio: 501, milliseconds: 8_000 }])?;
    /// let memory = library.memory();
    /// assert_eq!(memory.load(), Ok(1));
    ///
    /// memory.library[80 * 6 + 4] += 1; // another audio number in the head end's cart 7
    /// assert_eq!(memory.check(), Ok(()), "it is of the layout");
    /// assert_eq!(memory.load(), Err(Refusal::NotWhole));
    /// # Ok(())
    /// # }
    /// ```
    pub fn load(&self) -> Result<u32, Refusal> {
        self.view().load()
    }

    /// Tests lengths and layout alone, as every call but setup does first. Whether a copy is what the log makes is not tested: for memory
    /// that was saved call [`load`](Memory::load).
    pub fn check(&self) -> Result<(), Refusal> {
        self.view().check()
    }

    /// Commits 1 to 8 operations at the head end, all or none. Returns the commit's number. A title that begins or ends with a space is
    /// refused, and a refusal because of a cart's state raises the session's number: [`Library::commit`](crate::Library::commit) has
    /// examples.
    pub fn commit(&mut self, session: u32, operations: &[Operation]) -> Result<u32, Refusal> {
        self.commit_bytes(session, &operation::bytes_of(operations))
    }

    /// The same with the operations' bytes as they are.
    pub fn commit_bytes(&mut self, session: u32, operations: &[u8]) -> Result<u32, Refusal> {
        let answer = call!(as_mut_ptr, sulyobak_commit, self, *self.control, session, operations.as_ptr(), operations.len());
        self.done(answer)
    }

    /// Answers what a commit of these operations would, and changes nothing: [`Library::preview`](crate::Library::preview) has an example.
    pub fn preview(&self, session: u32, operations: &[Operation]) -> Result<u32, Refusal> {
        self.preview_bytes(session, &operation::bytes_of(operations))
    }

    /// The same with the operations' bytes as they are.
    pub fn preview_bytes(&self, session: u32, operations: &[u8]) -> Result<u32, Refusal> {
        self.view().preview(session, operations)
    }

    /// Counts the next transaction as sent to a studio. Returns how many were sent.
    pub fn send(&mut self, studio: u32) -> Result<u32, Refusal> {
        let answer = call!(as_mut_ptr, sulyobak_send, self, *self.control, studio);
        self.done(answer)
    }

    /// Applies the next transaction that was sent to a studio to its copy. Returns how many the copy has taken.
    pub fn refresh(&mut self, studio: u32) -> Result<u32, Refusal> {
        let answer = call!(as_mut_ptr, sulyobak_refresh, self, *self.control, studio);
        self.done(answer)
    }

    /// Reads from the copy of the session's studio, or waits until it has reached the session's number. Answered, the session's number is
    /// raised: [`Library::read`](crate::Library::read) says to what.
    pub fn read(&mut self, session: u32, request: &Request) -> Result<Read, Refusal> {
        let mut output = [0; sizes::OUTPUT_MOST];
        let output = &mut output[..sizes::CART * request.places()];
        let found = self.read_into(session, &request.to_bytes(), output)?;
        Ok(found.with_carts(output))
    }

    /// The same with the request's bytes as they are, into output that the caller lends: 80 bytes for each number asked, or for a title.
    pub fn read_into(&mut self, session: u32, request: &[u8], output: &mut [u8]) -> Result<Found, Refusal> {
        ask!(sulyobak_read, self, session, request, output)
    }

    /// Collects the read that the session has waiting, if its studio's copy has caught up; else it waits on. Answered, the session's number
    /// is raised as by [`read`](Memory::read).
    pub fn collect(&mut self, session: u32) -> Result<Read, Refusal> {
        let places = self.places_waiting(session);
        let mut output = [0; sizes::OUTPUT_MOST];
        let found = self.collect_into(session, &mut output)?;
        Ok(found.with_carts(&output[..sizes::CART * places]))
    }

    /// The same into output that the caller lends.
    pub fn collect_into(&mut self, session: u32, output: &mut [u8]) -> Result<Found, Refusal> {
        let answer = call!(as_mut_ptr, sulyobak_collect, self, *self.control, session, output.as_mut_ptr(), output.len());
        self.answered(answer)
    }

    /// Reads now: from the copy of the session's studio, as [`read`](Memory::read) does, where that has reached the session's number, else
    /// from the head end's copy. [`Library::forward`](crate::Library::forward) tells what the head end's answer leaves, with an example.
    pub fn forward(&mut self, session: u32, request: &Request) -> Result<Forwarded, Refusal> {
        let mut output = [0; sizes::OUTPUT_MOST];
        let output = &mut output[..sizes::CART * request.places()];
        let found = self.forward_into(session, &request.to_bytes(), output)?;
        Ok(found.with_carts(output))
    }

    /// The same with the request's bytes as they are, into output that the caller lends: 80 bytes for each number asked, or for a title.
    pub fn forward_into(&mut self, session: u32, request: &[u8], output: &mut [u8]) -> Result<ForwardFound, Refusal> {
        match ask!(sulyobak_forward, self, session, request, output)? {
            Found::Answered { state, found } => Ok(ForwardFound { state, found }),
            Found::Waits { .. } => other_version(sys::WAITS),
        }
    }

    /// Moves a session to another studio. Returns that studio. Control alone changes:
    /// [`Library::move_session`](crate::Library::move_session) has an example.
    pub fn move_session(&mut self, session: u32, studio: u32) -> Result<u32, Refusal> {
        let answer = call!(as_ptr, sulyobak_move, self, *self.control, session, studio);
        self.done(answer)
    }

    /// Retires the oldest transaction of the log, once every studio has applied it. Returns how many are retired by now:
    /// [`Library::retire`](crate::Library::retire) has examples.
    pub fn retire(&mut self) -> Result<u32, Refusal> {
        let answer = call!(as_mut_ptr, sulyobak_retire, self, *self.control);
        self.done(answer)
    }

    /// Writes the message of a committed transaction, for a van, and changes nothing: [`Library::van_write`](crate::Library::van_write) has
    /// an example.
    pub fn van_write(&self, number: u32) -> Result<Message, Refusal> {
        self.view().van_write(number)
    }

    /// The same into output that the caller lends. Returns the message's length; what is after it in output stays.
    pub fn van_write_into(&self, number: u32, output: &mut [u8]) -> Result<usize, Refusal> {
        self.view().van_write_into(number, output)
    }

    fn view(&self) -> View<'_> {
        View { library: self.library, log: self.log, sessions: self.sessions, control: self.control }
    }

    // How many places the session's waiting read asks for. (Of no matter where collect is then refused.)
    fn places_waiting(&self, session: u32) -> usize {
        let place = (session as usize).checked_sub(1);
        let bytes = place.and_then(|place| self.sessions.chunks_exact(sizes::CART).nth(place));
        bytes.map_or(0, Request::places_in).min(sizes::NUMBERS)
    }

    // The answer of commit, send, refresh, move or retire.
    fn done(&mut self, answer: sys::Answer) -> Result<u32, Refusal> {
        *self.control = answer.control;
        counted(&answer)
    }

    // The answer of read, collect or forward.
    fn answered(&mut self, answer: sys::Answer) -> Result<Found, Refusal> {
        *self.control = answer.control;
        match answer.kind {
            sys::ANSWERED => Ok(Found::Answered { state: answer.value, found: answer.found }),
            sys::WAITS => Ok(Found::Waits { number: answer.value }),
            sys::REFUSED => Err(Refusal::from_number(answer.value)),
            kind => other_version(kind),
        }
    }
}

// So many bytes, not each of them.
pub(crate) struct Bytes(pub(crate) usize);

impl fmt::Debug for Bytes {
    fn fmt(&self, f: &mut fmt::Formatter<'_>) -> fmt::Result {
        write!(f, "{} bytes", self.0)
    }
}

// The three memories by their lengths, and control.
pub(crate) fn debug(f: &mut fmt::Formatter<'_>, name: &str, memories: [&[u8]; 3], control: &Control) -> fmt::Result {
    let [library, log, sessions] = memories.map(|memory| Bytes(memory.len()));
    let mut shown = f.debug_struct(name);
    shown.field("library", &library).field("log", &log).field("sessions", &sessions).field("control", control).finish()
}

impl fmt::Debug for Memory<'_> {
    fn fmt(&self, f: &mut fmt::Formatter<'_>) -> fmt::Result {
        debug(f, "Memory", [self.library, self.log, self.sessions], self.control)
    }
}
