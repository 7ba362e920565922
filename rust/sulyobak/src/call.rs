use crate::answer::Refusal;
use sulyobak_sys as sys;

// Calls an exported function with the three memories, and then the given arguments, if the linked engine is of this crate's version.
// The memories are passed by `as_ptr` where the function only reads them, else by `as_mut_ptr`.
macro_rules! call {
    ($pointer:ident, $function:ident, $self:ident $(, $argument:expr)*) => {{
        crate::version::check()?;
        // SAFETY: each pointer comes with its length from one slice, which stays borrowed for the whole call. What the engine writes
        // (memories by `as_mut_ptr`, output) is borrowed mutably, so that no other slice overlaps it and no other thread has it; what it
        // only reads may be shared. The engine accepts any bytes and any numbers, keeps no pointer, and does not unwind.
        unsafe {
            sulyobak_sys::$function(
                $self.library.$pointer(),
                $self.library.len(),
                $self.log.$pointer(),
                $self.log.len(),
                $self.sessions.$pointer(),
                $self.sessions.len(),
                $($argument),*
            )
        }
    }};
}
pub(crate) use call;

// What a call counts that does not read.
pub(crate) fn counted(answer: &sys::Answer) -> Result<u32, Refusal> {
    match answer.kind {
        sys::DONE => Ok(answer.value),
        sys::REFUSED => Err(Refusal::from_number(answer.value)),
        kind => other_version(kind),
    }
}

// No call of this version answers such a kind.
pub(crate) fn other_version(kind: u32) -> ! {
    panic!("the linked engine answers a kind {kind} that this call does not have: libsulyobak.a is of another version than this crate")
}
