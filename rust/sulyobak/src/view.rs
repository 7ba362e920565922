use crate::answer::Refusal;
use crate::call::{call, counted};
use crate::message::Message;
use sulyobak_sys::{Answer, Control};

// Memory and control of a system, for the calls that change neither.
pub(crate) struct View<'a> {
    pub(crate) library: &'a [u8],
    pub(crate) log: &'a [u8],
    pub(crate) sessions: &'a [u8],
    pub(crate) control: &'a Control,
}

impl View<'_> {
    pub(crate) fn check(&self) -> Result<(), Refusal> {
        let answer = call!(as_ptr, sulyobak_layout, self, *self.control);
        self.unchanged(answer).map(|_| ())
    }

    pub(crate) fn load(&self) -> Result<u32, Refusal> {
        let answer = call!(as_ptr, sulyobak_load, self, *self.control);
        self.unchanged(answer)
    }

    pub(crate) fn preview(&self, session: u32, operations: &[u8]) -> Result<u32, Refusal> {
        let answer = call!(as_ptr, sulyobak_preview, self, *self.control, session, operations.as_ptr(), operations.len());
        self.unchanged(answer)
    }

    pub(crate) fn van_write(&self, number: u32) -> Result<Message, Refusal> {
        Message::written(|output| self.van_write_into(number, output))
    }

    pub(crate) fn van_write_into(&self, number: u32, output: &mut [u8]) -> Result<usize, Refusal> {
        let answer = call!(as_ptr, sulyobak_van_write, self, *self.control, number, output.as_mut_ptr(), output.len());
        self.unchanged(answer).map(|length| length as usize)
    }

    // What such a call counts; control comes back as it was passed.
    fn unchanged(&self, answer: Answer) -> Result<u32, Refusal> {
        assert_eq!(answer.control, *self.control, "a call that changes nothing handed back another control");
        counted(&answer)
    }
}
