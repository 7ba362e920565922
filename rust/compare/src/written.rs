//! The messages that a list of calls has written (02's S-6), and the transactions that they are of.

use crate::call::Call;
use crate::made::SIXTH;
use crate::message;
use crate::player::{Mismatch, Player};
use crate::random::Random;
use crate::single;
use crate::wall::Wall;
use simulator::{Answer, COPY, Control, DONE, UNIT};

/// A message as the engine wrote it.
pub struct Message {
    /// The number that was asked for.
    pub number: u32,
    /// The commits at its writing.
    pub commits: u32,
    pub bytes: Vec<u8>,
}

pub struct Written {
    pub messages: Vec<Message>,
    /// Before the list's first call: how many transactions were retired, and what they made.
    begun: u32,
    sixth: Vec<u8>,
    /// The operations of each transaction after these, as they were handed to commit.
    transactions: Vec<Vec<u8>>,
    /// How many transactions are retired by now.
    pub retired: u32,
}

impl Default for Written {
    /// Before the first call of a list from a fresh system.
    fn default() -> Written {
        Written { messages: Vec::new(), begun: 0, sixth: vec![0; COPY], transactions: Vec::new(), retired: 0 }
    }
}

impl Written {
    /// Before the first call of a list from memory of the layout.
    pub fn before(wall: &Wall) -> Written {
        let (retired, sixth) = (wall.control.retired, wall.played.library.lent()[SIXTH * COPY..].to_vec());
        let transactions = message::all_in_log(&wall.control, &wall.played);
        Written { messages: Vec::new(), begun: retired, sixth, transactions, retired }
    }

    /// Back to an earlier moment of the list: later transactions, and their messages, are lost.
    pub fn go_back(&mut self, control: &Control) {
        self.transactions.truncate((control.commits - self.begun) as usize);
        self.messages.retain(|message| message.number <= control.commits);
        self.retired = control.retired;
    }

    /// Takes in a call; `output` is as it stood when the call ended.
    pub fn note(&mut self, call: &Call, answer: &Answer, output: &[u8]) {
        match (call, answer.kind) {
            (Call::Commit { operations, .. }, DONE) => self.transactions.push(operations.clone()),
            (Call::Retire, DONE) => self.retired = answer.value,
            (Call::VanWrite { number, .. }, DONE) => {
                let bytes = output[..output.len().min(answer.value as usize)].to_vec();
                self.messages.push(Message { number: *number, commits: self.commits(), bytes });
            }
            _ => {}
        }
    }

    pub fn commits(&self) -> u32 {
        self.begun + self.transactions.len() as u32
    }

    /// A count of transactions of which the list shows what they make.
    pub fn any_count(&self, random: &mut Random) -> u32 {
        random.within(self.begun as usize, self.commits() as usize) as u32
    }

    /// L(count), for counts from that of the list's beginning on: what the transactions make of the sixth copy that was there.
    pub fn library(&self, count: u32) -> Vec<u8> {
        let mut copy = self.sixth.clone();
        self.play(self.begun, count, &mut copy);
        copy
    }

    /// Makes L(to) of L(from).
    pub fn play(&self, from: u32, to: u32, copy: &mut [u8]) {
        let (from, to) = ((from - self.begun) as usize, (to - self.begun) as usize);
        let transactions = self.transactions.iter().take(to).skip(from);
        transactions.flat_map(|operations| operations.chunks_exact(UNIT)).for_each(|operation| single::act(copy, operation));
    }

    /// The operations of a transaction that the list shows.
    fn operations(&self, number: u32) -> Option<&Vec<u8>> {
        let before = number.checked_sub(self.begun)?.checked_sub(1)?;
        self.transactions.get(before as usize)
    }

    /// Whether each message, whenever it was written, is that of the transaction of its number; in words where it is not.
    pub fn check(&self) -> Result<(), String> {
        let is_right = |message: &&Message| {
            self.operations(message.number).is_some_and(|operations| message.bytes == message::of(message.number, operations))
        };
        match self.messages.iter().find(|message| !is_right(message)) {
            Some(Message { number, commits, .. }) => {
                Err(format!("message {number}, written at {commits} commits, is not that of its commit"))
            }
            None => Ok(()),
        }
    }

    /// Changes every operation.
    pub fn change(&mut self, unit: impl Fn(&mut [u8])) {
        let operations = self.transactions.iter_mut().map(|operations| &mut operations[..]);
        let messages = self.messages.iter_mut().map(|message| &mut message.bytes[message::HEAD..]);
        operations.chain(messages).for_each(|operations| operations.chunks_exact_mut(UNIT).for_each(&unit));
    }
}

/// Writes the messages of the first transactions in the log, as many as `most`.
pub fn write_first(player: &mut Player<'_>, wall: &mut Wall, most: usize) -> Result<(), Mismatch> {
    let (output, numbers) = (message::MOST, wall.control.retired + 1..=wall.control.commits);
    numbers.take(most).try_for_each(|number| player.play_on(wall, &Call::VanWrite { number, output }).map(|_| ()))
}

#[cfg(test)]
mod tests {
    use super::*;

    fn answer(value: u32) -> Answer {
        Answer { kind: DONE, value, found: 0, control: Control::default() }
    }

    /// A commit of a withdraw, and its message with this byte 14 in the operation.
    fn written(link: u8) -> Written {
        let operation = [&[4, 0, 1][..], &[0; 77]].concat();
        let mut message = message::of(1, &operation);
        message[message::HEAD + 14] = link;
        let mut written = Written::default();
        written.note(&Call::Commit { session: 1, operations: operation }, &answer(1), &[]);
        written.note(&Call::VanWrite { number: 1, output: 85 }, &answer(84), &[&message[..], &[9]].concat());
        written
    }

    #[test]
    fn a_message_is_held_to_what_was_committed() {
        assert_eq!((written(0).check(), written(0).messages.len(), written(0).commits()), (Ok(()), 1, 1));
        assert!(written(2).check().is_err());
        let mut early = written(0);
        early.messages[0].number = 2;
        assert!(early.check().is_err());
    }

    #[test]
    fn transactions_of_before_the_list_are_not_shown() {
        let (begun, mut later) = (300, written(0));
        (later.begun, later.sixth[0]) = (begun, 1);
        assert_eq!((later.commits(), later.library(begun)[0], later.library(begun + 1)[0]), (301, 1, 0));
        assert!(later.check().is_err(), "message 1 is none of the list's");
        later.messages[0].number = 301;
        later.messages[0].bytes[..2].copy_from_slice(&301u16.to_le_bytes());
        assert_eq!(later.check(), Ok(()));
    }

    #[test]
    fn what_came_later_is_lost_on_the_way_back() {
        let mut list = written(0);
        let again = written(0).messages.remove(0);
        list.messages.push(Message { number: 2, ..again });
        list.note(&Call::Commit { session: 1, operations: vec![0; 80] }, &answer(2), &[]);
        list.note(&Call::Retire, &answer(1), &[]);
        list.go_back(&Control { commits: 1, ..Control::default() });
        assert_eq!((list.commits(), list.retired, list.messages.len(), list.check()), (1, 0, 1, Ok(())));
    }
}
