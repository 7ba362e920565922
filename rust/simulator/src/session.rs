//! Sessions and read requests.

use crate::bytes::{all_zero, put_u16, u16_at};
use crate::sizes::{CARTS, NUMBERS, UNIT};
use crate::title::Title;

#[derive(Clone, PartialEq, Eq, Debug)]
pub enum Request {
    Numbers(Vec<u16>),
    Title(Title),
}

impl Request {
    /// A request as handed in: 80 bytes, bytes 2 to 15 zero.
    pub fn handed_in(bytes: &[u8]) -> Option<Request> {
        let shaped = bytes.len() == UNIT && all_zero(&bytes[2..16]);
        shaped.then(|| Request::decode(bytes)).flatten()
    }

    /// The request of a session. Bytes 2 to 15 are the session's.
    fn decode(unit: &[u8]) -> Option<Request> {
        match unit[0] {
            1 => decode_numbers(unit).map(Request::Numbers),
            2 => Title::decode(unit).map(Request::Title),
            _ => None,
        }
    }

    fn encode(&self, unit: &mut [u8]) {
        match self {
            Request::Numbers(numbers) => {
                unit[0] = 1;
                unit[1] = u8::try_from(numbers.len()).expect("at most 32 numbers");
                for (i, number) in numbers.iter().enumerate() {
                    put_u16(unit, 16 + 2 * i, *number);
                }
            }
            Request::Title(title) => {
                unit[0] = 2;
                title.encode(unit);
            }
        }
    }

    /// How many bytes of output its answer takes.
    pub fn output_bytes(&self) -> usize {
        match self {
            Request::Numbers(numbers) => UNIT * numbers.len(),
            Request::Title(_) => UNIT,
        }
    }
}

fn decode_numbers(unit: &[u8]) -> Option<Vec<u16>> {
    let count = usize::from(unit[1]);
    if !(1..=NUMBERS).contains(&count) {
        return None;
    }
    let (asked, rest) = unit[16..].split_at(2 * count);
    let numbers: Vec<u16> = asked.chunks_exact(2).map(|pair| u16_at(pair, 0)).collect();
    let known = numbers.iter().all(|number| (1..=CARTS).contains(&usize::from(*number)));
    (known && all_zero(rest)).then_some(numbers)
}

/// A used session: its studio, its number, and the read that waits.
#[derive(Clone, PartialEq, Eq, Debug)]
pub struct Session {
    pub studio: usize,
    pub number: u32,
    pub waiting: Option<Request>,
}

impl Session {
    pub fn decode(unit: &[u8], studio: usize, commits: u32) -> Option<Session> {
        let number = u32::from(u16_at(unit, 2));
        if number > commits || !all_zero(&unit[4..16]) {
            return None;
        }
        let waiting = if unit[0] == 0 { Title::absent(unit).then_some(None) } else { Request::decode(unit).map(Some) };
        Some(Session { studio, number, waiting: waiting? })
    }

    pub fn encode(&self, unit: &mut [u8]) {
        unit.fill(0);
        let number = u16::try_from(self.number).expect("a session's number is at most 65,535");
        put_u16(unit, 2, number);
        if let Some(request) = &self.waiting {
            request.encode(unit);
        }
    }
}
