//! Reads by title on full memory, by the titles on the wall: how many first letters they share with the title asked, and their lengths.

use crate::call::{self, Call};
use crate::clock::Race;
use crate::growth::{self, Point};
use crate::search;
use crate::units;
use crate::wall::{self, Wall};
use simulator::COPY;

/// A read on a wall with these titles; its point stands at the letters that S-5 counts.
pub struct Row {
    pub name: &'static str,
    pub found: u32,
    pub point: Point,
}

const NAME: &[u8] = b"Radio Sulyobak Budapest:";
const TEXT: &[u8; 64] = b"Radio Sulyobak Budapest: sponsor's jingle for the breakfast show";

/// The cart whose title is asked: no other has its first mark.
pub const ASKED: usize = 64;

/// The text's first letters, with a cart's two marks at these places. There are 94 first marks: every letter but the space.
fn marked(cart: usize, length: usize, [first, second]: [usize; 2]) -> Vec<u8> {
    let mut letters = TEXT[..length].to_vec();
    letters[first] = 33 + ((cart - 1) % 94) as u8;
    letters[second] = b'a' + ((cart - 1) / 94) as u8;
    letters
}

/// 94 of the titles share 63 letters, the others 62 with these.
pub fn nearly_all_shared(cart: usize) -> Vec<u8> {
    marked(cart, 64, [63, 62])
}

pub fn name_shared(cart: usize) -> Vec<u8> {
    marked(cart, 64, [NAME.len(), 63])
}

fn none_shared(cart: usize) -> Vec<u8> {
    marked(cart, 64, [0, 63])
}

/// Four carts of each length from 33 to 64.
pub fn of_different_lengths(cart: usize) -> Vec<u8> {
    let length = 64 - cart % 32;
    marked(cart, length, [NAME.len(), length - 1])
}

fn row(race: &mut Race, name: &'static str, title: fn(usize) -> Vec<u8>, asked: &[u8]) -> Row {
    let wall = Wall::titled(504, 1, title);
    let call = Call::Read { session: wall::READER, request: units::by_title(asked) };
    let searched = search::plain(&wall.memory.library[COPY..2 * COPY], asked);
    let found = call::play(&call, &mut wall.memory.clone(), &wall.control, &mut [0; 2560]).found;
    assert_eq!(found, search::found(searched), "{name}: as many are found");
    Row { name, found, point: growth::point(race, name, searched.letters, &wall, call) }
}

pub fn enter(race: &mut Race) -> Vec<Row> {
    vec![
        row(race, "64 letters, all but the last one or two shared", nearly_all_shared, &nearly_all_shared(ASKED)),
        row(race, "64 letters, the station's name shared", name_shared, &name_shared(ASKED)),
        row(race, "64 letters, the first differs", none_shared, &none_shared(ASKED)),
        row(race, "33 to 64 letters, the station's name shared", of_different_lengths, &of_different_lengths(ASKED)),
        row(race, "64 letters, all the same", |_| TEXT.to_vec(), TEXT),
        row(race, "63 letters, the first 63 of the title asked", |_| TEXT[..63].to_vec(), TEXT),
    ]
}
