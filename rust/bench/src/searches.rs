//! The title search of the lower crate, exported by crate carts_c: timed against the floor and against plain Rust.

use crate::clock::Race;
use crate::scans::{self, Scan};
use crate::{search, titles, units};
use linked::carts;
use simulator::{CARTS, COPY, Search};
use std::rc::Rc;

#[derive(Clone)]
struct Asked {
    copy: Vec<u8>,
    title: Vec<u8>,
}

/// By engine, floor and plain Rust.
const WAYS: [fn(&Asked) -> Search; 3] = [
    |asked| carts::search(&asked.copy, &asked.title),
    |asked| search::floor(&asked.copy, &asked.title),
    |asked| search::plain(&asked.copy, &asked.title),
];

fn agree(name: &str, asked: &Asked) {
    let [engine, floor, plain] = WAYS.map(|way| way(asked));
    assert!(engine == floor && engine == plain, "{name}: the three differ: {engine:?}, {floor:?}, {plain:?}");
}

/// The three ways agree on the copy with one byte damaged. A cart has 80 bytes, so every seventh of all meets each place of a cart.
fn agree_on_damage(name: &str, asked: &Asked) {
    let mut damaged = asked.clone();
    for at in (0..COPY).step_by(7) {
        let old = damaged.copy[at];
        for value in [0, 1, 2, 63, 65, 255, old ^ 1] {
            damaged.copy[at] = value;
            agree(name, &damaged);
        }
        damaged.copy[at] = old;
    }
}

/// The three ways agree on other titles, and on wrong lengths.
fn agree_on_titles(name: &str, asked: &Asked) {
    let Asked { copy, title } = asked;
    for at in 0..title.len() {
        let mut other = asked.clone();
        other.title[at] ^= 1;
        agree(name, &other);
        agree(name, &Asked { copy: copy.clone(), title: title[..at].to_vec() });
    }
    let longer = [&title[..], &[32; 64]].concat();
    for length in title.len()..=longer.len() {
        agree(name, &Asked { copy: copy.clone(), title: longer[..length].to_vec() });
    }
    for length in [0, 80, COPY - 1] {
        agree(name, &Asked { copy: copy[..length].to_vec(), title: title.clone() });
    }
}

fn row(race: &mut Race, name: &'static str, title: fn(usize) -> Vec<u8>) -> Scan {
    let copy = (1..=CARTS).flat_map(|cart| units::new(cart, &title(cart))).collect();
    let asked = Asked { copy, title: title(titles::ASKED) };
    assert_eq!(WAYS[0](&asked).kind, 1, "{name}: one cart has the title");
    agree(name, &asked);
    agree_on_damage(name, &asked);
    agree_on_titles(name, &asked);
    scans::time(race, name, WAYS, &Rc::new(asked))
}

pub fn enter(race: &mut Race) -> Vec<Scan> {
    vec![
        row(race, "search, nearly all shared", titles::nearly_all_shared),
        row(race, "search, the name shared", titles::name_shared),
        row(race, "search, 33 to 64 letters", titles::of_different_lengths),
    ]
}
