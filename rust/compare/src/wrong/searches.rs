//! Mistakes of the title search (02's S-5).

use super::mistake::{Mistake, search_mistake};
use crate::sought::{Sought, same_letter, shared};
use simulator::{COPY, Search, UNIT};

pub const MISTAKES: &[Mistake] = &[
    search_mistake("search: the letter that differs is not counted", last_not_counted),
    search_mistake("search: all letters are counted though one differs", all_counted),
    search_mistake("search: letters are counted by whole blocks of eight", whole_blocks),
    search_mistake("search: letters of a cart of another length are counted", other_length_counted),
    search_mistake("search: letters are counted only until a cart is found", counted_until_found),
    search_mistake("search: letters are counted only where carts are found", counted_where_found),
    search_mistake("search: letters are compared from the last one", from_the_end),
    search_mistake("search: an empty cart counts", empty_counts),
    search_mistake("search: any byte 0 but zero counts as held", not_zero_is_held),
    search_mistake("search: it stops at the first match", stops_at_first),
    search_mistake("search: it stops at the second match", stops_at_second),
    search_mistake("search: the last cart is left out", without_last),
    search_mistake("search: the number is that of bytes 2 and 3", number_of_bytes),
    search_mistake("search: several tells the last cart's number", several_last),
    search_mistake("search: titles match on their first 32 letters", first_32),
    search_mistake("search: a longer title matches that begins with the one asked", longer_matches),
    search_mistake("search: the bytes after the title are compared too", after_title),
    search_mistake("search: a title of 65 is accepted", title_of_65),
    search_mistake("search: a title of 0 is accepted", title_of_0),
    search_mistake("search: the title's length is taken by its low byte", low_byte),
    search_mistake("search: a copy of more bytes is accepted", longer_copy),
    search_mistake("search: the copy's length is taken by its low two bytes", low_two_bytes),
    search_mistake("search: a byte is written past the title", past_title),
    search_mistake("search: the cart found is changed", cart_changed),
];

/// The search by another judge of a cart: whether it has the title, and how many letters are counted.
fn judged(sought: &Sought, judge: fn(cart: &[u8], title: &[u8]) -> (bool, usize)) -> Search {
    let right = sought.simulate();
    if right.kind == 3 {
        return right;
    }
    let (mut found, mut last, mut letters) = (0, 0, 0);
    for (number, cart) in (1..).zip(sought.copy.lent().chunks_exact(UNIT)) {
        let (is_match, counted) = judge(cart, sought.title.lent());
        letters += counted as u32;
        if is_match {
            (found, last) = (found + 1, number);
        }
    }
    Search { kind: found.min(2), value: if found == 1 { last } else { found }, letters }
}

fn of_length(cart: &[u8], title: &[u8]) -> bool {
    usize::from(cart[1]) == title.len()
}

/// The letters as they are compared, and whether all are equal.
fn compared(cart: &[u8], title: &[u8]) -> (bool, usize) {
    let shared = shared(cart, title);
    (shared == title.len(), title.len().min(shared + 1))
}

/// As it is right.
fn judge(cart: &[u8], title: &[u8]) -> (bool, usize) {
    if cart[0] == 1 && of_length(cart, title) { compared(cart, title) } else { (false, 0) }
}

fn last_not_counted(sought: &mut Sought) -> Search {
    judged(sought, |cart, title| match judge(cart, title) {
        (false, letters) => (false, letters.saturating_sub(1)),
        right => right,
    })
}

fn all_counted(sought: &mut Sought) -> Search {
    judged(sought, |cart, title| match judge(cart, title) {
        (is_match, 0) => (is_match, 0),
        (is_match, _) => (is_match, title.len()),
    })
}

fn whole_blocks(sought: &mut Sought) -> Search {
    judged(sought, |cart, title| {
        let (is_match, letters) = judge(cart, title);
        (is_match, title.len().min(letters.next_multiple_of(8)))
    })
}

fn other_length_counted(sought: &mut Sought) -> Search {
    judged(sought, |cart, title| match judge(cart, title) {
        (false, 0) if cart[0] == 1 => (false, title.len().min(shared(cart, title) + 1)),
        right => right,
    })
}

/// The search in the carts up to the n-th that has the title; the others are emptied.
fn until_match(sought: &Sought, n: usize) -> Search {
    let (mut copy, title) = (sought.copy.lent().to_vec(), sought.title.lent());
    let mut matches = copy.chunks_exact(UNIT).enumerate().filter(|(_, cart)| judge(cart, title).0);
    let Some((place, _)) = matches.nth(n - 1) else { return sought.simulate() };
    copy[UNIT * (place + 1)..].fill(0);
    simulator::search(&copy, title)
}

fn counted_until_found(sought: &mut Sought) -> Search {
    Search { letters: until_match(sought, 1).letters, ..sought.simulate() }
}

fn counted_where_found(sought: &mut Sought) -> Search {
    let right = sought.simulate();
    if right.kind == 0 { Search::default() } else { right }
}

fn from_the_end(sought: &mut Sought) -> Search {
    judged(sought, |cart, title| {
        let (is_match, letters) = judge(cart, title);
        let backwards = cart[16..].iter().take(title.len()).rev().zip(title.iter().rev());
        let equal = backwards.take_while(|(one, other)| same_letter(one, other)).count();
        (is_match, if letters == 0 { 0 } else { title.len().min(equal + 1) })
    })
}

fn empty_counts(sought: &mut Sought) -> Search {
    judged(sought, |cart, title| if cart[0] == 0 && of_length(cart, title) { compared(cart, title) } else { judge(cart, title) })
}

fn not_zero_is_held(sought: &mut Sought) -> Search {
    judged(sought, |cart, title| if cart[0] != 0 && of_length(cart, title) { compared(cart, title) } else { judge(cart, title) })
}

fn stops_at_first(sought: &mut Sought) -> Search {
    until_match(sought, 1)
}

fn stops_at_second(sought: &mut Sought) -> Search {
    until_match(sought, 2)
}

fn without_last(sought: &mut Sought) -> Search {
    let mut copy = sought.copy.lent().to_vec();
    if copy.len() == COPY {
        copy[COPY - UNIT] = 0;
    }
    simulator::search(&copy, sought.title.lent())
}

fn number_of_bytes(sought: &mut Sought) -> Search {
    let mut search = sought.simulate();
    if search.kind == 1 {
        let cart = UNIT * (search.value as usize - 1);
        search.value = u32::from(sought.copy.byte(cart + 2)) | u32::from(sought.copy.byte(cart + 3)) << 8;
    }
    search
}

fn several_last(sought: &mut Sought) -> Search {
    let mut search = sought.simulate();
    if search.kind == 2 {
        let last = sought.copy.lent().chunks_exact(UNIT).rposition(|cart| judge(cart, sought.title.lent()).0);
        search.value = last.map_or(0, |place| place as u32 + 1);
    }
    search
}

fn first_32(sought: &mut Sought) -> Search {
    judged(sought, |cart, title| match judge(cart, title) {
        (false, letters) if letters > 32 => (true, letters),
        right => right,
    })
}

fn longer_matches(sought: &mut Sought) -> Search {
    judged(sought, |cart, title| match judge(cart, title) {
        (false, 0) if cart[0] == 1 && usize::from(cart[1]) > title.len() => (shared(cart, title) == title.len(), 0),
        right => right,
    })
}

fn after_title(sought: &mut Sought) -> Search {
    judged(sought, |cart, title| match judge(cart, title) {
        (true, letters) => (cart[16 + title.len()..].iter().all(|byte| *byte == 0), letters),
        right => right,
    })
}

/// The search for the title's first bytes, in the copy's first bytes.
fn cut(sought: &Sought, copy: usize, title: usize) -> Search {
    simulator::search(&sought.copy.lent()[..copy], &sought.title.lent()[..title])
}

fn title_of_65(sought: &mut Sought) -> Search {
    let length = sought.title.len();
    cut(sought, sought.copy.len(), if length == 65 { 64 } else { length })
}

fn title_of_0(sought: &mut Sought) -> Search {
    let is_empty = sought.title.len() == 0 && sought.copy.len() == COPY;
    if is_empty { Search::default() } else { sought.simulate() }
}

fn low_byte(sought: &mut Sought) -> Search {
    cut(sought, sought.copy.len(), sought.title.len() % 256)
}

fn longer_copy(sought: &mut Sought) -> Search {
    cut(sought, sought.copy.len().min(COPY), sought.title.len())
}

fn low_two_bytes(sought: &mut Sought) -> Search {
    cut(sought, sought.copy.len() % 65_536, sought.title.len())
}

fn past_title(sought: &mut Sought) -> Search {
    let search = sought.simulate();
    sought.title.trespass(sought.title.len() as isize, 0);
    search
}

fn cart_changed(sought: &mut Sought) -> Search {
    let search = sought.simulate();
    if search.kind == 1 {
        sought.copy.lent_mut()[UNIT * (search.value as usize - 1) + 12] ^= 1;
    }
    search
}
