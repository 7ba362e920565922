//! The title search of request S-5: the result as before, and how many letters were
//! compared. Any bytes of a copy and a title have an answer.

mod wall;
use simulator::{COPY, Search, UNIT, search};
use wall::*;

const WRONG_LENGTH: Search = Search { kind: 3, value: 0, letters: 0 };

fn none(letters: u32) -> Search {
    Search { kind: 0, value: 0, letters }
}

fn one(number: u16, letters: u32) -> Search {
    Search { kind: 1, value: u32::from(number), letters }
}

fn several(count: u32, letters: u32) -> Search {
    Search { kind: 2, value: count, letters }
}

/// A copy in which these carts are held.
fn copy_of(carts: &[(u16, &str)]) -> Vec<u8> {
    let mut copy = vec![0; COPY];
    for (number, title) in carts {
        cart(&mut copy, *number).copy_from_slice(&new(*number, title, 501, 8_000));
    }
    copy
}

#[test]
fn no_held_cart_of_the_length() {
    for carts in [&[][..], &[(1, "Be")], &[(128, "Beds")], &[(1, "Be"), (2, "Bed "), (3, "B"), (128, "Bed bed")]] {
        assert_eq!(search(&copy_of(carts), b"Bed"), none(0), "{carts:?}");
    }
    assert_eq!(search(&full("Beds"), b"Bed"), none(0));
}

#[test]
fn one_cart_at_every_place_with_every_length() {
    for (number, length) in (1..=128).flat_map(|number| (1..=64).map(move |length| (number, length))) {
        let title = &"Top hour ".repeat(8)[..length];
        let words = one(number, u32::try_from(length).unwrap());
        assert_eq!(search(&copy_of(&[(number, title)]), title.as_bytes()), words, "cart {number}, {title:?}");
    }
}

#[test]
fn the_first_letter_differs() {
    let copy = copy_of(&[(3, "Bed"), (90, "Led")]);
    for (title, words) in [("Red", none(2)), ("Rug", none(2)), ("Bed", one(3, 4)), ("Led", one(90, 4))] {
        assert_eq!(search(&copy, title.as_bytes()), words, "{title}");
    }
}

/// Letters after the first that differs are not compared, the same or not.
#[test]
fn the_first_difference_at_every_place() {
    for (length, place) in (1..=64).flat_map(|length| (0..length).map(move |place| (length, place))) {
        let letters = u32::try_from(place + 1).unwrap();
        let (mut alone, mut onward) = (vec![b'x'; length], vec![b'x'; length]);
        alone[place] = b'y';
        onward[place..].fill(b'y');
        let copy = copy_of(&[(7, &"x".repeat(length))]);
        assert_eq!(search(&copy, &alone), none(letters), "letter {place} of {length}");
        assert_eq!(search(&copy, &onward), none(letters), "letters {place} to {length}");
    }
}

/// 01's case 11.
#[test]
fn the_last_of_64_letters_differs() {
    let stem = "x".repeat(63);
    let copy = copy_of(&[(1, &format!("{stem}1")), (2, &format!("{stem}2"))]);
    for (last, words) in [("1", one(1, 128)), ("2", one(2, 128)), ("3", none(128)), ("", none(0))] {
        assert_eq!(search(&copy, format!("{stem}{last}").as_bytes()), words, "{last}");
    }
}

/// Every cart counts, also after a second match. The carts are put in one by one.
#[test]
fn a_second_and_a_third_match() {
    let carts = [(5, "Bed"), (6, "Bee"), (7, "Bed"), (9, "Sea"), (10, "Beds"), (11, "Bed"), (128, "Bad")];
    let words = [none(0), one(5, 3), one(5, 6), several(2, 9), several(2, 10), several(2, 10), several(3, 13), several(3, 15)];
    for (count, words) in (0..).zip(words) {
        assert_eq!(search(&copy_of(&carts[..count]), b"Bed"), words, "{count} carts");
    }
    assert_eq!(search(&copy_of(&carts), b"Bee"), one(6, 15));
    assert_eq!(search(&copy_of(&[(1, "Bed"), (128, "Bed")]), b"Bed"), several(2, 6), "01's case 12");
}

#[test]
fn all_128() {
    let title = "x".repeat(64);
    let (mut first, mut last) = (full(&title), full(&title));
    assert_eq!(search(&first, title.as_bytes()), several(128, 8_192));
    assert_eq!(search(&first, format!("{}y", "x".repeat(63)).as_bytes()), none(8_192));
    assert_eq!(search(&first, "y".repeat(64).as_bytes()), none(128));
    cart(&mut first, 1)[16] = b'y';
    assert_eq!(search(&first, title.as_bytes()), several(127, 8_129));
    cart(&mut last, 128)[79] = b'y';
    assert_eq!(search(&last, title.as_bytes()), several(127, 8_192));
}

/// Byte 1 and the letters match, and all else is as in a held cart or zero.
#[test]
fn an_empty_cart_that_matches() {
    let mut copy = full("Bed");
    for number in 1..=128 {
        cart(&mut copy, number)[0] = 0;
    }
    assert_eq!(search(&copy, b"Bed"), none(0));
    cart(&mut copy, 40)[0] = 1;
    assert_eq!(search(&copy, b"Bed"), one(40, 3));
    assert_eq!(search(&copy, b"Bad"), none(2));
    let mut copy = copy_of(&[(8, "Bed")]);
    cart(&mut copy, 7)[1] = 3;
    cart(&mut copy, 7)[16..19].copy_from_slice(b"Bed");
    assert_eq!(search(&copy, b"Bed"), one(8, 3));
}

#[test]
fn byte_0_of_any_value() {
    for byte in 0..=255 {
        let mut copy = copy_of(&[(7, "Bed"), (8, "Bed")]);
        cart(&mut copy, 7)[0] = byte;
        let words = if byte == 1 { several(2, 6) } else { one(8, 3) };
        assert_eq!(search(&copy, b"Bed"), words, "byte 0 as {byte}");
    }
}

/// All 64 letters are there, so a shorter title is followed by letters.
#[test]
fn byte_1_of_any_value() {
    let mut copy = copy_of(&[(7, &"x".repeat(64))]);
    for (byte, length) in (0..=255).flat_map(|byte| (1..=64).map(move |length| (byte, length))) {
        cart(&mut copy, 7)[1] = byte;
        let words = if byte == length { one(7, u32::from(length)) } else { none(0) };
        assert_eq!(search(&copy, "x".repeat(length.into()).as_bytes()), words, "byte 1 as {byte}, {length} asked");
    }
}

#[test]
fn the_number_is_the_place() {
    for other in [0, 1, 9, 128, 129, 264, 65_535] {
        let mut copy = copy_of(&[(9, "Beds")]);
        cart(&mut copy, 8).copy_from_slice(&new(other, "Bed", 501, 8_000));
        assert_eq!(search(&copy, b"Bed"), one(8, 3), "{other} in bytes 2 and 3");
        cart(&mut copy, 100).copy_from_slice(&new(other, "Bed", 501, 8_000));
        assert_eq!(search(&copy, b"Bed"), several(2, 6), "{other} in bytes 2 and 3 of both");
    }
}

#[test]
fn other_fields_do_not_matter() {
    for byte in [0, 1, 3, 255] {
        let mut copy = copy_of(&[(7, "Bed"), (8, "Bad")]);
        cart(&mut copy, 7)[2..16].fill(byte);
        cart(&mut copy, 8)[2..16].fill(byte);
        assert_eq!(search(&copy, b"Bed"), one(7, 5), "bytes 2 to 15 as {byte}");
    }
}

#[test]
fn the_first_part_of_another() {
    let copy = copy_of(&[(1, "Top"), (2, "Top hour"), (3, "Top hour A")]);
    for (title, words) in [
        ("Top", one(1, 3)),
        ("Top hour", one(2, 8)),
        ("Top hour A", one(3, 10)),
        ("To", none(0)),
        ("Top ", none(0)),
        ("Top hour ", none(0)),
        ("Top hour A ", none(0)),
        ("Top hour B", none(10)),
    ] {
        assert_eq!(search(&copy, title.as_bytes()), words, "{title:?}");
    }
}

#[test]
fn letters_behind_the_length_do_not_matter() {
    for byte in [0, 31, 32, b'd', b'x', 255] {
        let mut copy = copy_of(&[(7, "Bed"), (8, "Bee")]);
        cart(&mut copy, 7)[19..].fill(byte);
        cart(&mut copy, 8)[19..].fill(byte);
        assert_eq!(search(&copy, b"Bed"), one(7, 6), "then {byte}");
        assert_eq!(search(&copy, &[b'B', b'e', b'd', byte]), none(0), "and {byte} asked too");
    }
}

/// Also outside 32 to 126, in the title asked and in the cart.
#[test]
fn letters_of_any_value() {
    for byte in 0..=255u8 {
        let mut copy = copy_of(&[(7, "Bed"), (8, "Bed")]);
        cart(&mut copy, 7)[16..19].fill(byte);
        cart(&mut copy, 8)[16..19].copy_from_slice(&[byte, byte.wrapping_add(1), byte]);
        assert_eq!(search(&copy, &[byte; 3]), one(7, 5), "{byte}");
        assert_eq!(search(&copy, &[byte.wrapping_add(1); 3]), none(2), "{byte} and another");
    }
    let copy = copy_of(&[(7, "Bed")]);
    for byte in [0, 1, 31, 127, 128, 255] {
        assert_eq!(search(&copy, &[byte; 3]), none(1), "{byte}");
        assert_eq!(search(&copy, &[b'B', b'e', byte]), none(3), "{byte} last");
    }
    assert_eq!(search(&copy, &[b'B' + 128, b'e', b'd']), none(1), "all 8 bits count");
}

/// As in every search before: request S-11 is to come.
#[test]
fn another_case_is_another_letter() {
    let copy = copy_of(&[(7, "Top hour A")]);
    for (title, words) in [("TOP HOUR A", none(2)), ("top hour a", none(1)), ("Top hour a", none(10))] {
        assert_eq!(search(&copy, title.as_bytes()), words, "{title}");
    }
}

/// Only where byte 0 and byte 1 are 1 are the carts held and of length 1.
#[test]
fn a_copy_of_one_byte() {
    for byte in 0..=255 {
        let words = if byte == 1 { several(128, 128) } else { none(0) };
        assert_eq!(search(&[byte; COPY], &[byte]), words, "{byte}");
    }
    assert_eq!(search(&[1; COPY], &[2]), none(128));
    assert_eq!(search(&[1; COPY], &[1, 1]), none(0));
}

#[test]
fn a_title_of_a_wrong_length() {
    let (copy, title) = (full(&"x".repeat(64)), [b'x'; 65_600]);
    for length in [0, 65, 66, 128, 255, 256, 257, 320, 65_536, 65_537, 65_600] {
        assert_eq!(search(&copy, &title[..length]), WRONG_LENGTH, "{length}");
    }
    assert_eq!(search(&copy, &title[..1]), none(0));
    assert_eq!(search(&copy, &title[..63]), none(0));
    assert_eq!(search(&copy, &title[..64]), several(128, 8_192));
    assert_eq!(search(&full("x"), &title[..1]), several(128, 128));
    let mut longer = copy.clone();
    for (length, byte) in [(0, 0), (65, 65), (255, 255), (256, 0), (257, 1)] {
        cart(&mut longer, 7)[1] = byte;
        assert_eq!(search(&longer, &title[..length]), WRONG_LENGTH, "{length}, and byte 1 is {byte}");
    }
}

/// With a title of a right length and of a wrong one.
#[test]
fn a_copy_of_a_wrong_length() {
    let (carts, title) = (full(&"x".repeat(64)).repeat(8), [b'x'; 65]);
    for size in [0, 1, 79, 80, 10_160, 10_239, 10_241, 10_320, 20_480, 51_200, 75_776] {
        for length in [1, 64, 0, 65] {
            assert_eq!(search(&carts[..size], &title[..length]), WRONG_LENGTH, "{size} bytes, {length} letters");
        }
    }
    assert_eq!(search(&carts[..10_240], &title[..64]), several(128, 8_192));
}

/// A read by title has the search's result in it, and no letters.
#[test]
fn a_read_finds_the_same() {
    let (mut wall, nothing) = (fresh(), [0; UNIT]);
    let copy = copy_of(&[(1, "Bed"), (2, "Beds"), (3, "Top hour A"), (128, "Bed")]);
    wall.library[COPY..2 * COPY].copy_from_slice(&copy);
    for (title, words, found, shown) in [
        ("Bed", several(2, 6), 2, nothing),
        ("Beds", one(2, 4), 1, new(2, "Beds", 501, 8_000)),
        ("Top hour A", one(3, 10), 1, new(3, "Top hour A", 501, 8_000)),
        ("Top hour B", none(10), 0, nothing),
        ("Bad", none(4), 0, nothing),
        ("Be", none(0), 0, nothing),
    ] {
        let mut output = [9; UNIT];
        assert_eq!(search(&wall.library[COPY..2 * COPY], title.as_bytes()), words, "{title}");
        assert_eq!(wall.read(1, &by_title(title), &mut output), answered(0, found), "{title}");
        assert_eq!(output, shown, "{title}");
    }
}
