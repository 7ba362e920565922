//! The conversions of request S-10: old files to copies of ours, and back. That every
//! byte of the output is written, whatever stood there, or none where a conversion is
//! refused, is asserted by `converted`.

mod wall;
use simulator::{Answer, COPY, Control, DONE, OLD_FILE, OLD_TITLE, OLD_UNIT, REFUSED, UNIT, from_old, of_layout, to_old};
use wall::*;

type Conversion = fn(&[u8], &mut [u8]) -> Answer;

/// What is written, or the refusal's number.
type Converted = Result<Vec<u8>, u32>;

/// A conversion to an output of this size.
fn converted(conversion: Conversion, input: &[u8], size: usize) -> Converted {
    let ends = [0, 9, 255].map(|byte| {
        let stood = vec![byte; size];
        let mut output = stood.clone();
        let answer = conversion(input, &mut output);
        assert_eq!((answer.found, answer.control), (0, Control::default()));
        match answer.kind {
            DONE => {
                assert_eq!(answer.value, u32::try_from(size).unwrap(), "the bytes written");
                Ok(output)
            }
            REFUSED => {
                assert_eq!(output, stood, "a refused conversion leaves its output");
                Err(answer.value)
            }
            kind => panic!("kind {kind}"),
        }
    });
    assert!(ends.iter().all(|end| *end == ends[0]), "what stood in the output does not matter");
    ends[0].clone()
}

fn ours(file: &[u8]) -> Converted {
    converted(from_old, file, COPY)
}

fn old(copy: &[u8]) -> Converted {
    converted(to_old, copy, OLD_FILE)
}

/// A cart of 48 bytes. Its length byte is that of the title, also where that is cut.
fn old_cart(number: u16, title: &str, audio: u32, length: u32) -> [u8; OLD_UNIT] {
    let mut unit = [0; OLD_UNIT];
    unit[0] = 1;
    unit[1] = u8::try_from(title.len()).unwrap();
    unit[2..4].copy_from_slice(&number.to_le_bytes());
    unit[4..8].copy_from_slice(&audio.to_le_bytes());
    unit[8..12].copy_from_slice(&length.to_le_bytes());
    let kept = title.len().min(OLD_TITLE);
    unit[16..16 + kept].copy_from_slice(&title.as_bytes()[..kept]);
    unit
}

/// Where a cart begins in an old file.
fn old_at(number: u16) -> usize {
    6 + OLD_UNIT * (usize::from(number) - 1)
}

/// An old file in which these are held, each at its place.
fn file_of(carts: &[[u8; OLD_UNIT]]) -> Vec<u8> {
    let mut file = vec![0; OLD_FILE];
    file[..6].copy_from_slice(b"CART32");
    for held in carts {
        let at = old_at(held[2].into());
        file[at..at + OLD_UNIT].copy_from_slice(held);
    }
    file
}

/// Number, title, audio and length of a held cart.
type Held<'a> = (u16, &'a str, u32, u32);

/// The old file and the copy with these carts.
fn walls(carts: &[Held]) -> (Vec<u8>, Vec<u8>) {
    let olds: Vec<_> = carts.iter().map(|(number, title, audio, length)| old_cart(*number, title, *audio, *length)).collect();
    let news: Vec<_> = carts.iter().map(|(number, title, audio, length)| new(*number, title, *audio, *length)).collect();
    (file_of(&olds), copy_of(&news))
}

/// The old file becomes the copy and the copy the old file.
fn both_ways(case: &str, carts: &[Held]) {
    let (file, copy) = walls(carts);
    assert_eq!(ours(&file).as_ref(), Ok(&copy), "{case}: to ours");
    assert_eq!(old(&copy).as_ref(), Ok(&file), "{case}: to old");
}

/// Carts 1, 7 and 128 are held. The one in the middle has the longest title.
fn three() -> (Vec<u8>, Vec<u8>) {
    walls(&[(1, "Bed", 1, 1), (7, &"x".repeat(32), 501, 8_000), (128, "News", 1, 1)])
}

fn with_byte(bytes: &[u8], at: usize, byte: u8) -> Vec<u8> {
    let mut left = bytes.to_vec();
    left[at] = byte;
    left
}

#[test]
fn the_words() {
    let (mut file, mut copy) = (vec![9; 6_150], vec![9; 10_240]);
    let words = |kind, value| Answer { kind, value, found: 0, control: Control::default() };
    assert_eq!(to_old(&[0; 10_240], &mut file), words(1, 6_150));
    assert_eq!(from_old(&file, &mut copy), words(1, 10_240));
    assert_eq!(from_old(&[], &mut copy), words(0, 22));
    assert_eq!(to_old(&[], &mut file), words(0, 22));
    assert_eq!(to_old(&full(&"x".repeat(33)), &mut file), words(0, 23));
}

#[test]
fn an_empty_wall() {
    let file = [&b"CART32"[..], &[0; 6_144]].concat();
    assert_eq!(ours(&file), Ok(vec![0; 10_240]));
    assert_eq!(old(&[0; 10_240]), Ok(file));
}

/// Byte by byte, without the makers above: cart 2 of both, and nothing else.
#[test]
fn one_cart_written_out() {
    let (mut file, mut copy) = (vec![0; 6_150], vec![0; 10_240]);
    file[..6].copy_from_slice(&[67, 65, 82, 84, 51, 50]);
    let shared = [1, 3, 2, 0, 245, 1, 2, 3, 64, 31, 4, 5, 0, 0, 0, 0, 66, 101, 100];
    file[54..73].copy_from_slice(&shared);
    copy[80..99].copy_from_slice(&shared);
    assert_eq!(ours(&file).as_ref(), Ok(&copy));
    assert_eq!(old(&copy).as_ref(), Ok(&file));
}

#[test]
fn titles_of_1_and_of_32_letters() {
    both_ways("one of each", &[(1, "x", 1, 1), (2, "Top hour A, with the news before", 501, 8_000)]);
    both_ways("the last places", &[(127, &"y".repeat(32), 1, 1), (128, "y", 1, 1)]);
}

#[test]
fn a_title_of_every_length_at_every_place() {
    for number in 1..=128 {
        let length = 1 + usize::from(number) % 32;
        both_ways(&format!("cart {number} alone"), &[(number, &"Top hour ".repeat(4)[..length], 501, 8_000)]);
    }
    for length in 1..=32 {
        let title = &"Top hour ".repeat(4)[..length];
        let all: Vec<Held> = (1..=128).map(|number| (number, title, number.into(), 1)).collect();
        both_ways(&format!("all with {length} letters"), &all);
    }
}

/// Each alone as a title, and all of them in three.
#[test]
fn every_letter() {
    let letters: String = (32..=126).map(char::from).collect();
    for place in 0..letters.len() {
        both_ways("one letter", &[(9, &letters[place..=place], 1, 1)]);
    }
    both_ways("all letters", &[(1, &letters[..32], 1, 1), (2, &letters[32..64], 1, 1), (3, &letters[64..], 1, 1)]);
}

/// Spaces at the ends are kept, and so are small and capital letters.
#[test]
fn titles_are_kept_letter_for_letter() {
    for title in spaced().iter().filter(|title| title.len() <= 32) {
        both_ways(title, &[(7, title, 501, 8_000)]);
    }
    both_ways("32 spaces", &[(1, &" ".repeat(32), 1, 1)]);
    both_ways("cases", &[(1, "NEWS", 1, 1), (2, "news", 1, 1), (3, "News", 1, 1)]);
    both_ways("one title twice", &[(1, "News", 1, 1), (128, "News", 1, 1)]);
}

#[test]
fn audio_and_length_of_every_size() {
    for value in [1, 255, 256, 65_535, 65_536, 16_777_216, 1 << 31, u32::MAX] {
        both_ways(&format!("{value}"), &[(7, "News", value, 1), (8, "Bed", 1, value), (9, "Bed", value, value)]);
    }
}

/// Walls that a seed makes, about half of their carts held.
#[test]
fn there_and_back() {
    for start in 0..40 {
        let titles: Vec<String> = (1..=32).map(|length| "Bed of News, for the top hour: A"[32 - length..].to_string()).collect();
        let held = (1..=128).zip(seeds().skip(start * 128)).filter(|(_, seed)| seed % 2 == 0);
        let carts: Vec<Held> =
            held.map(|(number, seed)| (number, &titles[seed as usize / 2 % 32][..], 1 + seed * 4_096, 1 + seed / 64)).collect();
        let (file, copy) = walls(&carts);
        assert_eq!(ours(&file).and_then(|copy| old(&copy)), Ok(file), "from {start}: old, ours, old");
        assert_eq!(old(&copy).and_then(|file| ours(&file)), Ok(copy), "from {start}: ours, old, ours");
        both_ways(&format!("from {start}"), &carts);
    }
}

/// Whatever is accepted goes back to the same bytes; all else is refused by 22.
#[test]
fn any_byte_of_a_cart() {
    let (file, copy) = three();
    let (mut accepted, mut refusals) = (0, 0);
    let mut tell = |case: String, input: &[u8], there: fn(&[u8]) -> Converted, back: fn(&[u8]) -> Converted| match there(input) {
        Ok(output) => {
            assert_eq!(back(&output).as_deref(), Ok(input), "{case}");
            accepted += 1;
        }
        Err(number) => {
            assert_eq!(number, 22, "{case}");
            refusals += 1;
        }
    };
    let values = [0, 1, 2, 3, 4, 5, 31, 32, 33, 64, 65, 126, 127, 128, 255];
    for (number, value) in [1, 2, 7, 128].into_iter().flat_map(|number| values.map(|value| (number, value))) {
        for at in old_at(number)..old_at(number) + OLD_UNIT {
            tell(format!("old byte {at} as {value}"), &with_byte(&file, at, value), ours, old);
        }
        for at in UNIT * usize::from(number - 1)..UNIT * usize::from(number) {
            tell(format!("our byte {at} as {value}"), &with_byte(&copy, at, value), old, ours);
        }
    }
    assert!(accepted > 500 && refusals > 2_000, "{accepted} accepted, {refusals} refused");
}

#[test]
fn a_title_over_32_letters() {
    for (number, length) in [1, 2, 64, 127, 128].into_iter().flat_map(|number| (30..=64).map(move |length| (number, length))) {
        let copy = copy_of(&[new(number, &"x".repeat(length), 501, 8_000)]);
        let told = if length <= 32 { Ok(()) } else { Err(23) };
        assert_eq!(old(&copy).map(|_| ()), told, "cart {number} with {length} letters");
    }
    assert_eq!(old(&full(&"x".repeat(33))), Err(23));
    assert_eq!(old(&copy_of(&[new(7, &format!("{}{}", "x".repeat(32), " "), 1, 1)])), Err(23), "also a space");
    for title in [33, 64].map(|length| " ".repeat(length)) {
        assert_eq!(old(&copy_of(&[new(7, &title, 1, 1)])), Err(23), "spaces alone");
    }
}

/// 22, wherever it is, is told before 23.
#[test]
fn a_long_title_and_what_22_tells() {
    let long = "x".repeat(33);
    for (first, second) in [(1, 128), (128, 1), (7, 8), (8, 7)] {
        let copy = copy_of(&[new(first, &long, 1, 1), new(second, "News", 1, 1)]);
        assert_eq!(old(&copy), Err(23));
        for (at, byte) in [(0, 2), (1, 0), (1, 5), (3, 1), (4, 0), (8, 0), (12, 1), (16, 31), (20, 32), (79, 1)] {
            let damaged = with_byte(&copy, UNIT * (second - 1) as usize + at, byte);
            assert_eq!(old(&damaged), Err(22), "byte {at} as {byte} of cart {second}, cart {first} has a long title");
        }
        let same = with_byte(&copy, UNIT * (first - 1) as usize + 12, 1);
        assert_eq!(old(&same), Err(22), "in the cart with the long title");
    }
    for size in [0, 6_149, 6_151, 10_240] {
        assert_eq!(converted(to_old, &full(&long), size), Err(22), "a file of {size} bytes");
    }
    let copy = [full(&long), vec![0]].concat();
    assert_eq!((old(&copy[..10_239]), old(&copy[..10_240]), old(&copy)), (Err(22), Err(23), Err(22)));
}

/// The output's length is right. What is cut off or added is zero, but for the shortest.
#[test]
fn an_input_of_a_wrong_length() {
    let (file, copy) = walls(&[(1, "Bed", 1, 1), (7, "News", 501, 8_000)]);
    let cut = |bytes: &[u8], size| bytes.iter().copied().chain(std::iter::repeat(0)).take(size).collect::<Vec<_>>();
    for size in [0, 1, 5, 6, 54, 6_102, 6_144, 6_149, 6_151, 6_198, 10_240, 12_300, 65_536 + 6_150] {
        assert_eq!(ours(&cut(&file, size)), Err(22), "a file of {size} bytes");
    }
    for size in [0, 1, 79, 80, 6_150, 10_160, 10_239, 10_241, 10_320, 20_480, 65_536 + 10_240] {
        assert_eq!(old(&cut(&copy, size)), Err(22), "a copy of {size} bytes");
    }
    assert_eq!((ours(&cut(&file, 6_150)), old(&cut(&copy, 10_240))), (Ok(copy), Ok(file)));
}

#[test]
fn an_output_of_a_wrong_length() {
    let (file, copy) = three();
    for size in [0, 1, 80, 6_150, 10_160, 10_239, 10_241, 10_320, 61_440, 65_536 + 10_240] {
        assert_eq!(converted(from_old, &file, size), Err(22), "a copy of {size} bytes");
        assert_eq!(converted(from_old, &[], size), Err(22), "a copy of {size} bytes, no file");
    }
    for size in [0, 1, 48, 6_144, 6_149, 6_151, 6_198, 10_240, 65_536 + 6_150] {
        assert_eq!(converted(to_old, &copy, size), Err(22), "a file of {size} bytes");
        assert_eq!(converted(to_old, &[], size), Err(22), "a file of {size} bytes, no copy");
    }
}

#[test]
fn the_first_six_bytes() {
    let file = three().0;
    for (at, byte) in (0..6).flat_map(|at| (0..=255).map(move |byte| (at, byte))).filter(|(at, byte)| file[*at] != *byte) {
        assert_eq!(ours(&with_byte(&file, at, byte)), Err(22), "byte {at} as {byte}");
    }
    for mark in [b"cart32", b"CART64", b"CART23", b"23TRAC", b"32CART", &[0; 6]] {
        assert_eq!(ours(&[&mark[..], &file[6..]].concat()), Err(22), "{mark:?}");
    }
    assert_eq!(ours(&[&file[6..], b"CART32"].concat()), Err(22), "at the end");
}

/// The title has 4 letters, so byte 20 is the first after it.
#[test]
fn a_held_cart_that_is_damaged() {
    let kinds = [(0, 0), (0, 2), (0, 3), (0, 4), (0, 255)];
    let lengths = [(1, 0), (1, 3), (1, 5), (1, 32), (1, 33), (1, 64), (1, 65), (1, 255)];
    let fields = [(2, 0), (2, 9), (3, 1), (3, 128), (4, 0), (8, 0), (12, 1), (13, 1), (14, 1), (15, 1)];
    let titles = [(16, 0), (16, 31), (16, 127), (17, 31), (17, 127), (19, 0), (19, 255), (20, 1), (20, 32)];
    let damage = [&kinds[..], &lengths, &fields, &titles].concat();
    for number in [1, 7, 64, 128] {
        let (file, copy) = walls(&[(number, "News", 1, 1)]);
        let (in_file, in_copy) = (old_at(number), UNIT * usize::from(number - 1));
        for (at, byte) in damage.iter().copied() {
            assert_eq!(ours(&with_byte(&file, in_file + at, byte)), Err(22), "old cart {number}, byte {at} as {byte}");
            assert_eq!(old(&with_byte(&copy, in_copy + at, byte)), Err(22), "our cart {number}, byte {at} as {byte}");
        }
        for at in 20..OLD_UNIT {
            assert_eq!(ours(&with_byte(&file, in_file + at, b'x')), Err(22), "old cart {number}, byte {at}");
        }
        for at in 20..UNIT {
            assert_eq!(old(&with_byte(&copy, in_copy + at, b'x')), Err(22), "our cart {number}, byte {at}");
        }
    }
}

/// 1 is a held cart's byte 0, but without its other fields.
#[test]
fn an_empty_cart_that_is_damaged() {
    let (file, copy) = three();
    for byte in [1, 32, 255] {
        for at in old_at(2)..old_at(3) {
            assert_eq!(ours(&with_byte(&file, at, byte)), Err(22), "old byte {at} as {byte}");
        }
        for at in UNIT..2 * UNIT {
            assert_eq!(old(&with_byte(&copy, at, byte)), Err(22), "our byte {at} as {byte}");
        }
    }
}

#[test]
fn audio_and_length_of_zero() {
    for (audio, length) in [(0, 0), (0, 1), (1, 0), (0, u32::MAX), (u32::MAX, 0)] {
        let (file, copy) = walls(&[(7, "News", audio, length)]);
        assert_eq!((ours(&file), old(&copy)), (Err(22), Err(22)), "audio {audio}, length {length}");
    }
}

/// Two carts in each other's place, and one a place too far.
#[test]
fn a_number_that_is_not_its_place() {
    let (file, copy) = walls(&[(1, "Bed", 1, 1), (2, "News", 1, 1)]);
    let swapped = [&file[..6], &file[54..102], &file[6..54], &file[102..]].concat();
    assert_eq!(ours(&swapped), Err(22));
    assert_eq!(old(&[&copy[80..160], &copy[..80], &copy[160..]].concat()), Err(22));
    let further = [&file[..6], &[0; 48], &file[6..6_102]].concat();
    assert_eq!(ours(&further), Err(22));
    assert_eq!(old(&[&[0; 80], &copy[..10_160]].concat()), Err(22));
}

/// A length byte over 32 is out of an old cart's form, so it is never 23.
#[test]
fn an_old_title_over_32_letters() {
    for length in 33..=255 {
        for number in [1, 127, 128] {
            assert_eq!(ours(&file_of(&[old_cart(number, &"x".repeat(length), 1, 1)])), Err(22), "cart {number}, {length} letters");
        }
    }
}

/// Where a title has 32 letters, the next byte is of the next cart.
#[test]
fn the_longest_titles_side_by_side() {
    let title = "x".repeat(32);
    both_ways("all", &(1..=128).map(|number| (number, &title[..], 1, 1)).collect::<Vec<_>>());
    let (file, copy) = walls(&[(1, &title, 1, 1), (2, &title, 1, 1)]);
    for byte in [0, 31, 127, 128, 255] {
        assert_eq!(ours(&with_byte(&file, 53, byte)), Err(22), "the last letter as {byte}");
        assert_eq!(old(&with_byte(&copy, 47, byte)), Err(22), "the last letter as {byte}");
    }
    assert_eq!(old(&with_byte(&copy, 48, b'x')), Err(22), "a letter after it");
}

/// One is not taken for the other.
#[test]
fn an_input_of_the_other_form() {
    let (file, copy) = three();
    assert_eq!((ours(&copy), old(&file)), (Err(22), Err(22)));
    assert_eq!(ours(&copy[..OLD_FILE]), Err(22));
    for byte in [0, 1, 9, 32, 67, 255] {
        assert_eq!(ours(&vec![byte; OLD_FILE]), Err(22), "6,150 bytes of {byte}");
        if byte != 0 {
            assert_eq!(old(&vec![byte; COPY]), Err(22), "10,240 bytes of {byte}");
        }
    }
}

/// Each copy of a wall with calls behind it has an old file, which goes back to that copy.
/// A made copy is of the layout, and no log makes it.
#[test]
fn copies_of_a_wall() {
    let mut wall = six(3);
    for copy in wall.library.chunks_exact(COPY) {
        assert_eq!(old(copy).and_then(|file| ours(&file)).as_deref(), Ok(copy));
    }
    assert_eq!(wall.load(), done(6));
    wall.library[..COPY].copy_from_slice(&ours(&three().0).unwrap());
    assert!(of_layout(&wall.library, &wall.log, &wall.sessions, &wall.control));
    assert_eq!(wall.load(), refused(19));
}
