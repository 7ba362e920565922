//! Wall files of the thirty-two-character edition (document 02, S-10) on the real engine: there and back both ways, refusals 22 and 23 and
//! their order, and which cart is at fault.
mod made;

use made::{fresh, new, recut};
use sulyobak::old::{copy_fault, file_fault, from_old, from_old_into, to_old, to_old_into, Fault};
use sulyobak::{sizes, Cart, Library, Operation, Refusal, Title, Van};

const MARK: &[u8] = b"CART32";
const OLD_CART: usize = 48;

// The 80 bytes of a held cart, which are those of its new.
fn held(cart: u16, text: &str) -> [u8; sizes::CART] {
    let title = Title::new(text).expect("a title");
    Operation::New { cart, title, audio: 0x0102_0304 + u32::from(cart), milliseconds: 8_000 }.to_bytes()
}

// A copy by hand: these carts, each at its place.
fn copy_of(carts: &[(u16, &str)]) -> Vec<u8> {
    let mut copy = vec![0; sizes::COPY];
    for &(cart, text) in carts {
        copy[sizes::CART * (usize::from(cart) - 1)..][..sizes::CART].copy_from_slice(&held(cart, text));
    }
    copy
}

// An old file by hand: the mark, and the first 48 bytes of each cart.
fn file_of(carts: &[(u16, &str)]) -> Vec<u8> {
    let copy = copy_of(carts);
    MARK.iter().copied().chain(copy.chunks_exact(sizes::CART).flat_map(|unit| unit[..OLD_CART].to_vec())).collect()
}

fn with(bytes: &[u8], at: usize, value: u8) -> Vec<u8> {
    let mut changed = bytes.to_vec();
    changed[at] = value;
    changed
}

fn letters(count: usize) -> String {
    "x".repeat(count)
}

// Converts both ways, and sees that every byte lent is written, whatever stood there.
fn there_and_back(carts: &[(u16, &str)]) {
    let (file, copy) = (file_of(carts), copy_of(carts));
    let (mut lent_copy, mut lent_file) = ([9; sizes::COPY], [9; sizes::OLD_FILE]);
    assert_eq!(from_old_into(&file, &mut lent_copy), Ok(sizes::COPY));
    assert_eq!(lent_copy[..], copy);
    assert_eq!(to_old_into(&copy, &mut lent_file), Ok(sizes::OLD_FILE));
    assert_eq!(lent_file[..], file);
    assert_eq!(from_old(&file).map(|copy| copy.to_vec()), Ok(copy.clone()));
    assert_eq!(to_old(&copy).map(|file| file.to_vec()), Ok(file.clone()));
    assert_eq!((file_fault(&file), copy_fault(&copy)), (None, None));
}

// A file that must be refused by 22, and leave the lent copy as it was.
fn file_refused(file: &[u8], fault: Fault) {
    let mut copy = [9; sizes::COPY];
    assert_eq!(from_old_into(file, &mut copy), Err(Refusal::NotConvertible), "{fault:?}");
    assert_eq!(copy, [9; sizes::COPY], "a refused conversion writes nothing");
    assert_eq!(from_old(file), Err(Refusal::NotConvertible));
    assert_eq!(file_fault(file), Some(fault));
}

// A copy that must be refused, and leave the lent file as it was.
fn copy_refused(copy: &[u8], refusal: Refusal, fault: Fault) {
    let mut file = [9; sizes::OLD_FILE];
    assert_eq!(to_old_into(copy, &mut file), Err(refusal), "{fault:?}");
    assert_eq!(file, [9; sizes::OLD_FILE], "a refused conversion writes nothing");
    assert_eq!(to_old(copy), Err(refusal));
    assert_eq!(copy_fault(copy), Some(fault));
}

#[test]
fn walls_there_and_back() {
    there_and_back(&[]);
    there_and_back(&[(1, "Top hour A"), (7, "News bed"), (128, "x")]);
    let full: Vec<(u16, &str)> = (1..=128).map(|cart| (cart, "Traffic jingle")).collect();
    there_and_back(&full);
}

#[test]
fn titles_keep_spaces_and_case() {
    there_and_back(&[(1, " "), (2, " News bed"), (3, "News bed "), (4, "  N  w  "), (5, "~")]);
    there_and_back(&[(1, "TOP HOUR A"), (2, "Top hour A"), (3, "top hour a")]);
    let copy = from_old(&file_of(&[(2, " News bed ")])).expect("a file of the form");
    let cart = Cart::from_bytes(copy[80..160].try_into().expect("80 bytes")).expect("a held cart");
    assert_eq!((cart.number, cart.title.as_str(), cart.audio, cart.milliseconds), (2, " News bed ", 0x0102_0306, 8_000));
}

#[test]
fn titles_of_32_and_33_letters() {
    let (most, more, whole) = (letters(32), letters(33), letters(64));
    there_and_back(&[(1, &most), (128, &most)]);
    for text in [&more, &whole] {
        copy_refused(&copy_of(&[(1, text)]), Refusal::LongTitle, Fault::LongTitle(1));
        copy_refused(&copy_of(&[(1, &most), (127, text), (128, text)]), Refusal::LongTitle, Fault::LongTitle(127));
    }
    let spaced = format!("{most} ");
    copy_refused(&copy_of(&[(5, &spaced)]), Refusal::LongTitle, Fault::LongTitle(5));
    // In an old file a length over 32 is out of form: 22, never 23.
    for length in [33, 64, 255] {
        file_refused(&with(&file_of(&[(1, &most)]), 6 + 1, length), Fault::Form(1));
    }
}

#[test]
fn form_comes_before_long_titles() {
    let long = letters(33);
    let mut copy = copy_of(&[(1, &long), (128, "News bed")]);
    copy_refused(&copy, Refusal::LongTitle, Fault::LongTitle(1));
    for length in [0, 6_149, 6_151, sizes::COPY] {
        let mut file = vec![9; length];
        assert_eq!(to_old_into(&copy, &mut file), Err(Refusal::NotConvertible), "22 of the output stands before 23");
        assert_eq!(file, vec![9; length]);
    }
    copy[sizes::COPY - 1] = 1;
    copy_refused(&copy, Refusal::NotConvertible, Fault::Form(128));
    copy_refused(&copy[..sizes::COPY - 1], Refusal::NotConvertible, Fault::Length);
}

#[test]
fn lengths_of_input_and_output() {
    let (file, copy) = (file_of(&[(7, "Top hour A")]), copy_of(&[(7, "Top hour A")]));
    for short in [0, 5, 6, 54, sizes::OLD_FILE - 1] {
        file_refused(&file[..short], Fault::Length);
    }
    file_refused(&[&file[..], &[0]].concat(), Fault::Length);
    file_refused(&copy, Fault::Length);
    for short in [0, 79, 80, sizes::COPY - 80, sizes::COPY - 1] {
        copy_refused(&copy[..short], Refusal::NotConvertible, Fault::Length);
    }
    copy_refused(&[&copy[..], &[0]].concat(), Refusal::NotConvertible, Fault::Length);
    copy_refused(&file, Refusal::NotConvertible, Fault::Length);
    for length in [0, 1, sizes::OLD_FILE, sizes::COPY - 1, sizes::COPY + 1] {
        let mut lent = vec![9; length];
        assert_eq!(from_old_into(&file, &mut lent), Err(Refusal::NotConvertible), "output of {length} bytes");
        assert_eq!(lent, vec![9; length]);
    }
    for length in [0, 1, sizes::OLD_FILE - 1, sizes::OLD_FILE + 1, sizes::COPY] {
        let mut lent = vec![9; length];
        assert_eq!(to_old_into(&copy, &mut lent), Err(Refusal::NotConvertible), "output of {length} bytes");
        assert_eq!(lent, vec![9; length]);
    }
}

#[test]
fn marks_and_carts_out_of_form() {
    let file = file_of(&[(1, "Top hour A"), (128, "News bed")]);
    for at in 0..6 {
        file_refused(&with(&file, at, file[at] ^ 1), Fault::Mark);
    }
    // Kind, title length (twice), number, audio, length, a byte of 12 to 15, a letter, and what is after the title.
    for (at, value) in [(0, 2), (1, 0), (1, 11), (2, 2), (3, 1), (12, 1), (15, 1), (16, 31), (16, 127), (26, 32)] {
        file_refused(&with(&file, 6 + at, value), Fault::Form(1));
        let copy = copy_of(&[(1, "Top hour A"), (128, "News bed")]);
        copy_refused(&with(&copy, at, value), Refusal::NotConvertible, Fault::Form(1));
    }
    let mut silent = file.clone();
    silent[6 + 8..6 + 12].fill(0);
    file_refused(&silent, Fault::Form(1));
    let mut moved = copy_of(&[(1, "Top hour A")]);
    moved.copy_within(0..sizes::CART, sizes::CART);
    copy_refused(&moved, Refusal::NotConvertible, Fault::Form(2));
    file_refused(&with(&file, 6 + OLD_CART, 1), Fault::Form(2));
}

// What the wrapper finds fault with in a file, the engine refuses, and nothing else.
fn file_agrees(file: &[u8]) {
    let fault = file_fault(file);
    let expected = if fault.is_some() { Err(Refusal::NotConvertible) } else { Ok(sizes::COPY) };
    assert_eq!(from_old_into(file, &mut [0; sizes::COPY]), expected, "{fault:?}");
}

// The same of a copy, by the right number.
fn copy_agrees(copy: &[u8]) {
    let fault = copy_fault(copy);
    let expected = match fault {
        None => Ok(sizes::OLD_FILE),
        Some(Fault::LongTitle(_)) => Err(Refusal::LongTitle),
        Some(_) => Err(Refusal::NotConvertible),
    };
    assert_eq!(to_old_into(copy, &mut [0; sizes::OLD_FILE]), expected, "{fault:?}");
}

#[test]
fn the_fault_agrees_with_the_refusal() {
    let (most, whole) = (letters(32), letters(64));
    let carts = [(1, "Top hour A"), (128, &most[..])];
    let (file, copy, long) = (file_of(&carts), copy_of(&carts), copy_of(&[(1, "Top hour A"), (128, &whole)]));
    for value in [0, 1, 2, 10, 31, 32, 33, 64, 65, 126, 127, 128, 255] {
        for at in (0..6 + 2 * OLD_CART).chain(sizes::OLD_FILE - OLD_CART..sizes::OLD_FILE) {
            file_agrees(&with(&file, at, value));
        }
        for at in (0..2 * sizes::CART).chain(sizes::COPY - sizes::CART..sizes::COPY) {
            copy_agrees(&with(&copy, at, value));
            copy_agrees(&with(&long, at, value));
        }
    }
}

#[test]
fn the_fault_in_words() {
    let said = |fault: Fault| fault.to_string();
    assert_eq!(said(Fault::Length), "it has another length");
    assert_eq!(said(Fault::Mark), "it does not begin with CART32");
    assert_eq!(said(Fault::Form(7)), "cart 7 is out of form");
    assert_eq!(said(Fault::LongTitle(7)), "cart 7 has a title of more than 32 letters");
}

// The head end's copy, as it stands in library memory.
fn head_end(library: &mut Library) -> Vec<u8> {
    library.memory().library[..sizes::COPY].to_vec()
}

#[test]
fn the_head_ends_copy_of_a_library() {
    let mut library = fresh();
    assert_eq!(to_old(&head_end(&mut library)).map(|file| file.to_vec()), Ok(file_of(&[])));
    let title = |text: &str| Title::new(text).expect("a title");
    library.commit(1, &[new(6), new(7), Operation::Retitle { cart: 7, title: title(&letters(33)) }]).expect("commit");
    copy_refused(&head_end(&mut library), Refusal::LongTitle, Fault::LongTitle(7));
    library.commit(1, &[Operation::Retitle { cart: 7, title: title(&letters(32)) }, recut(7)]).expect("commit");
    let copy = head_end(&mut library);
    let file = to_old(&copy).expect("every title has room");
    assert_eq!(from_old(&file).map(|back| back.to_vec()), Ok(copy.clone()));
    assert_eq!(Van::from_parts(copy.into(), 2).expect("a copy").cart(7).map(|cart| cart.audio), Some(502));
}

#[test]
fn a_converted_copy_is_of_the_layout_and_in_no_log() {
    let copy = from_old(&file_of(&[(7, "Top hour A")])).expect("a file of the form");
    let mut parts = fresh().into_parts();
    parts.library[..sizes::COPY].copy_from_slice(&copy);
    assert!(Library::from_parts(parts.clone()).is_ok());
    assert_eq!(Library::load(parts), Err(Refusal::NotWhole));
}
