//! A title that begins or ends with a space is refused; where it is stored from before, it is kept (document 02, S-2). On the real engine.
mod made;
mod tried;

use made::{fresh, new, recut};
use sulyobak::{sizes, Cart, Library, Operation, Parts, Read, Refusal, Request, Title};
use tried::{bytes_of, tried};

fn title(text: &str) -> Title {
    Title::new(text).expect("a title")
}

fn named(cart: u16, text: &str) -> Operation {
    Operation::New { cart, title: title(text), audio: 501, milliseconds: 8_000 }
}

fn retitle(cart: u16, text: &str) -> Operation {
    Operation::Retitle { cart, title: title(text) }
}

// Previews and commits in session 1.
fn edit(library: &mut Library, operations: &[Operation]) -> Result<u32, Refusal> {
    tried(library, 1, &bytes_of(operations))
}

// Titles with a space at an end; the last two have 64 letters.
fn spaced() -> Vec<String> {
    let short = [" ", "  ", " News", "News ", " News ", " N w ", "N w "].map(String::from);
    let long = [format!("{} ", "x".repeat(63)), format!(" {}", "x".repeat(63))];
    [&short[..], &long].concat()
}

#[test]
fn a_space_at_an_end_is_refused_for_new_and_retitle() {
    let mut library = fresh();
    assert_eq!(edit(&mut library, &[new(2)]), Ok(1));
    for text in spaced() {
        assert_eq!(edit(&mut library, &[named(1, &text)]), Err(Refusal::SpacedTitle), "new {text:?}");
        assert_eq!(edit(&mut library, &[retitle(2, &text)]), Err(Refusal::SpacedTitle), "retitle {text:?}");
    }
    assert_eq!(Refusal::SpacedTitle.to_string(), "refused (16): the title begins or ends with a space");
}

#[test]
fn spaces_inside_are_of_no_matter() {
    let mut library = fresh();
    let long = format!("x{}x", " ".repeat(62));
    assert_eq!(edit(&mut library, &[named(1, "N w"), named(2, &long)]), Ok(1));
    assert_eq!(edit(&mut library, &[retitle(1, &long), retitle(2, "N  w")]), Ok(2));
}

#[test]
fn any_of_eight_operations_is_judged() {
    let mut library = fresh();
    let carts: Vec<Operation> = (1..=8).map(new).collect();
    for place in 0..8 {
        let mut operations = carts.clone();
        operations[place] = named(place as u16 + 1, "News ");
        assert_eq!(edit(&mut library, &operations), Err(Refusal::SpacedTitle), "operation {}", place + 1);
    }
    assert_eq!(edit(&mut library, &carts), Ok(1));
}

#[test]
fn the_rows_before_and_after() {
    let mut library = fresh();
    let operations = [named(1, " News"), recut(300)];
    assert_eq!(edit(&mut library, &operations), Err(Refusal::Operation), "6 of a later operation stands before 16");
    assert_eq!(tried(&mut library, 1, &bytes_of(&operations)[..159]), Err(Refusal::Size), "5 stands before 16");
    assert_eq!(edit(&mut library, &[recut(1), named(2, "News ")]), Err(Refusal::SpacedTitle), "16 of a later operation stands before 8");

    assert_eq!(edit(&mut library, &[new(1)]), Ok(1));
    assert_eq!(library.read(1, &Request::cart(1)), Ok(Read::Waits { number: 1 }));
    assert_eq!(edit(&mut library, &[retitle(1, " ")]), Err(Refusal::ReadWaiting), "4 stands before 16");
    assert_eq!(tried(&mut library, 4, &retitle(1, " ").to_bytes()), Err(Refusal::Nobody), "3 stands before 16");
}

#[test]
fn a_full_log_comes_after() {
    let mut library = fresh();
    assert_eq!(library.commit(1, &[new(1)]), Ok(1));
    for number in 2..=64 {
        assert_eq!(library.commit(1, &[recut(1); 8]), Ok(number));
    }
    let mut operations = vec![recut(1); 8];
    assert_eq!(edit(&mut library, &operations), Err(Refusal::LogFull));
    operations[7] = retitle(1, "News ");
    assert_eq!(edit(&mut library, &operations), Err(Refusal::SpacedTitle), "16 stands before 7");
    operations[6] = new(1);
    assert_eq!(edit(&mut library, &operations), Err(Refusal::SpacedTitle), "16 stands before 7 and 8");
}

#[test]
fn a_read_may_ask_for_such_a_title() {
    let mut library = fresh();
    let nothing = |state| Ok(Read::Answered { state, found: 0, carts: vec![None] });
    for text in spaced() {
        assert_eq!(library.read(1, &Request::Title(title(&text))), nothing(0), "{text:?}");
    }
    assert_eq!(library.commit(1, &[named(7, "News")]), Ok(1));
    assert_eq!(library.read(1, &Request::Title(title("News "))), Ok(Read::Waits { number: 1 }));
    library.send(1).expect("send");
    library.refresh(1).expect("refresh");
    assert_eq!(library.collect(1), nothing(1), "the space counts");
}

// The titles that cart 7 and record 1 have below, and a version before S-2 would have accepted.
const KEPT: [&str; 3] = [" op hour A", "Top hour  ", "          "];

// A library of before S-2: cart 7 has this title at the head end, in record 1 and in studio 1's copy; studio 2 has not taken it yet.
fn stored(text: &str) -> Library {
    let mut library = fresh();
    library.commit(1, &[new(7)]).expect("commit");
    library.send(1).expect("send");
    library.refresh(1).expect("refresh");
    let mut parts: Parts = library.into_parts();
    let cart = 6 * sizes::CART;
    for unit in [&mut parts.library[cart..], &mut parts.log[..]] {
        unit[16..26].copy_from_slice(text.as_bytes());
    }
    parts.library[sizes::COPY + cart + 16..][..10].copy_from_slice(text.as_bytes());
    Library::from_parts(parts).expect("memory of the layout")
}

fn kept(text: &str) -> Cart {
    Cart { number: 7, title: title(text), audio: 501, milliseconds: 8_000 }
}

fn shown(state: u32, cart: Cart) -> Result<Read, Refusal> {
    Ok(Read::Answered { state, found: 1, carts: vec![Some(cart)] })
}

#[test]
fn a_stored_title_is_shown_found_and_refreshed() {
    for text in KEPT {
        let mut library = stored(text);
        library.send(2).expect("send");
        assert_eq!(library.refresh(2), Ok(1));
        for session in [1, 3] {
            assert_eq!(library.read(session, &Request::cart(7)), shown(1, kept(text)), "{text:?}");
            assert_eq!(library.read(session, &Request::Title(title(text))), shown(1, kept(text)), "{text:?}");
            let trimmed = library.read(session, &Request::Title(title("Top hour")));
            assert_eq!(trimmed, Ok(Read::Answered { state: 1, found: 0, carts: vec![None] }), "{text:?}");
        }
    }
}

#[test]
fn a_cart_with_a_stored_title_is_retitled_recut_and_withdrawn() {
    for text in KEPT {
        let edits = [
            (retitle(7, "Top hour"), Some(Cart { title: title("Top hour"), ..kept(text) })),
            (recut(7), Some(Cart { audio: 502, milliseconds: 9_000, ..kept(text) })),
            (Operation::Withdraw { cart: 7 }, None),
        ];
        for (operation, cart) in edits {
            let mut library = stored(text);
            assert_eq!(edit(&mut library, &[operation]), Ok(2), "{operation:?}");
            library.send(1).expect("send");
            assert_eq!(library.refresh(1), Ok(2));
            let found = u32::from(cart.is_some());
            assert_eq!(library.read(1, &Request::cart(7)), Ok(Read::Answered { state: 2, found, carts: vec![cart] }));
        }
    }
}

#[test]
fn a_stored_title_is_not_given_again() {
    for text in KEPT {
        let mut library = stored(text);
        assert_eq!(edit(&mut library, &[retitle(7, text)]), Err(Refusal::SpacedTitle), "{text:?}");
        assert_eq!(edit(&mut library, &[recut(7), named(8, text)]), Err(Refusal::SpacedTitle), "{text:?}");
    }
}
