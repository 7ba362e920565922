//! A commit refused by 8 raises its session's number to commits, and changes nothing else (document 02, S-3), on the real engine. What a
//! refused commit leaves, byte by byte, is `left` of tests/tried.
mod made;
mod tried;

use made::{fresh, new, recut};
use sulyobak::{sizes, Cart, Library, Operation, Read, Refusal, Request, Title};
use tried::{bytes_of, tried};

const WITHDRAW: Operation = Operation::Withdraw { cart: 40 };

// Session 3, in studio 2, fills cart 40; no studio has taken it yet.
fn filled() -> Library {
    let mut library = fresh();
    assert_eq!(library.commit(3, &[new(40)]), Ok(1));
    library
}

fn edit(library: &mut Library, session: u32, operations: &[Operation]) -> Result<u32, Refusal> {
    tried(library, session, &bytes_of(operations))
}

// The numbers of sessions 1, 2 and 3.
fn numbers(library: &Library) -> [u16; 3] {
    let sessions = library.clone().into_parts().sessions;
    let mut units = sessions.chunks_exact(sizes::CART);
    std::array::from_fn(|_| units.next().map_or(0, |unit| u16::from_le_bytes([unit[2], unit[3]])))
}

fn catch_up(library: &mut Library, studio: u32) {
    library.send(studio).expect("send");
    library.refresh(studio).expect("refresh");
}

fn answered(state: u32, cart: Option<Cart>) -> Result<Read, Refusal> {
    Ok(Read::Answered { state, found: u32::from(cart.is_some()), carts: vec![cart] })
}

fn cart_40(library: &mut Library, session: u32) -> Result<Read, Refusal> {
    library.read(session, &Request::cart(40))
}

#[test]
fn told_that_the_cart_is_taken_a_session_waits_to_see_it() {
    let mut library = filled();
    assert_eq!(edit(&mut library, 1, &[new(40)]), Err(Refusal::WrongState));
    assert_eq!(numbers(&library), [1, 0, 1]);
    assert_eq!(cart_40(&mut library, 1), Ok(Read::Waits { number: 1 }));
    assert_eq!(library.collect(1), Ok(Read::Waits { number: 1 }), "not sent yet");
    catch_up(&mut library, 1);
    let Ok(Read::Answered { state: 1, found: 1, carts }) = library.collect(1) else { panic!("not answered") };
    assert_eq!(carts[0].map(|cart| (cart.number, cart.audio)), Some((40, 501)));
}

#[test]
fn other_sessions_are_not_told() {
    let mut library = filled();
    assert_eq!(edit(&mut library, 1, &[new(40)]), Err(Refusal::WrongState));
    assert_eq!(cart_40(&mut library, 2), answered(0, None), "session 2, in the same studio");
    assert_eq!(numbers(&library), [1, 0, 1]);
}

#[test]
fn a_preview_does_not_tell() {
    let mut library = filled();
    assert_eq!(library.preview(1, &[new(40)]), Err(Refusal::WrongState));
    assert_eq!(library, filled());
    assert_eq!(cart_40(&mut library, 1), answered(0, None));
}

#[test]
fn every_operation_tells_at_every_place() {
    let taken: [&[Operation]; 5] =
        [&[recut(41)], &[new(41), new(41)], &[recut(40), new(40)], &[WITHDRAW, WITHDRAW], &[WITHDRAW, recut(40)]];
    for operations in taken {
        let mut library = filled();
        assert_eq!(edit(&mut library, 1, operations), Err(Refusal::WrongState), "{operations:?}");
        assert_eq!(numbers(&library), [1, 0, 1], "{operations:?}");
    }
    let mut library = filled();
    let last_of_eight: Vec<Operation> = (1..=7).map(new).chain([new(40)]).collect();
    assert_eq!(edit(&mut library, 2, &last_of_eight), Err(Refusal::WrongState));
    assert_eq!(numbers(&library), [0, 1, 1]);
}

#[test]
fn the_number_follows_commits_and_later_refusals() {
    let mut library = filled();
    assert_eq!(edit(&mut library, 1, &[new(1)]), Ok(2));
    assert_eq!(edit(&mut library, 1, &[new(40)]), Err(Refusal::WrongState), "the number is commits already");
    assert_eq!(numbers(&library), [2, 0, 1]);
    assert_eq!(edit(&mut library, 3, &[recut(40)]), Ok(3));
    assert_eq!(edit(&mut library, 1, &[new(40)]), Err(Refusal::WrongState));
    assert_eq!(numbers(&library), [3, 0, 3]);
    assert_eq!(edit(&mut library, 1, &[recut(40)]), Ok(4), "the next commit");
    assert_eq!(numbers(&library), [4, 0, 3]);
}

#[test]
fn before_any_commit_nothing_is_raised() {
    let mut library = fresh();
    assert_eq!(edit(&mut library, 1, &[WITHDRAW]), Err(Refusal::WrongState));
    assert_eq!(library, fresh());
    assert_eq!(cart_40(&mut library, 1), answered(0, None));
}

#[test]
fn where_the_copy_has_caught_up_the_read_is_answered() {
    let mut library = filled();
    catch_up(&mut library, 1);
    assert_eq!(edit(&mut library, 1, &[new(40)]), Err(Refusal::WrongState));
    assert_eq!(numbers(&library), [1, 0, 1]);
    assert!(matches!(cart_40(&mut library, 1), Ok(Read::Answered { state: 1, found: 1, .. })));
}

#[test]
fn the_rows_before_it_raise_nothing() {
    let mut library = filled();
    let spaced = Operation::Retitle { cart: 41, title: Title::new("News ").expect("a title") };
    assert_eq!(edit(&mut library, 1, &[spaced]), Err(Refusal::SpacedTitle), "16 and 8");
    assert_eq!(edit(&mut library, 1, &[recut(41), recut(129)]), Err(Refusal::Operation), "6 and 8");
    assert_eq!(tried(&mut library, 1, &bytes_of(&[recut(41)])[..79]), Err(Refusal::Size), "5");
    assert_eq!(edit(&mut library, 4, &[recut(41)]), Err(Refusal::Nobody), "3 and 8");
    assert_eq!(numbers(&library), [0, 0, 1]);

    assert_eq!(cart_40(&mut library, 3), Ok(Read::Waits { number: 1 }));
    assert_eq!(edit(&mut library, 2, &[new(1)]), Ok(2));
    assert_eq!(edit(&mut library, 3, &[recut(41)]), Err(Refusal::ReadWaiting), "4 and 8");
    assert_eq!(numbers(&library), [0, 2, 1]);
}

// Commits by session 1 of one operation each, up to so many; session 3's commit is the first.
fn committed(library: &mut Library, commits: u32) {
    for number in 2..=commits {
        assert_eq!(library.commit(1, &[recut(40)]), Ok(number));
    }
}

#[test]
fn a_full_log_raises_nothing() {
    let mut library = filled();
    committed(&mut library, 511);
    assert_eq!(edit(&mut library, 2, &[recut(41), recut(41)]), Err(Refusal::LogFull), "7 and 8");
    assert_eq!(numbers(&library), [511, 0, 1]);
    assert_eq!(edit(&mut library, 2, &[recut(41)]), Err(Refusal::WrongState), "8 alone");
    assert_eq!(numbers(&library), [511, 511, 1]);
    assert_eq!(edit(&mut library, 3, &[recut(40)]), Ok(512));
    assert_eq!(edit(&mut library, 2, &[recut(41)]), Err(Refusal::LogFull), "7 and 8");
    assert_eq!(numbers(&library), [511, 511, 512]);
}

#[test]
fn the_number_has_two_bytes() {
    let mut library = filled();
    committed(&mut library, 256);
    assert_eq!(edit(&mut library, 3, &[new(40)]), Err(Refusal::WrongState));
    assert_eq!(numbers(&library), [256, 0, 256]);
}
