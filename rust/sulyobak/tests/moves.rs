//! A session that moves to another studio (document 02, S-7), on the real engine: what a move leaves, and that nobody is shown a copy from
//! before what a read has shown them.
mod made;

use made::{fresh, new, recut};
use sulyobak::{sizes, Control, Library, Memory, Operation, Read, Refusal, Request};

// Session 1 makes cart 7 and re-cuts it. Studio 1 has both commits, studio 2 the first.
fn walls() -> Library {
    let mut library = fresh();
    assert_eq!(library.commit(1, &[new(7)]), Ok(1));
    assert_eq!(library.commit(1, &[recut(7)]), Ok(2));
    catch_up(&mut library, 1);
    catch_up(&mut library, 1);
    catch_up(&mut library, 2);
    library
}

fn catch_up(library: &mut Library, studio: u32) {
    library.send(studio).expect("send");
    library.refresh(studio).expect("refresh");
}

// A move, and what it must answer and leave: all as it was, but the session's studio in control.
fn moved(library: &mut Library, session: u32, studio: u32) {
    let mut right = library.clone().into_parts();
    right.control.session_studios[session as usize - 1] = studio;
    assert_eq!(library.move_session(session, studio), Ok(studio));
    assert_eq!(library.clone().into_parts(), right, "what a move of session {session} to studio {studio} leaves");
}

// A call, and what it must leave: all as it was, but that this is the session's number, bytes 2 and 3 of its 80.
fn raises<T>(library: &mut Library, session: u32, number: u16, call: impl FnOnce(&mut Library) -> T) -> T {
    let mut right = library.clone().into_parts();
    let at = sizes::CART * (session as usize - 1) + 2;
    right.sessions[at..at + 2].copy_from_slice(&number.to_le_bytes());
    let answer = call(library);
    assert_eq!(library.clone().into_parts(), right, "what the call of session {session} leaves");
    answer
}

// State and audio of an answered read of one cart.
fn heard(read: Result<Read, Refusal>) -> (u32, Option<u32>) {
    let Ok(Read::Answered { state, carts, .. }) = read else { panic!("not answered: {read:?}") };
    (state, carts[0].map(|cart| cart.audio))
}

fn seven() -> Request {
    Request::cart(7)
}

#[test]
fn nobody_walks_back_in_time() {
    let mut library = walls();
    assert_eq!(heard(raises(&mut library, 2, 2, |library| library.read(2, &seven()))), (2, Some(502)), "in studio 1");
    moved(&mut library, 2, 2);
    assert_eq!(library.read(2, &seven()), Ok(Read::Waits { number: 2 }), "studio 2 has the old cut");
    assert_eq!(library.move_session(2, 1), Err(Refusal::ReadWaiting), "the read waits in studio 2");
    catch_up(&mut library, 2);
    assert_eq!(heard(library.collect(2)), (2, Some(502)));
    moved(&mut library, 2, 1);
    assert_eq!(heard(library.read(2, &seven())), (2, Some(502)));
}

#[test]
fn a_session_that_was_shown_nothing_does_not_wait() {
    let mut library = walls();
    moved(&mut library, 2, 2);
    assert_eq!(heard(raises(&mut library, 2, 1, |library| library.read(2, &seven()))), (1, Some(501)));
    moved(&mut library, 2, 1);
    assert_eq!(heard(raises(&mut library, 2, 2, |library| library.read(2, &seven()))), (2, Some(502)));
}

#[test]
fn a_forward_at_the_new_studio_is_answered_by_the_head_end() {
    let mut library = walls();
    assert_eq!(library.commit(3, &[Operation::Withdraw { cart: 7 }]), Ok(3));
    assert_eq!(heard(library.read(2, &seven())), (2, Some(502)));
    moved(&mut library, 2, 2);
    let shown = raises(&mut library, 2, 3, |library| library.forward(2, &seven())).expect("answered");
    assert_eq!((shown.state, shown.found), (3, 0), "the head end's copy");
    moved(&mut library, 2, 1);
    assert_eq!(library.read(2, &seven()), Ok(Read::Waits { number: 3 }));
}

#[test]
fn a_forward_that_the_studio_answers_raises_as_a_read() {
    let mut library = walls();
    let shown = raises(&mut library, 2, 2, |library| library.forward(2, &seven())).expect("answered");
    assert_eq!((shown.state, shown.found), (2, 1));
    moved(&mut library, 2, 2);
    assert_eq!(library.read(2, &seven()), Ok(Read::Waits { number: 2 }));
}

#[test]
fn a_collect_raises_to_what_it_shows_and_not_to_what_was_sent() {
    let mut library = fresh();
    assert_eq!(library.commit(1, &[new(7)]), Ok(1));
    assert_eq!(library.read(1, &seven()), Ok(Read::Waits { number: 1 }));
    for number in 2..=4 {
        assert_eq!(library.commit(3, &[recut(7)]), Ok(number));
    }
    for _ in 0..3 {
        catch_up(&mut library, 1);
    }
    library.send(1).expect("send");
    assert_eq!(heard(library.collect(1)), (3, Some(502)));
    let sessions = library.clone().into_parts().sessions;
    assert_eq!(sessions[..sizes::CART], [&[0, 0, 3][..], &[0; 77]].concat(), "the request is gone, the number is 3");
}

#[test]
fn waits_and_refusals_raise_nothing() {
    let mut library = walls();
    let before = library.clone();
    assert_eq!(library.read(2, &Request::cart(129)), Err(Refusal::Request));
    assert_eq!(library.memory().read_into(2, &seven().to_bytes(), &mut [0; 79]), Err(Refusal::Output));
    assert_eq!(library.collect(2), Err(Refusal::NothingWaiting));
    assert_eq!(library, before);
    assert_eq!(library.commit(3, &[recut(7)]), Ok(3));
    assert_eq!(library.read(3, &seven()), Ok(Read::Waits { number: 3 }));
    catch_up(&mut library, 2);
    assert_eq!(library.collect(3), Ok(Read::Waits { number: 3 }));
    assert_eq!(library.clone().into_parts().sessions[2 * sizes::CART + 2], 3, "the number of its commit");
}

#[test]
fn to_the_studio_where_the_session_is() {
    let mut library = walls();
    for (session, studio) in [(1, 1), (2, 1), (3, 2)] {
        let before = library.clone();
        moved(&mut library, session, studio);
        assert_eq!(library, before, "nothing changes");
    }
}

#[test]
fn a_commit_after_the_move_is_waited_for_at_the_new_studio() {
    let mut library = walls();
    moved(&mut library, 1, 2);
    assert_eq!(library.commit(1, &[Operation::Withdraw { cart: 7 }]), Ok(3));
    catch_up(&mut library, 1);
    assert_eq!(library.read(1, &seven()), Ok(Read::Waits { number: 3 }), "studio 1 has it, studio 2 has not");
    catch_up(&mut library, 2);
    catch_up(&mut library, 2);
    assert_eq!(heard(library.collect(1)), (3, None));
}

// A move that must be refused, and change nothing.
fn refused(library: &mut Library, refusal: Refusal, session: u32, studio: u32) {
    let before = library.clone();
    assert_eq!(library.move_session(session, studio), Err(refusal), "session {session} to studio {studio}");
    assert_eq!(*library, before, "a refused move changes nothing");
}

#[test]
fn every_row_in_its_order() {
    let mut library = walls();
    for session in [0, 4, 16, 17, 65_537, u32::MAX] {
        for studio in [0, 1, 3] {
            refused(&mut library, Refusal::Nobody, session, studio);
        }
    }
    for studio in [0, 3, 4, 5, 65_537, u32::MAX] {
        refused(&mut library, Refusal::Nobody, 2, studio);
    }
    assert_eq!(library.commit(2, &[recut(7)]), Ok(3));
    assert_eq!(library.read(2, &seven()), Ok(Read::Waits { number: 3 }));
    for studio in [1, 2] {
        refused(&mut library, Refusal::ReadWaiting, 2, studio);
    }
    for studio in [0, 3, u32::MAX] {
        refused(&mut library, Refusal::Nobody, 2, studio);
    }
    catch_up(&mut library, 1);
    refused(&mut library, Refusal::ReadWaiting, 2, 2);
    moved(&mut library, 1, 2);
}

#[test]
fn all_sixteen_sessions_among_four_studios() {
    let mut library = Library::new(4, &[1; 16]).expect("setup");
    for session in 1..=16 {
        for studio in [2, 4, 3, 1, 4] {
            moved(&mut library, session, studio);
        }
        refused(&mut library, Refusal::Nobody, session, 5);
    }
    assert_eq!(library.control().session_studios, [4; 16]);
}

#[test]
fn memory_of_another_length_or_layout() {
    let mut control = Control::default();
    let mut memory = Memory { library: &mut [], log: &mut [], sessions: &mut [], control: &mut control };
    assert_eq!(memory.move_session(1, 1), Err(Refusal::Lengths));

    let mut parts = walls().into_parts();
    parts.control.session_studios[15] = 3;
    let before = parts.clone();
    let mut memory =
        Memory { library: &mut parts.library, log: &mut parts.log, sessions: &mut parts.sessions, control: &mut parts.control };
    assert_eq!(memory.move_session(1, 2), Err(Refusal::Layout));
    assert_eq!(memory.move_session(0, 0), Err(Refusal::Layout));
    assert_eq!(parts, before);
}

#[test]
fn the_number_has_two_bytes_and_reaches_512() {
    let mut library = fresh();
    assert_eq!(library.commit(1, &[new(7)]), Ok(1));
    for number in 2..=512 {
        assert_eq!(library.commit(1, &[recut(7)]), Ok(number));
    }
    for state in 1..=512 {
        catch_up(&mut library, 1);
        if [255, 256, 512].contains(&state) {
            let shown = raises(&mut library, 2, state, |library| library.read(2, &seven()));
            assert_eq!(heard(shown).0, u32::from(state));
        }
    }
    moved(&mut library, 2, 2);
    assert_eq!(library.read(2, &seven()), Ok(Read::Waits { number: 512 }));
}

#[test]
fn without_moves_every_answer_is_as_before() {
    // Beside each call of session 2 stands the same on memory in which its number was put back to 0: the old rule.
    let mut library = walls();
    let mut old = library.clone();
    for _ in 0..3 {
        assert_eq!(library.commit(3, &[recut(7)]).is_ok(), old.commit(3, &[recut(7)]).is_ok());
        assert_eq!(library.read(2, &seven()), old.read(2, &seven()));
        assert_eq!(library.forward(2, &seven()), old.forward(2, &seven()));
        catch_up(&mut library, 1);
        catch_up(&mut old, 1);
        let mut parts = old.into_parts();
        parts.sessions[sizes::CART + 2..sizes::CART + 4].fill(0);
        old = Library::from_parts(parts).expect("memory of the layout");
    }
}
