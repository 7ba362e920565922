//! Forward (document 02, S-4) on the real engine: what a read answers where the session's studio has caught up, else what the head end has.
mod made;

use made::{fresh, new, recut};
use sulyobak::{sizes, Control, ForwardFound, Forwarded, Library, Memory, Operation, Read, Refusal, Request, Title};

// Session 1, in studio 1, makes cart 7 and session 3, in studio 2, re-cuts it; no studio has taken anything yet.
fn behind() -> Library {
    let mut library = fresh();
    assert_eq!(library.commit(1, &[new(7)]), Ok(1));
    assert_eq!(library.commit(3, &[recut(7)]), Ok(2));
    library
}

fn catch_up(library: &mut Library, studio: u32) {
    library.send(studio).expect("send");
    library.refresh(studio).expect("refresh");
}

// A forward, and what it must leave: all as it was, but that this is the session's number, bytes 2 and 3 of its 80.
fn forwarded(library: &mut Library, session: u32, request: &Request, number: u16) -> Forwarded {
    let mut right = library.clone().into_parts();
    let at = sizes::CART * (session as usize - 1) + 2;
    right.sessions[at..at + 2].copy_from_slice(&number.to_le_bytes());
    let answer = library.forward(session, request).expect("answered");
    assert_eq!(library.clone().into_parts(), right, "what a forward of session {session} leaves");
    answer
}

// A forward that must answer what a read answers, and leave what it leaves.
fn as_read(library: &mut Library, session: u32, request: &Request) -> Forwarded {
    let mut reader = library.clone();
    let Ok(Read::Answered { state, found, carts }) = reader.read(session, request) else { panic!("the read is not answered") };
    let answer = library.forward(session, request).expect("answered");
    assert_eq!(answer, Forwarded { state, found, carts });
    assert_eq!(*library, reader, "a forward leaves what a read leaves");
    answer
}

// State, found, and the audio of each cart shown.
fn heard(answer: &Forwarded) -> (u32, u32, Vec<Option<u32>>) {
    (answer.state, answer.found, answer.carts.iter().map(|cart| cart.map(|cart| cart.audio)).collect())
}

fn by_title(text: &str) -> Request {
    Request::Title(Title::new(text).expect("a title"))
}

#[test]
fn shown_by_the_head_end_a_session_then_waits_for_its_studio() {
    let (mut library, seven) = (behind(), Request::cart(7));
    assert_eq!(library.clone().read(1, &seven), Ok(Read::Waits { number: 1 }), "what a read would do");
    assert_eq!(heard(&forwarded(&mut library, 1, &seven, 2)), (2, 1, vec![Some(502)]));
    assert_eq!(library.read(1, &seven), Ok(Read::Waits { number: 2 }), "straight afterwards");
    catch_up(&mut library, 1);
    assert_eq!(library.collect(1), Ok(Read::Waits { number: 2 }), "its own commit is there, the other that it was shown is not");
    catch_up(&mut library, 1);
    let Ok(Read::Answered { state: 2, found: 1, carts }) = library.collect(1) else { panic!("not answered") };
    assert_eq!(carts[0].map(|cart| cart.audio), Some(502));
}

#[test]
fn nobody_goes_back_from_what_the_head_end_has_shown() {
    let (mut library, seven) = (behind(), Request::cart(7));
    forwarded(&mut library, 1, &seven, 2);
    catch_up(&mut library, 1);
    assert_eq!(library.clone().read(1, &seven), Ok(Read::Waits { number: 2 }));
    assert_eq!(library.commit(3, &[Operation::Withdraw { cart: 7 }]), Ok(3));
    assert_eq!(heard(&forwarded(&mut library, 1, &seven, 3)), (3, 0, vec![None]), "the head end again, which has gone on");
    assert_eq!(library.commit(1, &[new(7)]), Ok(4), "a forward leaves nothing waiting");
}

#[test]
fn where_the_studio_has_caught_up_it_is_a_read() {
    let (mut library, seven) = (behind(), Request::cart(7));
    assert_eq!(heard(&as_read(&mut library, 2, &seven)), (0, 0, vec![None]), "session 2 has no number to wait for");
    catch_up(&mut library, 1);
    assert_eq!(heard(&as_read(&mut library, 1, &seven)), (1, 1, vec![Some(501)]), "applied is the number; the head end is further");
    catch_up(&mut library, 1);
    assert_eq!(heard(&as_read(&mut library, 1, &seven)), (2, 1, vec![Some(502)]), "applied is above the number");
    assert_eq!(heard(&as_read(&mut fresh(), 1, &seven)), (0, 0, vec![None]), "before any commit");
}

#[test]
fn the_studio_is_the_session_s_own() {
    let (mut library, seven) = (behind(), Request::cart(7));
    catch_up(&mut library, 1);
    catch_up(&mut library, 1);
    assert_eq!(heard(&forwarded(&mut library, 3, &seven, 2)), (2, 1, vec![Some(502)]), "studio 2 has taken nothing");
    catch_up(&mut library, 2);
    assert_eq!(library.read(3, &seven), Ok(Read::Waits { number: 2 }));
}

#[test]
fn other_sessions_are_not_shown_anything() {
    let (mut library, seven) = (behind(), Request::cart(7));
    forwarded(&mut library, 1, &seven, 2);
    let empty = Read::Answered { state: 0, found: 0, carts: vec![None] };
    assert_eq!(library.read(2, &seven), Ok(empty), "session 2, in the same studio");
}

#[test]
fn titles_at_the_head_end() {
    let mut library = behind();
    let title = by_title("Top hour A");
    assert_eq!(heard(&forwarded(&mut library, 1, &title, 2)), (2, 1, vec![Some(502)]));
    assert_eq!(library.commit(3, &[new(8)]), Ok(3));
    assert_eq!(heard(&forwarded(&mut library, 1, &title, 3)), (3, 2, vec![None]), "two carts have it");
    assert_eq!(heard(&forwarded(&mut library, 1, &by_title("Top hour"), 3)), (3, 0, vec![None]), "the beginning of a title");
    assert_eq!(heard(&as_read(&mut library, 2, &title)), (0, 0, vec![None]));
    for _ in 0..3 {
        catch_up(&mut library, 1);
    }
    assert_eq!(heard(&as_read(&mut library, 1, &title)), (3, 2, vec![None]));
}

#[test]
fn carts_in_the_order_asked_into_lent_output() {
    let mut library = behind();
    let request = Request::carts(&[8, 7, 7]).expect("three numbers");
    assert_eq!(heard(&forwarded(&mut library, 1, &request, 2)), (2, 2, vec![None, Some(502), Some(502)]));
    let mut output = [9; 241];
    let answer = library.memory().forward_into(1, &request.to_bytes(), &mut output);
    assert_eq!(answer, Ok(ForwardFound { state: 2, found: 2 }));
    assert_eq!(output[..80], [0; 80]);
    assert_eq!((output[80], output[84], output[160..240] == output[80..160]), (1, 246, true), "audio 502 is 246 + 256");
    assert_eq!(output[240], 9, "what is after the carts stays");
}

// A forward that must be refused, and change nothing: memory, control or output.
fn refused(library: &mut Library, refusal: Refusal, session: u32, request: &[u8], room: usize) {
    let (before, mut output) = (library.clone(), vec![9; room]);
    assert_eq!(library.memory().forward_into(session, request, &mut output), Err(refusal));
    assert_eq!(*library, before, "a refused forward changes nothing");
    assert!(output.iter().all(|byte| *byte == 9), "a refused forward writes nothing");
}

#[test]
fn every_row_in_its_order() {
    let mut library = behind();
    let seven = Request::cart(7).to_bytes();
    for session in [0, 4, 16, 17, 65_537, u32::MAX] {
        refused(&mut library, Refusal::Nobody, session, &[], 0);
    }
    refused(&mut library, Refusal::Request, 1, &Request::cart(129).to_bytes(), 80);
    refused(&mut library, Refusal::Request, 1, &seven[..79], 80);
    refused(&mut library, Refusal::Request, 1, &[], 0);
    refused(&mut library, Refusal::Output, 1, &seven, 79);
    refused(&mut library, Refusal::Output, 2, &seven, 0);

    assert_eq!(library.read(1, &by_title("Top hour A")), Ok(Read::Waits { number: 1 }));
    for (request, room) in [(&seven[..], 80), (&seven[..], 79), (&[], 0)] {
        refused(&mut library, Refusal::ReadWaiting, 1, request, room);
    }
    catch_up(&mut library, 1);
    refused(&mut library, Refusal::ReadWaiting, 1, &seven, 80);
    let Ok(Read::Answered { state: 1, found: 1, carts }) = library.collect(1) else { panic!("the read is not there any more") };
    assert_eq!(carts[0].map(|cart| cart.number), Some(7), "what the waiting read asked for");
}

#[test]
fn output_of_2559_and_2560_bytes() {
    let mut library = behind();
    let request = Request::carts(&[7; 32]).expect("32 numbers").to_bytes();
    for session in [1, 2] {
        refused(&mut library, Refusal::Output, session, &request, 2_559);
    }
    let mut output = [9; 2_560];
    assert_eq!(library.memory().forward_into(2, &request, &mut output), Ok(ForwardFound { state: 0, found: 0 }));
    assert_eq!(output, [0; 2_560]);
    assert_eq!(library.memory().forward_into(1, &request, &mut output), Ok(ForwardFound { state: 2, found: 32 }));
    assert!(output.chunks_exact(80).all(|cart| cart[..4] == [1, 10, 7, 0]));
}

#[test]
fn memory_of_another_length_or_layout() {
    let mut control = Control::default();
    let mut memory = Memory { library: &mut [], log: &mut [], sessions: &mut [], control: &mut control };
    assert_eq!(memory.forward(1, &Request::cart(7)), Err(Refusal::Lengths));

    let mut parts = behind().into_parts();
    parts.sessions[sizes::SESSIONS - 1] = 1;
    let before = parts.clone();
    let mut memory =
        Memory { library: &mut parts.library, log: &mut parts.log, sessions: &mut parts.sessions, control: &mut parts.control };
    assert_eq!(memory.forward(1, &Request::cart(7)), Err(Refusal::Layout));
    assert_eq!(parts, before);
}

#[test]
fn after_a_refusal_8_the_head_end_answers() {
    let mut library = behind();
    assert_eq!(library.commit(2, &[new(7)]), Err(Refusal::WrongState));
    assert_eq!(heard(&forwarded(&mut library, 2, &Request::cart(7), 2)), (2, 1, vec![Some(502)]));
}

#[test]
fn the_number_has_two_bytes_and_reaches_512() {
    let (mut library, seven) = (behind(), Request::cart(7));
    for number in 3..=256 {
        assert_eq!(library.commit(3, &[recut(7)]), Ok(number));
    }
    assert_eq!(forwarded(&mut library, 1, &seven, 256).state, 256);
    for number in 257..=512 {
        assert_eq!(library.commit(3, &[recut(7)]), Ok(number));
    }
    assert_eq!(forwarded(&mut library, 3, &seven, 512).state, 512, "the number is commits already");
    assert_eq!(forwarded(&mut library, 1, &seven, 512).state, 512);
    for _ in 0..511 {
        catch_up(&mut library, 1);
    }
    assert_eq!(forwarded(&mut library, 1, &seven, 512).state, 512, "one behind");
    assert_eq!(library.clone().read(1, &seven), Ok(Read::Waits { number: 512 }));
    catch_up(&mut library, 1);
    assert_eq!(as_read(&mut library, 1, &seven).state, 512);
}

#[test]
fn the_head_end_s_copy_as_its_bytes_stand() {
    // Cart 7 of copy 0 with other audio than the log makes: still of the layout.
    let mut parts = behind().into_parts();
    parts.library[80 * 6 + 4] = 99;
    let mut library = Library::from_parts(parts).expect("memory of the layout");
    assert_eq!(heard(&forwarded(&mut library, 1, &Request::cart(7), 2)), (2, 1, vec![Some(256 + 99)]));
    assert_eq!(heard(&forwarded(&mut library, 1, &by_title("Top hour A"), 2)), (2, 1, vec![Some(256 + 99)]));
    catch_up(&mut library, 1);
    catch_up(&mut library, 1);
    assert_eq!(heard(&as_read(&mut library, 1, &Request::cart(7))), (2, 1, vec![Some(502)]), "the studio's copy, by the log");
}
