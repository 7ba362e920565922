//! A preview answers what the commit answers, and changes nothing (document 02, S-1), on the real engine.
mod made;
mod tried;

use made::{fresh, new, recut};
use sulyobak::{sizes, Control, Memory, Operation, Read, Refusal, Request};
use tried::{bytes_of, tried};

#[test]
fn who_previews() {
    let mut library = fresh();
    for session in [0, 4, 16, 17, 65_537, u32::MAX] {
        assert_eq!(tried(&mut library, session, &new(1).to_bytes()), Err(Refusal::Nobody), "session {session}");
    }
    assert_eq!(tried(&mut library, 1, &new(1).to_bytes()), Ok(1));
    assert_eq!(tried(&mut library, 3, &new(2).to_bytes()), Ok(2));
    library.read(1, &Request::cart(1)).expect("read");
    assert_eq!(tried(&mut library, 1, &new(3).to_bytes()), Err(Refusal::ReadWaiting));
    assert_eq!(tried(&mut library, 2, &new(3).to_bytes()), Ok(3), "another session's read is of no matter");
}

#[test]
fn sizes_and_forms() {
    let mut library = fresh();
    let carts: Vec<Operation> = (1..=9).map(new).collect();
    let bytes = bytes_of(&carts);
    for size in [0, 1, 79, 81, 159, 639, 641, 720] {
        assert_eq!(tried(&mut library, 1, &bytes[..size]), Err(Refusal::Size), "{size} bytes");
    }
    for cart in [0, 129, 300] {
        assert_eq!(tried(&mut library, 1, &bytes_of(&[new(1), recut(cart)])), Err(Refusal::Operation), "cart {cart}");
    }
    assert_eq!(library.preview(1, &carts[..8]), Ok(1));
    assert_eq!(tried(&mut library, 1, &bytes[..640]), Ok(1));
    assert_eq!(tried(&mut library, 1, &bytes[640..]), Ok(2));
}

#[test]
fn each_operation_meets_what_the_ones_before_it_leave() {
    let mut library = fresh();
    let withdraw = Operation::Withdraw { cart: 7 };
    let edits: [(&[Operation], _); 6] = [
        (&[recut(7)], Err(Refusal::WrongState)),
        (&[new(7), new(7)], Err(Refusal::WrongState)),
        (&[new(7), recut(7), withdraw, new(7)], Ok(1)),
        (&[new(7)], Err(Refusal::WrongState)),
        (&[withdraw, recut(7)], Err(Refusal::WrongState)),
        (&[withdraw, new(7)], Ok(2)),
    ];
    for (operations, answer) in edits {
        assert_eq!(library.preview(2, operations), answer, "{operations:?}");
        assert_eq!(tried(&mut library, 2, &bytes_of(operations)), answer, "{operations:?}");
    }
}

#[test]
fn the_log_of_512_records() {
    let mut library = fresh();
    let eight = bytes_of(&[recut(1); 8]);
    assert_eq!(tried(&mut library, 1, &bytes_of(&[new(1), recut(1)])), Ok(1));
    for number in 2..=64 {
        assert_eq!(tried(&mut library, 1, &eight), Ok(number));
    }
    assert_eq!(library.control().used, 506);
    assert_eq!(tried(&mut library, 1, &eight[..560]), Err(Refusal::LogFull), "513 records");
    assert_eq!(tried(&mut library, 1, &eight[..480]), Ok(65), "512 records");
    assert_eq!(tried(&mut library, 1, &eight[..80]), Err(Refusal::LogFull));
    assert_eq!(tried(&mut library, 1, &new(1).to_bytes()), Err(Refusal::LogFull), "the log comes before the cart's state");
}

#[test]
fn memory_of_another_length_or_layout() {
    let mut control = Control::default();
    let memory = Memory { library: &mut [], log: &mut [], sessions: &mut [], control: &mut control };
    assert_eq!(memory.preview(1, &[new(1)]), Err(Refusal::Lengths));

    let mut parts = fresh().into_parts();
    parts.sessions[sizes::SESSIONS - 1] = 1;
    let before = parts.clone();
    let memory = Memory { library: &mut parts.library, log: &mut parts.log, sessions: &mut parts.sessions, control: &mut parts.control };
    assert_eq!(memory.preview(1, &[new(1)]), Err(Refusal::Layout));
    assert_eq!(parts, before);
}

#[test]
fn reads_wait_for_commits_and_not_for_previews() {
    let mut library = fresh();
    assert_eq!(library.preview(1, &[new(7)]), Ok(1));
    let answered = library.read(1, &Request::cart(7));
    assert_eq!(answered, Ok(Read::Answered { state: 0, found: 0, carts: vec![None] }));
}
