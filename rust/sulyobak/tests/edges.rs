//! The edges that document 01 names for test runs, and every refusal of 01, on the real engine.
mod made;

use made::{fresh, new, recut};
use sulyobak::{sizes, Control, Found, Library, Memory, Operation, Read, Refusal, Request};

// Takes a system with its words, does a call that must be refused, and sees that nothing changed. (Refusal 8 is met here before any commit,
// where the session's number stays 0: tests/taken.rs has what it changes later.)
fn refused<T: std::fmt::Debug + PartialEq>(library: &mut Library, refusal: Refusal, call: impl FnOnce(&mut Library) -> Result<T, Refusal>) {
    let before = library.clone();
    assert_eq!(call(library), Err(refusal));
    assert_eq!(*library, before, "a refused call changes nothing");
}

#[test]
fn the_window_of_32() {
    let mut library = fresh();
    assert_eq!(library.commit(1, &[new(1)]), Ok(1));
    for number in 2..=33 {
        assert_eq!(library.commit(1, &[recut(1)]), Ok(number));
    }
    for number in 1..=32 {
        assert_eq!(library.send(1), Ok(number));
    }
    refused(&mut library, Refusal::WindowFull, |library| library.send(1));
    assert_eq!(library.refresh(1), Ok(1));
    assert_eq!(library.send(1), Ok(33));
    refused(&mut library, Refusal::AllSent, |library| library.send(1));
    for number in 2..=33 {
        assert_eq!(library.refresh(1), Ok(number));
    }
    refused(&mut library, Refusal::AllApplied, |library| library.refresh(1));
    assert_eq!(library.control().applied, [33, 0, 0, 0]);
}

#[test]
fn the_log_of_512_records() {
    let mut library = fresh();
    let news: Vec<Operation> = (1..=8).map(new).collect();
    let recuts: Vec<Operation> = (1..=8).map(recut).collect();
    assert_eq!(library.commit(1, &news), Ok(1));
    for number in 2..=64 {
        assert_eq!(library.commit(1, &recuts), Ok(number));
    }
    assert_eq!(library.control().used, 512);
    refused(&mut library, Refusal::LogFull, |library| library.commit(1, &[recut(1)]));
}

#[test]
fn output_of_2559_and_2560_bytes() {
    let mut library = fresh();
    let request = Request::carts(&[7; 32]).expect("32 numbers").to_bytes();
    refused(&mut library, Refusal::Output, |library| library.memory().read_into(1, &request, &mut [9; 2559]));
    let mut output = [9; 2561];
    assert_eq!(library.memory().read_into(1, &request, &mut output[..2560]), Ok(Found::Answered { state: 0, found: 0 }));
    assert!(output[..2560].iter().all(|byte| *byte == 0));
    assert_eq!(output[2560], 9);

    // The same for a collect; a wait leaves output alone.
    library.commit(1, &[new(7)]).expect("commit");
    let mut output = [9; 2560];
    assert_eq!(library.memory().read_into(1, &request, &mut output), Ok(Found::Waits { number: 1 }));
    assert_eq!(output, [9; 2560]);
    library.send(1).expect("send");
    library.refresh(1).expect("refresh");
    refused(&mut library, Refusal::Output, |library| library.memory().collect_into(1, &mut output[..2559]));
    assert_eq!(output, [9; 2560]);
    let Ok(Read::Answered { state: 1, found: 32, carts }) = library.collect(1) else { panic!("not answered") };
    assert!(carts.len() == 32 && carts.iter().all(Option::is_some));
    refused(&mut library, Refusal::NothingWaiting, |library| library.collect(1));
}

#[test]
fn a_waiting_read_is_collected_when_the_copy_has_caught_up_and_not_before() {
    let mut library = fresh();
    library.commit(2, &[new(1)]).expect("commit");
    library.commit(1, &[recut(1)]).expect("commit");
    assert_eq!(library.read(1, &Request::cart(1)), Ok(Read::Waits { number: 2 }));
    library.send(1).expect("send");
    library.refresh(1).expect("refresh");
    assert_eq!(library.collect(1), Ok(Read::Waits { number: 2 }));
    library.send(1).expect("send");
    library.refresh(1).expect("refresh");
    let Ok(Read::Answered { state: 2, found: 1, carts }) = library.collect(1) else { panic!("not answered") };
    assert_eq!(carts[0].map(|cart| cart.audio), Some(502));
}

#[test]
fn every_other_refusal() {
    let mut library = fresh();
    for session in [0, 4, 16, 17, u32::MAX] {
        refused(&mut library, Refusal::Nobody, |library| library.commit(session, &[new(1)]));
        refused(&mut library, Refusal::Nobody, |library| library.read(session, &Request::cart(1)));
        refused(&mut library, Refusal::Nobody, |library| library.collect(session));
    }
    for studio in [0, 3, u32::MAX] {
        refused(&mut library, Refusal::Nobody, |library| library.send(studio));
        refused(&mut library, Refusal::Nobody, |library| library.refresh(studio));
    }
    refused(&mut library, Refusal::Size, |library| library.commit(1, &[]));
    refused(&mut library, Refusal::Size, |library| library.commit(1, &[new(1); 9]));
    refused(&mut library, Refusal::Size, |library| library.memory().commit_bytes(1, &[0; 81]));
    refused(&mut library, Refusal::Operation, |library| library.commit(1, &[new(0)]));
    refused(&mut library, Refusal::Operation, |library| library.commit(1, &[new(129)]));
    refused(&mut library, Refusal::Operation, |library| library.commit(1, &[new(1), recut(300)]));
    refused(&mut library, Refusal::WrongState, |library| library.commit(1, &[recut(1)]));
    refused(&mut library, Refusal::Request, |library| library.read(1, &Request::cart(129)));
    refused(&mut library, Refusal::Request, |library| library.memory().read_into(1, &[0; 80], &mut [0; 80]));
    refused(&mut library, Refusal::Request, |library| library.memory().read_into(1, &[], &mut [0; 80]));

    assert_eq!(Library::new(0, &[]).err(), Some(Refusal::Studios));
    assert_eq!(Library::new(5, &[]).err(), Some(Refusal::Studios));
    assert_eq!(Library::new(2, &[3]).err(), Some(Refusal::Studios));
    assert_eq!(Library::new(2, &[1; 17]).err(), Some(Refusal::Studios));
}

#[test]
fn memory_of_another_length_or_layout() {
    let mut parts = fresh().into_parts();
    parts.log = vec![0; sizes::LOG + 1].into_boxed_slice();
    assert_eq!(Library::from_parts(parts.clone()).err(), Some(Refusal::Lengths));

    let mut control = parts.control;
    let mut short = Memory { library: &mut [], log: &mut [], sessions: &mut [], control: &mut control };
    assert_eq!(short.check(), Err(Refusal::Lengths));
    assert_eq!(short.send(1), Err(Refusal::Lengths));
    assert_eq!(short.read(1, &Request::cart(1)), Err(Refusal::Lengths));
    assert_eq!(short.collect(1), Err(Refusal::Lengths));
    assert_eq!(*short.control, parts.control, "control comes back unchanged");
    assert_eq!(short.setup(2, &[1; 16]), Err(Refusal::Lengths));
    assert_eq!(control, parts.control, "a refused setup leaves control alone");

    let mut parts = fresh().into_parts();
    parts.control.applied[0] = 1;
    assert_eq!(Library::from_parts(parts).err(), Some(Refusal::Layout));
    let mut parts = fresh().into_parts();
    parts.control.used = u32::MAX;
    assert_eq!(Library::from_parts(parts).err(), Some(Refusal::Layout));
    let mut parts = fresh().into_parts();
    parts.sessions[sizes::SESSIONS - 1] = 1;
    assert_eq!(Library::from_parts(parts).err(), Some(Refusal::Layout));
}

#[test]
fn a_refused_setup_leaves_a_live_library_alone() {
    let mut library = fresh();
    library.commit(1, &[new(7)]).expect("commit");
    refused(&mut library, Refusal::Studios, |library| library.memory().setup(5, &[1; 16]));
    refused(&mut library, Refusal::Studios, |library| library.memory().setup(2, &[1; 15]));
    refused(&mut library, Refusal::Studios, |library| library.memory().setup(2, &[3; 16]));
    assert_eq!(library.commit(1, &[recut(7)]), Ok(2));
    assert_eq!(library.memory().setup(2, &[1; 16]), Ok(()));
    assert_eq!(library.control().commits, 0);
}

#[test]
fn memory_is_shown_by_its_lengths() {
    let mut library = fresh();
    let shown = format!("{:?}", library.memory());
    assert!(shown.starts_with("Memory { library: 61440 bytes, log: 40960 bytes, sessions: 1280 bytes, control: Control { studios: 2,"));
    assert!(shown.len() < 400, "{shown}");
    assert!(format!("{library:?}").starts_with("Library { library: 61440 bytes"));
    assert!(format!("{:?}", library.into_parts()).starts_with("Parts { library: 61440 bytes"));
}

#[test]
fn two_sessions_in_one_chair() {
    let mut library = fresh();
    library.commit(1, &[new(7)]).expect("commit");
    assert_eq!(library.read(1, &Request::cart(7)), Ok(Read::Waits { number: 1 }));
    assert_eq!(library.read(2, &Request::cart(7)), Ok(Read::Answered { state: 0, found: 0, carts: vec![None] }));
}

#[test]
fn each_word_of_control_passes_the_boundary() {
    // A refused call hands control back as it was passed: so every word is seen in its place on both sides.
    let mut words = 1..;
    let mut word = || words.next().unwrap_or_default();
    let passed = Control {
        studios: word(),
        session_studios: std::array::from_fn(|_| word()),
        used: word(),
        commits: word(),
        sent: std::array::from_fn(|_| word()),
        applied: std::array::from_fn(|_| word()),
        retired: word(),
        oldest: word(),
        free_first: word(),
        free_last: word(),
    };
    let mut control = passed;
    let mut memory = Memory { library: &mut [], log: &mut [], sessions: &mut [], control: &mut control };
    assert_eq!(memory.commit(1, &[new(1)]), Err(Refusal::Lengths));
    assert_eq!(memory.read(1, &Request::cart(1)), Err(Refusal::Lengths));
    assert_eq!(control, passed);
    assert_eq!(std::mem::size_of::<Control>(), 124);
}
