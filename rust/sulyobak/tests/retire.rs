//! A log that does not end at 512 (document 02, S-9), on the real engine: a transaction that every studio has applied acts on the sixth copy
//! and its records serve again; refusals 20, 21 and the new 7; and a system with retired transactions is saved, loaded and goes on.
mod made;
mod tried;

use made::{fresh, new, recut};
use sulyobak::{sizes, Control, Library, Memory, Operation, Parts, Received, Refusal, Van};
use tried::{bytes_of, tried};

// Sends the next transaction to a studio and applies it there.
fn catch_up(library: &mut Library, studio: u32) {
    library.send(studio).expect("send");
    library.refresh(studio).expect("refresh");
}

// Two studios that have applied every commit.
fn level(operations: &[&[Operation]]) -> Library {
    let mut library = fresh();
    for (number, operations) in (1..).zip(operations) {
        assert_eq!(library.commit(1, operations), Ok(number));
        (1..=2).for_each(|studio| catch_up(&mut library, studio));
    }
    library
}

fn retire(library: &mut Library) -> Result<u32, Refusal> {
    let before = library.clone();
    let answer = library.retire();
    if answer.is_err() {
        assert_eq!(*library, before, "a refused retire changes nothing");
    }
    answer
}

fn memory(parts: &mut Parts) -> Memory<'_> {
    Memory { library: &mut parts.library, log: &mut parts.log, sessions: &mut parts.sessions, control: &mut parts.control }
}

fn sixth(library: &mut Library) -> &[u8] {
    &library.memory().library[5 * sizes::COPY..]
}

// What control says of the log: used, commits, retired, oldest, first and last free record.
fn log_of(library: &Library) -> [u32; 6] {
    let Control { used, commits, retired, oldest, free_first, free_last, .. } = *library.control();
    [used, commits, retired, oldest, free_first, free_last]
}

// The links of a record: next operation or next free record, and next transaction.
fn links(library: &mut Library, record: usize) -> [u16; 2] {
    let unit = &library.memory().log[sizes::CART * (record - 1)..][..sizes::CART];
    [12, 14].map(|at| u16::from_le_bytes([unit[at], unit[at + 1]]))
}

#[test]
fn the_oldest_is_retired_once_every_studio_has_applied_it() {
    let mut library = fresh();
    assert_eq!(retire(&mut library), Err(Refusal::NotRetirable), "the log has none");
    assert_eq!(log_of(&library), [0, 0, 0, 0, 1, 512]);
    assert_eq!(library.commit(1, &[new(7), new(8)]), Ok(1));
    assert_eq!(library.commit(3, &[recut(7)]), Ok(2));
    assert_eq!(retire(&mut library), Err(Refusal::NotRetirable), "no studio has applied it");
    catch_up(&mut library, 1);
    catch_up(&mut library, 1);
    library.send(2).expect("send");
    assert_eq!(retire(&mut library), Err(Refusal::NotRetirable), "studio 2 was sent it, and has not applied it");
    library.refresh(2).expect("refresh");

    let before = library.clone().into_parts();
    assert_eq!(retire(&mut library), Ok(1));
    let after = library.clone().into_parts();
    assert_eq!((&after.library[..5 * sizes::COPY], &after.sessions), (&before.library[..5 * sizes::COPY], &before.sessions));
    assert_eq!(after.library[5 * sizes::COPY..], before.library[2 * sizes::COPY..][..sizes::COPY], "studio 2's copy is L(1) too");
    assert_eq!(log_of(&library), [1, 2, 1, 3, 4, 2]);
    assert_eq!(retire(&mut library), Err(Refusal::NotRetirable), "studio 2 still needs transaction 2");
    catch_up(&mut library, 2);
    assert_eq!(retire(&mut library), Ok(2), "the count retired, not one");
    assert_eq!((log_of(&library), retire(&mut library)), ([0, 2, 2, 0, 4, 3], Err(Refusal::NotRetirable)));
}

#[test]
fn retired_records_are_cleared_and_serve_again_in_their_order() {
    let mut library = level(&[&[new(7), new(8), recut(8)], &[recut(7)]]);
    assert_eq!(retire(&mut library), Ok(1));
    let log = library.memory().log.to_vec();
    for (record, next) in [(1, [2, 0]), (2, [3, 0]), (3, [0, 0]), (512, [1, 0])] {
        assert_eq!(links(&mut library, record), next, "record {record}");
        let unit = &log[sizes::CART * (record - 1)..][..sizes::CART];
        assert!(unit[..12].iter().chain(&unit[14..]).all(|byte| *byte == 0), "record {record}");
    }
    // All that are free but the first of the retired ones, then a transaction over the end of the log and its beginning.
    for _ in 0..63 {
        library.commit(1, &[recut(7); 8]).expect("commit");
    }
    assert_eq!((log_of(&library), library.control().free_first), ([505, 65, 1, 4, 509, 3], 509));
    assert_eq!(library.commit(1, &[recut(8); 6]), Ok(66));
    assert_eq!(log_of(&library), [511, 66, 1, 4, 3, 3]);
    let chain = [(511, [512, 0]), (512, [1, 0]), (1, [2, 0]), (2, [0, 0])];
    chain.into_iter().for_each(|(record, next)| assert_eq!(links(&mut library, record), next, "record {record}"));
    assert_eq!(library.commit(1, &[recut(7)]), Ok(67));
    assert_eq!((log_of(&library), library.memory().load()), ([512, 67, 1, 4, 0, 0], Ok(67)));
}

// Retires everything; a van that receives each message before its retirement has the sixth copy.
fn retire_all(library: &mut Library, van: &mut Van) {
    for number in library.control().retired + 1..=library.control().commits {
        let message = library.van_write(number).expect("not retired yet");
        van.receive(message.as_bytes()).expect("the next message");
        assert_eq!(retire(library), Ok(number));
        assert_eq!(sixth(library), van.copy(), "the sixth copy is L({number})");
    }
}

#[test]
fn two_thousand_transactions_go_through_512_records() {
    let mut library = level(&[&[new(7)]]);
    let mut van = Van::new();
    for number in 2..=2_000 {
        let operations = [Operation::Recut { cart: 7, audio: number, milliseconds: 1 }; 8];
        assert_eq!(library.commit(1 + number % 3, &operations[..1 + number as usize % 8]), Ok(number));
        (1..=2).for_each(|studio| catch_up(&mut library, studio));
        if number % 90 == 0 {
            retire_all(&mut library, &mut van);
            assert_eq!(library.memory().load(), Ok(number));
        }
    }
    assert_eq!((library.control().commits, library.control().retired), (2_000, 1_980));
    assert_eq!(library.memory().load(), Ok(2_000));
}

#[test]
fn a_full_log_is_told_and_has_room_again() {
    let mut library = level(&[&[new(7)], &[recut(7)]]);
    while library.control().used < 512 {
        library.commit(1, &[recut(7)]).expect("commit");
    }
    assert_eq!(tried(&mut library, 1, &bytes_of(&[recut(7)])), Err(Refusal::LogFull));
    assert_eq!(tried(&mut library, 1, &bytes_of(&[new(7)])), Err(Refusal::LogFull), "7 stands before 8");
    assert_eq!((retire(&mut library), retire(&mut library)), (Ok(1), Ok(2)));
    assert_eq!(tried(&mut library, 1, &bytes_of(&[recut(7); 3])), Err(Refusal::LogFull), "two records are free");
    assert_eq!(tried(&mut library, 1, &bytes_of(&[recut(7); 2])), Ok(513));
    assert_eq!(log_of(&library), [512, 513, 2, 3, 0, 0]);
    catch_up(&mut library, 1);
    catch_up(&mut library, 2);
    assert_eq!((retire(&mut library), log_of(&library)), (Ok(3), [511, 513, 3, 4, 3, 3]), "the only free record is the first and the last");
}

#[test]
fn lengths_and_layout_come_first() {
    let mut parts = fresh().into_parts();
    parts.control.free_last = 511;
    let before = parts.clone();
    assert_eq!(memory(&mut parts).retire(), Err(Refusal::Layout), "2 stands before 20");
    assert_eq!(parts, before);
    parts.library = vec![0; 51_200].into_boxed_slice();
    assert_eq!(memory(&mut parts).retire(), Err(Refusal::Lengths), "library memory of before version 9");
    assert_eq!(parts.control, before.control);
}

#[test]
fn a_retired_transaction_is_not_written_for_a_van() {
    let mut library = level(&[&[new(7)], &[recut(7)], &[new(8), recut(8)]]);
    let early: Vec<_> = (1..=3).map(|number| library.van_write(number).expect("a message")).collect();
    assert_eq!((retire(&mut library), retire(&mut library)), (Ok(1), Ok(2)));
    for number in 1..=2 {
        let mut output = [9; sizes::MESSAGE_MOST];
        assert_eq!(library.van_write_into(number, &mut output), Err(Refusal::Retired));
        assert_eq!(library.van_write_into(number, &mut []), Err(Refusal::Retired), "21 stands before 17");
        assert_eq!(output, [9; sizes::MESSAGE_MOST]);
    }
    for number in [0, 4, 65_537, u32::MAX] {
        assert_eq!(library.van_write(number), Err(Refusal::Message), "{number} is no retired one");
    }
    assert_eq!((library.van_write(3), library.van_write_into(3, &mut [9; 163])), (Ok(early[2].clone()), Err(Refusal::Message)));

    // Messages that were written before their retirement arrive after it.
    let mut van = Van::new();
    for message in early {
        assert_eq!(van.receive(message.as_bytes()), Ok(Received::Applied { number: message.number() }));
    }
    assert_eq!(*van.copy(), library.memory().library[..sizes::COPY]);
}

// A system of which so many transactions more were committed and retired.
fn aged(library: Library, more: u32) -> Library {
    let mut parts = library.into_parts();
    let Control { commits, retired, sent, applied, .. } = &mut parts.control;
    [commits, retired].into_iter().chain(&mut sent[..2]).chain(&mut applied[..2]).for_each(|count| *count += more);
    Library::from_parts(parts).expect("parts of the layout")
}

#[test]
fn commit_numbers_run_to_65_535() {
    let mut library = level(&[&[new(7)], &[recut(7)]]);
    assert_eq!(retire(&mut library), Ok(1));
    let mut library = aged(library, 65_531);
    assert_eq!((library.control().commits, retire(&mut library)), (65_533, Ok(65_533)));
    for number in 65_534..=65_535 {
        assert_eq!(tried(&mut library, 1, &bytes_of(&[recut(7)])), Ok(number));
        (1..=2).for_each(|studio| catch_up(&mut library, studio));
        assert_eq!((retire(&mut library), library.memory().load()), (Ok(number), Ok(number)));
    }
    assert_eq!(tried(&mut library, 1, &bytes_of(&[recut(7)])), Err(Refusal::LogFull), "512 records are free");
    assert_eq!(tried(&mut library, 1, &bytes_of(&[new(7)])), Err(Refusal::LogFull), "7 stands before 8");
    assert_eq!((library.van_write(65_535), library.van_write(65_536)), (Err(Refusal::Retired), Err(Refusal::Message)));
    let mut parts = library.into_parts();
    parts.control.commits += 1;
    assert_eq!(Library::from_parts(parts), Err(Refusal::Layout));
}

#[test]
fn a_saved_system_with_retired_transactions_goes_on() {
    let mut library = level(&[&[new(7)], &[recut(7), new(8)], &[recut(8)]]);
    assert_eq!((retire(&mut library), retire(&mut library)), (Ok(1), Ok(2)));
    let saved = library.into_parts();
    let mut library = Library::load(saved.clone()).expect("a whole save");
    assert_eq!((library.commit(2, &[recut(7)]), retire(&mut library)), (Ok(4), Ok(3)));
    assert_eq!(library.memory().load(), Ok(4));

    let mut torn = saved.clone();
    torn.library[5 * sizes::COPY + sizes::CART * 6 + 4] += 1;
    assert_eq!(Library::load(torn), Err(Refusal::NotWhole), "another audio number in the sixth copy's cart 7");
    let mut torn = saved.clone();
    torn.library[5 * sizes::COPY..].fill(0);
    assert_eq!(Library::load(torn), Err(Refusal::NotWhole), "the sixth copy is empty");
    let (mut early, late) = (level(&[&[new(7)]]).into_parts(), saved.library);
    early.library[5 * sizes::COPY..].copy_from_slice(&late[5 * sizes::COPY..]);
    assert_eq!(Library::load(early), Err(Refusal::Layout), "a sixth copy while nothing is retired");
}
