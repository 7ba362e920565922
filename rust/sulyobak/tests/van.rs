//! The van (document 02, S-6) on the real engine: the message of each transaction, and a copy that is kept by messages alone, whichever of
//! them are lost, repeated or out of order.
mod made;

use made::{fresh, new, recut};
use sulyobak::{sizes, Control, Library, Memory, Operation, Received, Refusal, Title, Van};

const WITHDRAW: Operation = Operation::Withdraw { cart: 1 };

fn retitle(cart: u16, text: &str) -> Operation {
    Operation::Retitle { cart, title: Title::new(text).expect("a title") }
}

// Five edits of 1 to 8 operations; each leaves other carts than those before it.
fn edits() -> [Vec<Operation>; 5] {
    [(1..=8).map(new).collect(), vec![recut(3)], vec![WITHDRAW, recut(4)], vec![new(1)], vec![retitle(1, "Top hour B"), recut(1), new(128)]]
}

// A library with these edits, and the head end's copy after each number of commits.
fn morning() -> (Library, Vec<Vec<u8>>) {
    let mut library = fresh();
    let mut copies = vec![head_end(&library)];
    for operations in edits() {
        library.commit(1, &operations).expect("commit");
        copies.push(head_end(&library));
    }
    (library, copies)
}

fn head_end(library: &Library) -> Vec<u8> {
    library.clone().into_parts().library[..sizes::COPY].to_vec()
}

// A message by hand: number, count, a zero byte, the operations as handed to commit.
fn message(number: u16, operations: &[Operation]) -> Vec<u8> {
    let head = [number.to_le_bytes(), [operations.len() as u8, 0]].concat();
    head.into_iter().chain(operations.iter().flat_map(Operation::to_bytes)).collect()
}

// A van that has applied so many, with this copy.
fn van(copy: &[u8], applied: u32) -> Van {
    Van::from_parts(copy.into(), applied).expect("a copy of the layout")
}

// A message that must be refused, and change nothing.
fn refused(van: &mut Van, refusal: Refusal, message: &[u8]) {
    let before = van.clone();
    assert_eq!(van.receive(message), Err(refusal));
    assert_eq!(*van, before, "a refused message changes nothing");
}

// Whether 1, 2, .., n can be picked from the list in its order.
fn can_be_picked(n: u32, list: &[u32]) -> bool {
    let mut rest = list.iter();
    (1..=n).all(|number| rest.any(|sent| *sent == number))
}

// Delivers messages with these numbers to a fresh van. After each of them the van has applied the longest run that can be picked from the
// list so far, and its copy is what the head end's was after so many commits.
fn delivered(library: &Library, copies: &[Vec<u8>], list: &[u32]) -> Van {
    let mut van = Van::new();
    for (at, &number) in list.iter().enumerate() {
        let (before, so_far) = (van.applied(), &list[..=at]);
        let answer = van.receive(library.van_write(number).expect("a message").as_bytes());
        let expected = match number {
            _ if number <= before => Ok(Received::Held { number }),
            _ if number == before + 1 => Ok(Received::Applied { number }),
            _ => Err(Refusal::MessageAhead),
        };
        assert_eq!(answer, expected, "message {number} after {before}");
        assert!(can_be_picked(van.applied(), so_far) && !can_be_picked(van.applied() + 1, so_far), "{so_far:?}");
        assert_eq!(van.copy(), copies[van.applied() as usize], "{so_far:?}");
    }
    van
}

#[test]
fn a_lost_repeated_and_reordered_list_ends_level() {
    let (library, copies) = morning();
    let list = [3, 1, 1, 5, 3, 2, 1, 4, 3, 3, 2, 5, 4, 5, 1];
    let level = delivered(&library, &copies, &list);
    assert_eq!(level.applied(), library.control().commits);
    assert_eq!(level.copy(), head_end(&library));
    assert_eq!(delivered(&library, &copies, &[1, 2, 4, 5, 4, 5]).applied(), 2, "the third is lost");
    assert_eq!(delivered(&library, &copies, &[5, 4, 3, 2, 1]).applied(), 1);
}

#[test]
fn every_list_of_up_to_six_messages_of_three() {
    let (library, copies) = morning();
    for list in 0..3_u32.pow(6) {
        let numbers: Vec<u32> = (0..6).map(|place| list / 3_u32.pow(place) % 3 + 1).collect();
        delivered(&library, &copies, &numbers);
    }
}

#[test]
fn the_message_of_each_transaction() {
    let (library, _) = morning();
    for (number, operations) in (1..).zip(edits()) {
        let written = library.van_write(u32::from(number)).expect("a message");
        assert_eq!(written.as_bytes(), message(number, &operations), "the log's links are not in it");
        assert_eq!((written.number(), written.count()), (u32::from(number), operations.len()));
    }
    assert_eq!(format!("{:?}", library.van_write(5)), "Ok(Message { number: 5, count: 3 })");
}

#[test]
fn a_later_log_writes_the_same_message() {
    let (mut library, _) = morning();
    let early: Vec<_> = (1..=5).map(|number| library.van_write(number)).collect();
    library.commit(2, &[recut(8)]).expect("commit");
    library.send(1).expect("send");
    library.refresh(1).expect("refresh");
    let late: Vec<_> = (1..=5).map(|number| library.van_write(number)).collect();
    assert_eq!(early, late);
}

#[test]
fn numbers_of_the_writer() {
    let (library, _) = morning();
    for number in [0, 6, 512, 65_536, 65_537, u32::MAX] {
        let mut output = [9; sizes::MESSAGE_MOST];
        assert_eq!(library.van_write_into(number, &mut output), Err(Refusal::Message), "number {number}");
        assert_eq!(output, [9; sizes::MESSAGE_MOST]);
    }
    assert_eq!(fresh().van_write(1), Err(Refusal::Message), "before any commit");
}

#[test]
fn output_of_the_writer() {
    let (library, _) = morning();
    for (number, length) in [(1, 644), (2, 84), (5, 244)] {
        let mut output = [9; 700];
        for short in [0, 3, 4, length - 1] {
            assert_eq!(library.van_write_into(number, &mut output[..short]), Err(Refusal::Message), "{short} bytes");
        }
        assert_eq!(output, [9; 700]);
        assert_eq!(library.van_write_into(number, &mut output[..length]), Ok(length), "exactly as long");
        assert!(output[..length] != [9; 700][..length] && output[length..] == [9; 700][length..]);
        assert_eq!(library.van_write_into(number, &mut output), Ok(length), "longer: what is after the message stays");
        assert!(output[length..].iter().all(|byte| *byte == 9));
    }
}

#[test]
fn memory_of_another_length_or_layout() {
    let mut control = Control::default();
    let memory = Memory { library: &mut [], log: &mut [], sessions: &mut [], control: &mut control };
    assert_eq!(memory.van_write(0), Err(Refusal::Lengths), "1 stands before 17");

    let mut parts = morning().0.into_parts();
    parts.sessions[sizes::SESSIONS - 1] = 1;
    let before = parts.clone();
    let memory = Memory { library: &mut parts.library, log: &mut parts.log, sessions: &mut parts.sessions, control: &mut parts.control };
    let mut output = [9; sizes::MESSAGE_MOST];
    assert_eq!(memory.van_write_into(1, &mut output), Err(Refusal::Layout));
    assert_eq!(memory.van_write_into(0, &mut []), Err(Refusal::Layout), "2 stands before 17");
    assert_eq!((parts, output), (before, [9; sizes::MESSAGE_MOST]));
}

#[test]
fn numbers_have_two_bytes() {
    let mut library = fresh();
    let mut follower = Van::new();
    library.commit(1, &[new(1)]).expect("commit");
    for number in 1..=512 {
        let written = library.van_write(number).expect("a message");
        assert_eq!(written.as_bytes()[..4], [number as u8, (number >> 8) as u8, 1, 0]);
        assert_eq!(follower.receive(written.as_bytes()), Ok(Received::Applied { number }));
        let _ = library.commit(1, &[recut(1)]); // the log is full after 512
    }
    assert_eq!((library.control().commits, follower.applied()), (512, 512));
    assert_eq!(follower.copy(), head_end(&library));
}

#[test]
fn a_message_out_of_form() {
    let (_, copies) = morning();
    let (right, spaced) = (message(3, &[WITHDRAW, recut(4)]), message(3, &[retitle(2, " News ")]));
    let with = |at: usize, value: u8| [&right[..at], &[value], &right[at + 1..]].concat();
    // The number, the count (four times), the zero byte, a kind, a cart, a link of the log, and the second operation's kind.
    let damages = [(0, 0), (2, 0), (2, 1), (2, 3), (2, 9), (3, 1), (4, 5), (6, 0), (16, 1), (84, 0)];
    // As the next one, as a repeat and too soon: form comes first.
    for applied in [2, 3, 4, 1] {
        let mut van = van(&copies[2], applied);
        for length in [0, 1, 3, 4, 83, 84, right.len() - 1] {
            refused(&mut van, Refusal::Message, &right[..length]);
        }
        refused(&mut van, Refusal::Message, &[&right[..], &[0]].concat());
        refused(&mut van, Refusal::Message, &message(3, &[]));
        refused(&mut van, Refusal::Message, &message(3, &[recut(3); 9]));
        for (at, value) in damages {
            refused(&mut van, Refusal::Message, &with(at, value));
        }
    }
    assert_eq!(van(&copies[2], 2).receive(&right), Ok(Received::Applied { number: 3 }));
    assert_eq!(van(&copies[2], 2).receive(&spaced), Ok(Received::Applied { number: 3 }), "spaces at a title's ends are allowed");
}

#[test]
fn a_copy_of_another_length_or_layout() {
    let (_, copies) = morning();
    let full = &copies[5];
    let longer = [&full[..], &[0]].concat();
    let mut moved = full.clone();
    moved.copy_within(0..sizes::CART, sizes::CART);
    let mut late = full.clone();
    late[sizes::COPY - 1] = 1;
    for copy in [&full[..0], &full[..sizes::COPY - 1], &longer, &moved, &late] {
        for applied in [0, 1, 5, u32::MAX] {
            assert_eq!(Van::from_parts(copy.into(), applied), Err(Refusal::Message), "{} bytes, applied {applied}", copy.len());
        }
    }
    for applied in [0, 1, 5, u32::MAX] {
        let van = van(full, applied);
        assert_eq!((van.copy(), van.applied()), (&full[..], applied), "what was stored is loaded");
    }
}

#[test]
fn a_stored_van_goes_on() {
    let (library, copies) = morning();
    let stored = delivered(&library, &copies, &[1, 2]);
    let mut loaded = van(stored.copy(), stored.applied());
    assert_eq!(loaded, stored);
    for number in 3..=5 {
        assert_eq!(loaded.receive(library.van_write(number).expect("a message").as_bytes()), Ok(Received::Applied { number }));
    }
    assert_eq!(loaded.copy(), head_end(&library));
}

#[test]
fn any_applied_has_its_answer() {
    let empty = [0; sizes::COPY];
    let mut at_the_end = van(&empty, 65_534);
    assert_eq!(at_the_end.receive(&message(65_535, &[new(7)])), Ok(Received::Applied { number: 65_535 }));
    for applied in [65_535, 65_536, u32::MAX - 1, u32::MAX] {
        let mut van = van(&empty, applied);
        for number in [1, 65_534, 65_535] {
            assert_eq!(van.receive(&message(number, &[new(7)])), Ok(Received::Held { number: u32::from(number) }), "applied {applied}");
        }
        assert_eq!((van.copy(), van.applied()), (&empty[..], applied));
    }
    refused(&mut van(&empty, 65_533), Refusal::MessageAhead, &message(65_535, &[new(7)]));
    refused(&mut Van::new(), Refusal::MessageAhead, &message(2, &[new(7)]));
}

#[test]
fn an_operation_in_the_wrong_state_changes_nothing_and_the_others_act() {
    let (_, copies) = morning();
    let mut van = van(&copies[2], 2);
    // Cart 3 is there, with other audio, and cart 9 is empty.
    assert_eq!(van.receive(&message(3, &[new(3), recut(9), WITHDRAW, recut(4)])), Ok(Received::Applied { number: 3 }));
    assert_eq!(van.copy(), copies[3], "what the third edit leaves");
}

#[test]
fn the_carts_that_the_van_shows() {
    let (library, copies) = morning();
    let level = delivered(&library, &copies, &[1, 2, 3, 4, 5]);
    assert_eq!(level.carts().map(|cart| cart.number).collect::<Vec<_>>(), [1, 2, 3, 4, 5, 6, 7, 8, 128]);
    assert_eq!(level.cart(1).map(|cart| (cart.title.to_string(), cart.audio)), Some(("Top hour B".to_string(), 502)));
    assert_eq!(level.cart(128).map(|cart| cart.audio), Some(501));
    for number in [0, 9, 129, u16::MAX] {
        assert_eq!(level.cart(number), None, "cart {number}");
    }
    assert_eq!(Van::default().carts().next(), None);
    assert_eq!(format!("{level:?}"), "Van { copy: 10240 bytes, applied: 5 }");
}
