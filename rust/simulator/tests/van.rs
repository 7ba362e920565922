//! The van of request S-6: the writer, the receiver, and lists of messages between them.
//! That the writer leaves memory and control, and its output where it is refused, is
//! asserted by `Wall::van_write`; that the receiver leaves copy and applied where it
//! applies nothing, by `Van::receive`.

mod wall;
use simulator::{COPY, DONE, HELD, REFUSED, UNIT, VanAnswer, van_receive};
use wall::*;

#[derive(Clone, PartialEq, Debug)]
struct Van {
    copy: Vec<u8>,
    applied: u32,
}

/// The receiver's answer without applied: kind and value.
type Told = (u32, u32);

impl Van {
    fn receive(&mut self, message: &[u8]) -> Told {
        let before = self.clone();
        let answer = van_receive(&mut self.copy, self.applied, message);
        self.applied = answer.applied;
        if answer.kind == DONE {
            assert_eq!(answer.applied, answer.value, "the number is applied");
        } else {
            assert_eq!(*self, before, "nothing is applied, so nothing changes");
        }
        (answer.kind, answer.value)
    }
}

fn fresh_van() -> Van {
    Van { copy: vec![0; COPY], applied: 0 }
}

fn message(number: u16, operations: &[[u8; UNIT]]) -> Vec<u8> {
    let count = u8::try_from(operations.len()).unwrap();
    [&number.to_le_bytes()[..], &[count, 0], &operations.concat()].concat()
}

/// Transaction n of `logged`: n operations, and 8 from the eighth on. Cart n is held in
/// L(n) alone, so no two of the L(n) are alike.
fn transaction(n: u16) -> Vec<[u8; UNIT]> {
    let (other, audio) = (100 + n, u32::from(n));
    let mut operations = vec![
        new(n, "Cart", audio, 1),
        withdraw(n - 1),
        retitle(n, "Bed"),
        recut(n, audio, 3),
        new(other, "Top hour A", 501, 8_000),
        recut(other, audio, 5),
        withdraw(other),
        retitle(n, "Sponsor"),
    ];
    operations.truncate(n.into());
    operations
}

/// A wall with transactions 1 to `commits`, of which none is sent; 28 at most.
fn logged(commits: u16) -> Wall {
    let mut wall = fresh();
    for n in 1..=commits {
        assert_eq!(wall.commit(1, &transaction(n)), done(n.into()));
    }
    wall
}

/// L(0) to L(commits), as studio 1 makes them from the log. It has applied none.
fn libraries(wall: &Wall) -> Vec<Vec<u8>> {
    let (mut wall, mut made) = (wall.clone(), vec![vec![0; COPY]]);
    for n in 1..=wall.control.commits {
        refreshed(&mut wall, n);
        made.push(wall.library[COPY..2 * COPY].to_vec());
    }
    made
}

/// The message that the writer writes, with as much output as it needs.
fn written(wall: &mut Wall, number: u32) -> Vec<u8> {
    let mut output = vec![9; 644];
    let (kind, length, found) = wall.van_write(number, &mut output);
    assert_eq!((kind, found), (DONE, 0));
    output.truncate(length as usize);
    output
}

fn all_written(wall: &mut Wall) -> Vec<Vec<u8>> {
    (1..=wall.control.commits).map(|number| written(wall, number)).collect()
}

/// What the receiver has to say of a message in form: over the integers.
fn told(applied: u32, number: u32) -> Told {
    match i64::from(number) - i64::from(applied) {
        ..=0 => (HELD, number),
        1 => (DONE, number),
        _ => (REFUSED, 18),
    }
}

/// Refused by 17 whether its number, 2 if it has one, is ahead, the next, or held.
fn refused_17(case: &str, copy: &[u8], message: &[u8]) {
    for applied in [0, 1, 2, 65_535, u32::MAX] {
        let mut left = copy.to_vec();
        let answer = van_receive(&mut left, applied, message);
        assert_eq!(answer, VanAnswer { kind: 0, value: 17, applied }, "{case}, {applied} applied");
        assert_eq!(left, copy, "{case}, {applied} applied");
    }
}

#[test]
fn the_kinds() {
    assert_eq!((REFUSED, DONE, HELD), (0, 1, 4));
    let (mut copy, first, third) = (vec![0; COPY], message(1, &[top_hour()]), message(3, &[top_hour()]));
    assert_eq!(van_receive(&mut copy, 0, &first), VanAnswer { kind: 1, value: 1, applied: 1 });
    assert_eq!(van_receive(&mut copy, 1, &first), VanAnswer { kind: 4, value: 1, applied: 1 });
    assert_eq!(van_receive(&mut copy, 9, &first), VanAnswer { kind: 4, value: 1, applied: 9 });
    assert_eq!(van_receive(&mut copy, 1, &third), VanAnswer { kind: 0, value: 18, applied: 1 });
    assert_eq!(van_receive(&mut copy, 1, &[]), VanAnswer { kind: 0, value: 17, applied: 1 });
    assert_eq!(copy, copy_of(&[top_hour()]));
}

/// Output of exactly the length and of more; later bytes stay.
#[test]
fn a_message_of_every_count() {
    let mut wall = logged(9);
    assert_eq!(wall.control.used, 44);
    for n in 1..=9 {
        let message = message(n, &transaction(n));
        let length = message.len();
        assert_eq!(length, 4 + UNIT * usize::from(n.min(8)));
        for size in [length, length + 1, length + UNIT, 10_000] {
            let mut output = vec![9; size];
            assert_eq!(wall.van_write(n.into(), &mut output), done(u32::try_from(length).unwrap()), "{n}, {size}");
            assert_eq!(output[..length], message, "{n}, {size}");
            assert_eq!(output[length..], vec![9; size - length], "{n}, {size}: later bytes");
        }
    }
}

#[test]
fn output_that_is_too_short() {
    let mut wall = logged(9);
    for n in 1..=9u16 {
        let length = 4 + UNIT * usize::from(n.min(8));
        for size in [0, 1, 3, 4, 83, length - UNIT, length - 1] {
            assert_eq!(wall.van_write(n.into(), &mut vec![9; size]), refused(17), "{n}, {size}");
        }
        assert_eq!(wall.van_write(n.into(), &mut vec![9; length]).0, DONE);
    }
}

/// Transaction 3 has records 4 to 6, and transaction 4 begins with record 7.
#[test]
fn links_are_cleared() {
    let mut wall = logged(4);
    let mut records = wall.log[240..480].to_vec();
    assert_eq!([&records[12..16], &records[92..96], &records[172..176]], [[5, 0, 7, 0], [6, 0, 0, 0], [0, 0, 0, 0]]);
    for record in records.chunks_exact_mut(UNIT) {
        record[12..16].fill(0);
    }
    assert_eq!(written(&mut wall, 3)[4..], records, "all else is as in the log");
}

#[test]
fn numbers_outside_1_to_commits() {
    for (mut wall, commits) in [(fresh(), 0), (logged(1), 1), (logged(9), 9), (committed(512), 512)] {
        let far = [65_535, 65_536, 65_537, 65_536 + commits, 65_536 + 256, (1 << 31) + 1, u32::MAX - 1, u32::MAX];
        for number in [&[0, commits + 1, commits + 2, commits + 256][..], &far].concat() {
            for size in [0, 4, 84, 644, 10_000] {
                assert_eq!(wall.van_write(number, &mut vec![9; size]), refused(17), "{number} of {commits}, {size}");
            }
        }
        for number in [1, commits].into_iter().filter(|number| *number <= commits && commits > 0) {
            assert_eq!(wall.van_write(number, &mut [9; 644]).0, DONE, "{number} of {commits}");
        }
    }
}

/// Also the links of these records have two bytes.
#[test]
fn numbers_of_two_bytes() {
    let mut wall = committed(512);
    for (n, number) in [(255, [255, 0]), (256, [0, 1]), (300, [44, 1]), (511, [255, 1]), (512, [0, 2])] {
        let expected = [&number[..], &[1, 0], &recut(7, n, n)].concat();
        assert_eq!(written(&mut wall, n), expected, "{n}");
    }
}

/// With a message to write, and with either fault of row 17.
#[test]
fn rows_1_and_2_before_17() {
    let unlaid: Fault = (2, |wall| wall.control.studios = u32::MAX);
    let both: Fault = (1, |wall| {
        wall.control.studios = u32::MAX;
        wall.sessions.pop();
    });
    for (place, (row, fault)) in (0..).zip(FAULTS.into_iter().chain([unlaid, both])) {
        let mut wall = committed(2);
        fault(&mut wall);
        for (number, size) in [(1, 84), (2, 644), (0, 84), (3, 84), (1, 83), (u32::MAX, 0)] {
            assert_eq!(wall.van_write(number, &mut vec![9; size]), refused(row), "fault {place}, {number}, {size}");
        }
    }
}

/// Not sent, sent, applied, with a read waiting and after it: the message is as it was
/// when it was first written.
#[test]
fn a_message_stays_the_same() {
    let (mut wall, mut first) = (fresh(), Vec::new());
    for n in 1..=16 {
        assert_eq!(wall.commit(3, &transaction(n)), done(n.into()));
        first.push(message(n, &transaction(n)));
        assert_eq!(all_written(&mut wall), first, "commit {n}");
    }
    assert_eq!(wall.commit(1, &[withdraw(1)]), refused(8));
    assert_eq!(all_written(&mut wall), first, "a refused commit");
    assert_eq!(wall.read(1, &by_numbers(&[7]), &mut [0; UNIT]), waits(16));
    assert_eq!(all_written(&mut wall), first, "a read waits");
    for n in 1..=16 {
        assert_eq!(wall.send(1), done(n));
        assert_eq!(all_written(&mut wall), first, "send {n}");
    }
    for n in 1..=16 {
        assert_eq!(wall.refresh(1), done(n));
        assert_eq!(all_written(&mut wall), first, "refresh {n}");
    }
    assert_eq!(wall.collect(1, &mut [0; UNIT]), answered(16, 0));
    assert_eq!(all_written(&mut wall), first, "collected");
}

/// The writer goes by the log: neither copies nor counts of studios matter.
#[test]
fn copies_that_the_log_does_not_make() {
    let (mut wall, copy) = (logged(9), copy_of(&[top_hour(), new(128, "Bed", 1, 1)]));
    let expected = all_written(&mut wall);
    for at in [0, COPY, 2 * COPY] {
        wall.library[at..at + COPY].copy_from_slice(&copy);
        assert_eq!(all_written(&mut wall), expected);
    }
    (wall.control.sent[0], wall.control.applied[0], wall.control.sent[1]) = (9, 5, 1);
    assert_eq!(all_written(&mut wall), expected);
}

/// Written with its spaces, taken, and then in a copy of the layout.
#[test]
fn titles_with_a_space_at_an_end() {
    for title in spaced() {
        let (mut wall, cart, mut van) = (stored(&title), new(7, &title, 501, 8_000), fresh_van());
        assert_eq!(written(&mut wall, 1), message(1, &[cart]), "{title:?}");
        assert_eq!(van.receive(&written(&mut wall, 1)), (DONE, 1), "{title:?}");
        assert_eq!(van.copy, copy_of(&[cart]), "{title:?}");
        assert_eq!(van.receive(&message(2, &[recut(7, 2, 3), new(8, &title, 1, 1)])), (DONE, 2), "{title:?}");
        assert_eq!(van.receive(&message(3, &[retitle(7, "News"), retitle(8, &title)])), (DONE, 3), "{title:?}");
        assert_eq!(van.receive(&message(4, &[retitle(7, &title)])), (DONE, 4), "{title:?}");
        assert_eq!(van.copy, copy_of(&[new(7, &title, 2, 3), new(8, &title, 1, 1)]), "{title:?}");
    }
}

/// The count is that of the operations, and 1 to 8.
#[test]
fn counts_of_any_value() {
    let (copy, edits) = (copy_of(&[top_hour()]), recut(7, 9, 9).repeat(256));
    for (count, operations) in (0..=255u8).flat_map(|count| [0, 1, 2, 7, 8, 9, 255, 256, count.into()].map(|many| (count, many))) {
        let message = [&[2, 0, count, 0][..], &edits[..UNIT * operations]].concat();
        let case = format!("count {count}, {operations} operations");
        if usize::from(count) == operations && (1..=8).contains(&count) {
            let mut van = Van { copy: copy.clone(), applied: 1 };
            assert_eq!(van.receive(&message), (DONE, 2), "{case}");
        } else {
            refused_17(&case, &copy, &message);
        }
    }
}

#[test]
fn a_message_shorter_or_longer() {
    let (copy, edits) = (copy_of(&[top_hour()]), recut(7, 9, 9).repeat(900));
    for count in 1..=8u8 {
        let (endless, length) = ([&[2, 0, count, 0][..], &edits].concat(), 4 + UNIT * usize::from(count));
        for size in [0, 1, 2, 3, 4, 5, 80, length - UNIT, length - 4, length - 1, length + 1, length + 4, length + UNIT, length + 65_536] {
            refused_17(&format!("count {count}, {size} bytes"), &copy, &endless[..size]);
        }
        let zeros = [&endless[..length], &[0]].concat();
        refused_17(&format!("count {count}, then a zero"), &copy, &zeros);
        assert_eq!(Van { copy: copy.clone(), applied: 1 }.receive(&endless[..length]), (DONE, 2));
    }
    refused_17("4 bytes", &copy, &[2, 0, 0, 0]);
}

/// Output is passed on whole where only its start is the message.
#[test]
fn an_output_longer_than_its_message() {
    let (mut wall, copy) = (logged(2), fresh_van().copy);
    for (number, length) in [(1, 84), (2, 164)] {
        let mut output = [0; 644];
        assert_eq!(wall.van_write(number, &mut output), done(length));
        refused_17("the whole output", &copy, &output);
    }
}

#[test]
fn a_head_out_of_form() {
    let copy = copy_of(&[top_hour()]);
    refused_17("number 0", &copy, &message(0, &[recut(7, 9, 9)]));
    for byte in 1..=255 {
        let mut message = message(2, &[recut(7, 9, 9)]);
        message[3] = byte;
        refused_17(&format!("byte 3 as {byte}"), &copy, &message);
    }
}

#[test]
fn an_operation_out_of_form() {
    let (copy, edit) = (copy_of(&[top_hour()]), recut(7, 9, 9));
    let links = (12..16).map(|at| {
        let mut linked = edit;
        linked[at] = 1;
        linked
    });
    for operation in formless().into_iter().chain(links) {
        for (count, place) in [(1, 0), (2, 0), (2, 1), (8, 0), (8, 4), (8, 7)] {
            let mut operations = vec![edit; count];
            operations[place] = operation;
            refused_17(&format!("{operation:?} at {place} of {count}"), &copy, &message(2, &operations));
        }
    }
}

#[test]
fn a_message_of_any_bytes() {
    for (size, byte) in (0..=725).flat_map(|size| [0, 1, 2, 255].map(|byte| (size, byte))) {
        let answer = van_receive(&mut [0; COPY], 256, &vec![byte; size]);
        assert_eq!(answer, VanAnswer { kind: 0, value: 17, applied: 256 }, "{size} bytes of {byte}");
    }
}

/// With a message that would be applied, held or ahead, and with one out of form.
#[test]
fn a_copy_of_a_wrong_length() {
    let (carts, edit) = (vec![0; 75_776], message(2, &[top_hour()]));
    for size in [0, 1, 79, 80, 10_160, 10_239, 10_241, 10_320, 20_480, 51_200, 75_776] {
        refused_17(&format!("{size} bytes"), &carts[..size], &edit);
        refused_17(&format!("{size} bytes, no message"), &carts[..size], &[]);
    }
}

/// The message is of cart 9, which is not damaged.
#[test]
fn a_copy_that_is_damaged() {
    let (copy, edit) = (copy_of(&[new(1, "Bed", 1, 1), top_hour(), new(128, "Bed", 1, 1)]), message(2, &[new(9, "Nine", 1, 1)]));
    let first = [(0, 0), (0, 2), (0, 255), (1, 0), (1, 2), (1, 4), (1, 65), (2, 0), (2, 2), (3, 1), (4, 0), (8, 0), (12, 1), (15, 1)];
    let titles = [(16, 31), (16, 127), (18, 0), (19, 32), (79, 1), (79, 32)];
    for (at, byte) in [&first[..], &titles].concat() {
        for cart in [0, 10_160] {
            let mut damaged = copy.clone();
            damaged[cart + at] = byte;
            refused_17(&format!("byte {at} as {byte} of the cart at {cart}"), &damaged, &edit);
        }
    }
    for at in 560..640 {
        let mut damaged = copy.clone();
        damaged[at] = 1;
        refused_17(&format!("byte {at}, of an empty cart"), &damaged, &edit);
    }
    let mut misplaced = copy.clone();
    misplaced.copy_within(480..560, 560);
    refused_17("cart 7 at the place of 8", &misplaced, &edit);
    refused_17("a message out of form too", &misplaced, &edit[..83]);
    assert_eq!(Van { copy, applied: 1 }.receive(&edit), (DONE, 2));
}

#[test]
fn numbers_against_applied() {
    let most = [65_533, 65_534, 65_535, 65_536, 65_537, 131_070, 131_071, (1 << 31) - 1, 1 << 31, u32::MAX - 1, u32::MAX];
    for applied in [&[0, 1, 2, 254, 255, 256, 257, 511, 512][..], &most].concat() {
        for number in [1, 2, 3, 255, 256, 257, 258, 512, 513, 65_533, 65_534, 65_535] {
            let (mut van, words) = (Van { applied, ..fresh_van() }, told(applied, number.into()));
            assert_eq!(van.receive(&message(number, &[top_hour()])), words, "{number}, {applied} applied");
            assert_eq!(van.copy == fresh_van().copy, words.0 != DONE, "{number}, {applied} applied");
        }
    }
    for (applied, number, words) in [
        (0, 1, (DONE, 1)),
        (0, 2, (REFUSED, 18)),
        (0, 65_535, (REFUSED, 18)),
        (65_533, 65_535, (REFUSED, 18)),
        (65_534, 65_534, (HELD, 65_534)),
        (65_534, 65_535, (DONE, 65_535)),
        (65_535, 65_535, (HELD, 65_535)),
        (65_536, 1, (HELD, 1)),
        (u32::MAX - 1, 65_535, (HELD, 65_535)),
        (u32::MAX, 1, (HELD, 1)),
    ] {
        assert_eq!(told(applied, number), words, "{number}, {applied} applied");
    }
}

/// Where the cart is in the wrong state nothing changes, and the number is applied.
#[test]
fn each_operation_on_either_state() {
    let (bed, nothing) = (new(7, "Bed", 2, 3), [0; UNIT]);
    for (operation, on_empty, on_held) in [
        (bed, bed, top_hour()),
        (retitle(7, "Bed"), nothing, new(7, "Bed", 501, 8_000)),
        (recut(7, 2, 3), nothing, new(7, "Top hour A", 2, 3)),
        (withdraw(7), nothing, nothing),
    ] {
        for (before, after) in [(nothing, on_empty), (top_hour(), on_held)] {
            let (mut van, mut left) = (Van { copy: full("Full"), applied: 4 }, Van { copy: full("Full"), applied: 5 });
            cart(&mut van.copy, 7).copy_from_slice(&before);
            cart(&mut left.copy, 7).copy_from_slice(&after);
            assert_eq!(van.receive(&message(5, &[operation])), (DONE, 5));
            assert_eq!(van, left, "{operation:?} on {before:?}");
        }
    }
}

/// The operations before and after one in the wrong state act, and after one another.
#[test]
fn some_operations_in_the_wrong_state() {
    let mut van = fresh_van();
    let some = [
        withdraw(8),
        top_hour(),
        new(7, "Bed", 9, 9),
        recut(7, 2, 3),
        retitle(9, "Bed"),
        new(128, "Last", 1, 1),
        recut(1, 1, 1),
        new(1, "First", 1, 1),
    ];
    assert_eq!(van.receive(&message(1, &some)), (DONE, 1));
    let after_1 = copy_of(&[new(7, "Top hour A", 2, 3), new(128, "Last", 1, 1), new(1, "First", 1, 1)]);
    assert_eq!(van.copy, after_1);
    assert_eq!(van.receive(&message(2, &[recut(8, 1, 1), withdraw(9), top_hour()])), (DONE, 2));
    assert_eq!(van.copy, after_1, "none of them acts");
    assert_eq!(van.receive(&message(3, &[withdraw(7), withdraw(7), top_hour(), withdraw(1)])), (DONE, 3));
    assert_eq!(van, Van { copy: copy_of(&[top_hour(), new(128, "Last", 1, 1)]), applied: 3 });
}

/// Held and ahead are told by the number alone: other operations than those of the log
/// change nothing there.
#[test]
fn a_held_number_with_other_operations() {
    let mut van = fresh_van();
    assert_eq!(van.receive(&message(1, &[top_hour()])), (DONE, 1));
    for operations in [vec![withdraw(7)], vec![recut(7, 9, 9); 8], vec![new(8, "Bed", 1, 1)]] {
        assert_eq!(van.receive(&message(1, &operations)), (HELD, 1));
        assert_eq!(van.receive(&message(3, &operations)), (REFUSED, 18));
    }
    assert_eq!(van.copy, copy_of(&[top_hour()]));
}

/// S-6: "the longest run 1, 2, 3, … that can be picked from the list in its order".
fn longest_run(list: &[u32]) -> u32 {
    let can_be_picked = |last: &u32| {
        let mut rest = list.iter();
        (1..=*last).all(|n| rest.any(|number| *number == n))
    };
    (0..).take_while(can_be_picked).last().unwrap()
}

/// A fresh van is given the messages of these numbers: after each the copy is L(applied)
/// and applied is the longest run. Returns how many were refused, applied and held.
fn received(list: &[u32], messages: &[Vec<u8>], libraries: &[Vec<u8>]) -> [u32; 3] {
    let (mut van, mut counts) = (fresh_van(), [0; 3]);
    for (place, number) in list.iter().enumerate() {
        let (so_far, words) = (&list[..=place], told(van.applied, *number));
        assert_eq!(van.receive(&messages[*number as usize - 1]), words, "{so_far:?}");
        assert_eq!(van.applied, longest_run(so_far), "{so_far:?}");
        assert_eq!(van.copy, libraries[van.applied as usize], "{so_far:?}");
        counts[[REFUSED, DONE, HELD].iter().position(|kind| *kind == words.0).unwrap()] += 1;
    }
    counts
}

#[test]
fn the_longest_run() {
    for (list, run) in [
        (&[][..], 0),
        (&[2, 3], 0),
        (&[1], 1),
        (&[3, 2, 1], 1),
        (&[1, 3, 2], 2),
        (&[2, 1, 2, 1, 3], 3),
        (&[1, 1, 1], 1),
        (&[3, 1, 3, 2, 2, 1, 3], 3),
        (&[1, 2, 4, 5, 6], 2),
    ] {
        assert_eq!(longest_run(list), run, "{list:?}");
    }
}

#[test]
fn every_list_of_six_from_three() {
    let mut wall = logged(3);
    let (messages, libraries) = (all_written(&mut wall), libraries(&wall));
    for code in 0..729 {
        let list = [1, 3, 9, 27, 81, 243].map(|power| 1 + code / power % 3);
        received(&list, &messages, &libraries);
    }
}

#[test]
fn in_order_backward_and_twice() {
    let mut wall = logged(20);
    let (messages, libraries) = (all_written(&mut wall), libraries(&wall));
    let onward: Vec<u32> = (1..=20).collect();
    let backward: Vec<u32> = (1..=20).rev().collect();
    let each_twice: Vec<u32> = onward.iter().flat_map(|number| [*number; 2]).collect();
    let one_lost: Vec<u32> = onward.iter().copied().filter(|number| *number != 8).collect();
    for (list, counts) in [
        (onward.clone(), [0, 20, 0]),
        (backward.clone(), [19, 1, 0]),
        (backward.repeat(20), [190, 20, 190]),
        (onward.repeat(2), [0, 20, 20]),
        (each_twice, [0, 20, 20]),
        (one_lost.clone(), [12, 7, 0]),
        ([one_lost, onward].concat(), [12, 20, 7]),
        (vec![1; 50], [0, 1, 49]),
        (vec![2; 50], [50, 0, 0]),
    ] {
        assert_eq!(received(&list, &messages, &libraries), counts, "{list:?}");
    }
}

fn after(seed: u32) -> u32 {
    seed.wrapping_mul(1_664_525).wrapping_add(1_013_904_223)
}

#[test]
fn lists_from_seeds() {
    let mut wall = logged(20);
    let (messages, libraries) = (all_written(&mut wall), libraries(&wall));
    for first in 1..=8 {
        let seeds = std::iter::successors(Some(first), |seed| Some(after(*seed)));
        let list: Vec<u32> = seeds.skip(1).map(|seed| 1 + (seed >> 12) % 20).take(400).collect();
        let counts = received(&list, &messages, &libraries);
        assert!(counts[0] >= 50 && counts[1] >= 10 && counts[2] >= 50, "the list has all of it: {counts:?}");
    }
}

/// Messages are written between the commits, stay under way for any time, and some are
/// lost.
#[test]
fn written_while_the_log_grows() {
    let (mut wall, mut van, mut under_way, mut list, mut seed) = (fresh(), fresh_van(), Vec::new(), Vec::new(), 1);
    let libraries = libraries(&logged(20));
    for step in 1..=400 {
        seed = after(seed);
        let commits = wall.control.commits;
        if commits < 20 && step % 5 == 1 {
            let next = u16::try_from(commits + 1).unwrap();
            assert_eq!(wall.commit(2, &transaction(next)), done(next.into()));
        }
        let number = 1 + (seed >> 8) % wall.control.commits;
        under_way.push((number, written(&mut wall, number)));
        if under_way.len() < 12 {
            continue;
        }
        let (number, message) = under_way.swap_remove((seed >> 16) as usize % under_way.len());
        if seed >> 28 == 0 {
            continue;
        }
        list.push(number);
        assert_eq!(van.receive(&message), told(longest_run(&list[..list.len() - 1]), number), "step {step}");
        let run = longest_run(&list);
        assert_eq!(van, Van { copy: libraries[run as usize].clone(), applied: run }, "step {step}");
    }
    assert!(van.applied >= 10, "{} applied", van.applied);
}

/// The log's second operation met its cart in the wrong state, there as in the van. The
/// copies in memory do not matter either.
#[test]
fn a_log_whose_operations_missed_their_carts() {
    let mut wall = committed(3);
    let mut record = new(7, "Bed", 9, 9);
    record[14] = 3;
    wall.log[80..160].copy_from_slice(&record);
    let (messages, libraries) = (all_written(&mut wall), libraries(&wall));
    assert_eq!(messages[1], message(2, &[new(7, "Bed", 9, 9)]));
    assert_eq!(libraries[2], libraries[1]);
    assert_eq!(received(&[2, 1, 3, 2, 1, 3], &messages, &libraries), [2, 3, 1]);
}

#[test]
fn a_full_log() {
    let (mut wall, mut van) = (committed(512), fresh_van());
    for (number, library) in (0..).zip(libraries(&wall)).skip(1) {
        assert_eq!(van.receive(&written(&mut wall, number)), (DONE, number));
        assert_eq!(van.copy, library, "{number}");
    }
    assert_eq!(van, Van { copy: wall.library[..COPY].to_vec(), applied: 512 });
}
