//! A system that was saved and is loaded (document 02, S-8), on the real engine: what calls leave is accepted at every moment and goes on
//! as if it had never stopped; a damaged copy, a torn save and a log with an operation in the wrong state are refused by 19.
mod made;

use made::{fresh, new, recut};
use sulyobak::{sizes, Control, Library, Memory, Operation, Parts, Read, Refusal, Request, Title, Van};

// Loads in both ways, and sees that nothing changed: the answer.
fn load(parts: &Parts) -> Result<u32, Refusal> {
    let mut tested = parts.clone();
    let answer = memory(&mut tested).load();
    assert_eq!(tested, *parts, "a load changes nothing");
    assert_eq!(Library::load(tested).map(Library::into_parts), answer.map(|_| parts.clone()));
    answer
}

fn memory(parts: &mut Parts) -> Memory<'_> {
    Memory { library: &mut parts.library, log: &mut parts.log, sessions: &mut parts.sessions, control: &mut parts.control }
}

fn retitle(cart: u16, title: &str) -> Operation {
    Operation::Retitle { cart, title: Title::new(title).expect("a title") }
}

fn withdraw(cart: u16) -> Operation {
    Operation::Withdraw { cart }
}

// Whether a read shows these audio numbers, 0 for an empty cart, at this state.
fn shows(read: Result<Read, Refusal>, right: u32, audio: &[u32]) {
    let Ok(Read::Answered { state, carts, .. }) = read else { panic!("not answered: {read:?}") };
    let shown: Vec<u32> = carts.iter().map(|cart| cart.map_or(0, |cart| cart.audio)).collect();
    assert_eq!((state, &shown[..]), (right, audio));
}

// A morning of calls from a fresh system, with every call that there is. Each commit makes a library that was not there before.
const MORNING: [fn(&mut Library); 27] = [
    |wall| assert_eq!(wall.commit(1, &[new(7)]), Ok(1)),
    |wall| assert_eq!(wall.read(1, &Request::cart(7)), Ok(Read::Waits { number: 1 })),
    |wall| assert_eq!(wall.commit(3, &[new(8), recut(8)]), Ok(2)),
    |wall| assert_eq!(wall.send(1), Ok(1)),
    |wall| assert_eq!(wall.preview(2, &[recut(7)]), Ok(3)),
    |wall| assert_eq!(wall.refresh(1), Ok(1)),
    |wall| assert_eq!(wall.send(2), Ok(1)),
    |wall| shows(wall.collect(1), 1, &[501]),
    |wall| assert_eq!(wall.commit(2, &[new(7)]), Err(Refusal::WrongState)),
    |wall| assert_eq!(wall.forward(2, &Request::cart(8)).map(|shown| shown.state), Ok(2)),
    |wall| assert_eq!(wall.read(2, &Request::carts(&[7, 8, 9]).expect("numbers")), Ok(Read::Waits { number: 2 })),
    |wall| assert_eq!(wall.send(1), Ok(2)),
    |wall| assert_eq!(wall.refresh(1), Ok(2)),
    |wall| assert_eq!(wall.move_session(3, 1), Ok(1)),
    |wall| assert_eq!(wall.commit(3, &[withdraw(7), retitle(8, "News bed")]), Ok(3)),
    |wall| shows(wall.collect(2), 2, &[501, 502, 0]),
    |wall| assert_eq!(wall.retire(), Err(Refusal::NotRetirable)),
    |wall| assert_eq!(wall.refresh(2), Ok(1)),
    |wall| assert_eq!(wall.retire(), Ok(1)),
    |wall| assert_eq!(wall.send(2), Ok(2)),
    |wall| assert_eq!(wall.read(3, &Request::cart(8)), Ok(Read::Waits { number: 3 })),
    |wall| assert_eq!(wall.commit(1, &[new(128), recut(8)]), Ok(4)),
    |wall| assert_eq!(wall.van_write(4).map(|message| message.number()), Ok(4)),
    |wall| assert_eq!(wall.refresh(2), Ok(2)),
    |wall| assert_eq!(wall.retire(), Ok(2)),
    |wall| assert_eq!(wall.send(2), Ok(3)),
    |wall| assert_eq!(wall.memory().load(), Ok(4)),
];

// The fresh system, and what each call of the morning left.
fn moments() -> Vec<Parts> {
    let mut library = fresh();
    let mut moments = vec![library.clone().into_parts()];
    for call in MORNING {
        call(&mut library);
        moments.push(library.clone().into_parts());
    }
    moments
}

#[test]
fn what_calls_leave_is_accepted_at_every_moment() {
    for moment in moments() {
        assert_eq!(load(&moment), Ok(moment.control.commits));
    }
}

#[test]
fn a_loaded_system_goes_on_as_if_it_had_never_stopped() {
    let moments = moments();
    for (at, moment) in moments.iter().enumerate() {
        let mut library = Library::load(moment.clone()).expect("a whole save");
        for (call, right) in MORNING[at..].iter().zip(&moments[at + 1..]) {
            call(&mut library);
            assert_eq!(library.clone().into_parts(), *right, "stopped after {at} calls");
        }
    }
}

#[test]
fn reads_that_waited_before_the_restart_are_collected_after_it() {
    let mut library = fresh();
    assert_eq!(library.commit(1, &[new(7), new(9), recut(9)]), Ok(1));
    assert_eq!(library.read(1, &Request::carts(&[9, 8, 7]).expect("numbers")), Ok(Read::Waits { number: 1 }));
    assert_eq!(library.commit(3, &[retitle(9, "News bed")]), Ok(2));
    assert_eq!(library.read(3, &Request::Title(Title::new("News bed").expect("a title"))), Ok(Read::Waits { number: 2 }));

    let mut library = Library::load(library.into_parts()).expect("a whole save");
    assert_eq!(library.commit(1, &[recut(7)]), Err(Refusal::ReadWaiting), "it still waits");
    assert_eq!(library.collect(3), Ok(Read::Waits { number: 2 }));
    assert_eq!(library.commit(2, &[recut(7)]), Ok(3));
    for (studio, number) in [(1, 1), (2, 1), (2, 2)] {
        assert_eq!((library.send(studio), library.refresh(studio)), (Ok(number), Ok(number)));
    }
    shows(library.collect(1), 1, &[502, 0, 501]);
    shows(library.collect(3), 2, &[502]);
    assert_eq!(library.collect(1), Err(Refusal::NothingWaiting));
    assert_eq!(load(&library.into_parts()), Ok(3));
}

#[test]
fn a_copy_of_another_moment_is_refused_wherever_it_differs() {
    let moments = moments();
    for now in &moments {
        for then in &moments {
            let whole = load(&Parts { library: then.library.clone(), ..now.clone() });
            let right = if then.library == now.library {
                Ok(now.control.commits)
            } else if now.control.retired == 0 && then.control.retired > 0 {
                Err(Refusal::Layout) // the sixth copy is empty while nothing is retired
            } else {
                Err(Refusal::NotWhole)
            };
            assert_eq!(whole, right, "library of {:?}, the rest of {:?}", then.control, now.control);
        }
    }
}

#[test]
fn a_log_or_a_control_of_another_moment() {
    let moments = moments();
    for now in &moments {
        for then in &moments {
            let torn = load(&Parts { log: then.log.clone(), ..now.clone() });
            let right = if then.log == now.log { Ok(now.control.commits) } else { Err(Refusal::Layout) };
            assert_eq!(torn, right, "log of {:?}, the rest of {:?}", then.control, now.control);

            // Counts of sent, and studios of sessions, cannot be told.
            let torn = load(&Parts { control: then.control, ..now.clone() });
            let logged = |control: &Control| (control.commits, control.retired);
            let right = if logged(&then.control) != logged(&now.control) {
                Err(Refusal::Layout)
            } else if then.control.applied != now.control.applied {
                Err(Refusal::NotWhole)
            } else {
                Ok(now.control.commits)
            };
            assert_eq!(torn, right, "control of {:?}, the rest of {:?}", then.control, now.control);
        }
    }
}

#[test]
fn sessions_of_an_earlier_moment_cannot_be_told() {
    let moments = moments();
    for (at, now) in moments.iter().enumerate() {
        for then in &moments[..at] {
            assert_eq!(load(&Parts { sessions: then.sessions.clone(), ..now.clone() }), Ok(now.control.commits));
        }
    }
}

#[test]
fn every_damaged_byte_of_every_copy_is_told() {
    let mut parts = moments().pop().expect("a moment");
    let mut told = [0; 6];
    for at in 0..sizes::LIBRARY {
        let byte = parts.library[at];
        parts.library[at] = byte.wrapping_add(1);
        let memory = memory(&mut parts);
        let right = memory.check().and(Err(Refusal::NotWhole));
        assert_eq!(memory.load(), right, "byte {at}");
        told[at / sizes::COPY] += usize::from(right == Err(Refusal::NotWhole));
        parts.library[at] = byte;
    }
    let [head_end, one, two, none @ .., sixth] = told;
    assert!([head_end, one, two, sixth].iter().all(|count| *count > 0), "of the layout, in every copy that there is: {told:?}");
    assert_eq!(none, [0, 0], "copies of studios that there are not are zero, by the layout");
    assert_eq!(load(&parts), Ok(4));
}

// The head end and studio 2 have both commits, studio 1 the first alone, which has cart 64. Cart 128 has a title to its last byte.
fn to_the_last_byte() -> Parts {
    let mut library = fresh();
    let longest = Title::new(&"x".repeat(sizes::TITLE)).expect("a title");
    library.commit(1, &[new(1), new(128), Operation::Retitle { cart: 128, title: longest }, new(64)]).expect("commit");
    library.commit(1, &[withdraw(64)]).expect("commit");
    for studio in [1, 2, 2] {
        library.send(studio).expect("send");
        library.refresh(studio).expect("refresh");
    }
    library.into_parts()
}

#[test]
fn carts_of_a_copy_are_compared_to_the_last_byte() {
    let saved = to_the_last_byte();
    let cart = |copy: usize, number: usize| copy * sizes::COPY + sizes::CART * (number - 1);
    for copy in 0..3 {
        for number in [1, 128] {
            let mut parts = saved.clone();
            parts.library[cart(copy, number)..][..sizes::CART].fill(0);
            assert_eq!(load(&parts), Err(Refusal::NotWhole), "copy {copy} lost cart {number}");
        }
        let mut parts = saved.clone();
        parts.library[cart(copy + 1, 1) - 1] = b'y';
        assert_eq!(load(&parts), Err(Refusal::NotWhole), "the last byte of copy {copy}");
    }
    for (copy, from) in [(0, 1), (2, 1), (1, 2)] {
        let mut parts = saved.clone();
        parts.library.copy_within(cart(from, 64)..cart(from, 65), cart(copy, 64));
        assert_eq!(load(&parts), Err(Refusal::NotWhole), "cart 64 of copy {copy} is that of copy {from}");
    }
    assert_eq!(load(&saved), Ok(2));
}

#[test]
fn a_full_log_and_four_studios() {
    let mut library = Library::new(4, &[1, 2, 3, 4]).expect("setup");
    assert_eq!(library.commit(1, &[new(1)]), Ok(1));
    for number in 2..=512 {
        assert_eq!(library.commit(1, &[Operation::Recut { cart: 1, audio: number, milliseconds: 1 }]), Ok(number));
    }
    for (studio, applied) in [(2, 1), (3, 255), (4, 512)] {
        for _ in 0..applied {
            library.send(studio).expect("send");
            library.refresh(studio).expect("refresh");
        }
    }
    let saved = library.into_parts();
    assert_eq!(saved.control.applied, [0, 1, 255, 512]);
    assert_eq!(load(&saved), Ok(512));
    for (studio, applied) in [(0, 1), (1, 0), (1, 2), (2, 254), (2, 256), (3, 511)] {
        let mut parts = saved.clone();
        parts.control.sent[studio] = applied;
        parts.control.applied[studio] = applied;
        assert_eq!(load(&parts), Err(Refusal::NotWhole), "studio {} with applied {applied}", studio + 1);
    }
}

// A message as the van's writer makes it.
fn message(number: u16, operations: &[Operation]) -> Vec<u8> {
    let [low, high] = number.to_le_bytes();
    let count = u8::try_from(operations.len()).expect("at most 8");
    [low, high, count, 0].into_iter().chain(operations.iter().flat_map(Operation::to_bytes)).collect()
}

// A log with these transactions, right or wrong, and copies that are what it makes: the head end's, and those of two studios that have
// applied so many. What makes the copies is a van, where an operation in the wrong state changes nothing.
fn made_of(transactions: &[&[Operation]], applied: [u32; 2]) -> Parts {
    let mut parts = fresh().into_parts();
    let mut van = Van::new();
    let mut copies = vec![van.copy().to_vec()];
    let mut record: u16 = 0;
    for (number, operations) in (1..).zip(transactions) {
        let first = usize::from(record) * sizes::CART;
        for (left, operation) in (0..operations.len()).rev().zip(*operations) {
            let at = usize::from(record) * sizes::CART;
            record += 1;
            let next = if left == 0 { 0 } else { record + 1 };
            parts.log[at..at + sizes::CART].copy_from_slice(&operation.to_bytes());
            parts.log[at + 12..at + 14].copy_from_slice(&next.to_le_bytes());
        }
        let next = if usize::from(number) == transactions.len() { 0 } else { record + 1 };
        parts.log[first + 14..first + 16].copy_from_slice(&next.to_le_bytes());
        van.receive(&message(number, operations)).expect("the next message");
        copies.push(van.copy().to_vec());
    }
    for (copy, made) in [transactions.len(), applied[0] as usize, applied[1] as usize].into_iter().enumerate() {
        parts.library[copy * sizes::COPY..][..sizes::COPY].copy_from_slice(&copies[made]);
    }
    parts.control.used = u32::from(record);
    parts.control.oldest = u32::from(record.min(1));
    parts.control.free_first = u32::from(record) + 1; // the records after these are the free chain still
    parts.control.commits = u32::try_from(transactions.len()).expect("at most 512");
    parts.control.sent[..2].copy_from_slice(&applied);
    parts.control.applied[..2].copy_from_slice(&applied);
    parts
}

// What load answers of such a log, the same for whatever the studios have applied.
fn answer_of(transactions: &[&[Operation]]) -> Result<u32, Refusal> {
    let commits = transactions.len() as u32;
    let answers = (0..=commits).flat_map(|one| (0..=commits).map(move |other| [one, other])).map(|applied| {
        let parts = made_of(transactions, applied);
        Library::from_parts(parts.clone()).expect("parts of the layout");
        load(&parts)
    });
    let answers: Vec<_> = answers.collect();
    assert!(answers.iter().all(|answer| *answer == answers[0]), "{answers:?}");
    answers[0]
}

#[test]
fn a_logged_operation_that_met_its_cart_in_the_wrong_state() {
    let right: [&[&[Operation]]; 4] = [
        &[],
        &[&[new(7)], &[recut(7), withdraw(7), new(7)], &[retitle(7, "News bed")], &[withdraw(7)]],
        &[&[new(1), new(2), new(3), new(4), new(5), new(6), new(7), withdraw(7)], &[new(7)]],
        &[&[new(7), retitle(7, " News bed ")], &[new(8)]], // stored before titles with spaces at their ends were refused
    ];
    for transactions in right {
        assert_eq!(answer_of(transactions), Ok(transactions.len() as u32), "{transactions:?}");
    }
    let wrong: [&[&[Operation]]; 8] = [
        &[&[recut(7)]],
        &[&[retitle(7, "News bed")]],
        &[&[withdraw(7)]],
        &[&[new(7)], &[new(7)]],
        &[&[new(7), new(7)], &[new(8)]],
        &[&[recut(7)], &[new(7)], &[recut(7)]],
        &[&[new(7)], &[withdraw(7)], &[retitle(7, "News bed")]],
        &[&[new(1), new(2), new(3), new(4), new(5), new(6), new(7), withdraw(8)], &[new(8)]],
    ];
    for transactions in wrong {
        assert_eq!(answer_of(transactions), Err(Refusal::NotWhole), "{transactions:?}");
    }
}

// What load must answer of memory of the layout: its transactions, committed one after the other on a wall of their own that begins with the
// sixth copy, are all accepted, and make the copies.
fn replayed(memory: &Memory<'_>) -> Result<u32, Refusal> {
    let (mut begun, sixth) = (fresh().into_parts(), &memory.library[5 * sizes::COPY..]);
    begun.library[..sizes::COPY].copy_from_slice(sixth);
    let mut wall = Library::from_parts(begun).expect("parts of the layout");
    let mut copies = vec![sixth.to_vec()];
    let retired = memory.control.retired;
    for number in retired + 1..=memory.control.commits {
        let message = memory.van_write(number).expect("memory of the layout");
        let committed = wall.memory().commit_bytes(1, &message.as_bytes()[sizes::MESSAGE_HEAD..]);
        committed.map_err(|_| Refusal::NotWhole)?;
        copies.push(wall.memory().library[..sizes::COPY].to_vec());
    }
    let made = [memory.control.commits, memory.control.applied[0], memory.control.applied[1]];
    let same = memory.library.chunks(sizes::COPY).zip(made).all(|(copy, made)| *copy == copies[(made - retired) as usize]);
    if same {
        Ok(memory.control.commits)
    } else {
        Err(Refusal::NotWhole)
    }
}

// How many damaged bytes of the log's first eight records are accepted, and refused by 19. Of these records some are free again at last.
fn judged_as_by_a_replay(mut parts: Parts) -> (usize, usize) {
    let (mut accepted, mut refused) = (0, 0);
    for at in 0..sizes::CART * 8 {
        let byte = parts.log[at];
        parts.log[at] = byte.wrapping_add(1);
        let memory = memory(&mut parts);
        let right = memory.check().and_then(|()| replayed(&memory));
        assert_eq!(memory.load(), right, "byte {at}");
        accepted += usize::from(right.is_ok());
        refused += usize::from(right == Err(Refusal::NotWhole));
        parts.log[at] = byte;
    }
    assert_eq!(load(&parts), replayed(&memory(&mut parts)));
    (accepted, refused)
}

#[test]
fn every_damaged_byte_of_the_log_is_judged_as_by_a_replay() {
    let moments = moments();
    for retired in 0..=1 {
        let last = moments.iter().rfind(|moment| moment.control.retired == retired).expect("a moment");
        let (accepted, refused) = judged_as_by_a_replay(last.clone());
        assert!(accepted > 0 && refused > 0, "{accepted} accepted, {refused} refused by 19");
    }
}

#[test]
fn lengths_come_first_and_the_layout_next() {
    let mut parts = moments().pop().expect("a moment");
    parts.library[sizes::CART * 7 + 16] += 1;
    assert_eq!(load(&parts), Err(Refusal::NotWhole), "a letter in the title of the head end's cart 8");
    parts.sessions[sizes::SESSIONS - 1] = 1;
    assert_eq!(load(&parts), Err(Refusal::Layout));
    parts.log = vec![0; sizes::LOG - 1].into_boxed_slice();
    assert_eq!(load(&parts), Err(Refusal::Lengths));
    parts.library = Box::default();
    assert_eq!(load(&parts), Err(Refusal::Lengths));
}

#[test]
fn nobody_is_obliged_to_load() {
    let mut parts = moments().pop().expect("a moment");
    parts.library[sizes::CART * 7 + 16] += 1;
    let mut library = Library::from_parts(parts).expect("parts of the layout");
    assert_eq!(library.commit(2, &[recut(8)]), Ok(5));
    assert_eq!(library.refresh(2), Ok(3));
    assert_eq!(load(&library.into_parts()), Err(Refusal::NotWhole), "nor does it mend by itself");
}
