//! Forward, of request S-4: where the studio's copy has reached the session's number,
//! read's answer; otherwise the head end's, and the session's number becomes commits.
//! That a refused forward leaves memory and control, and what an answered one leaves, is
//! asserted by `Wall::forward`.

mod wall;
use simulator::{COPY, UNIT};
use wall::*;

/// Requests, and how many each of them finds in L(0) to L(6) of `six`.
fn asked() -> [([u8; UNIT], [u32; 7]); 5] {
    [
        (by_numbers(&[7, 8, 9, 10]), [0, 1, 2, 3, 3, 2, 2]),
        (by_numbers(&[9]), [0, 0, 0, 1, 1, 1, 1]),
        (by_title("Top hour A"), [0, 1, 1, 1, 1, 1, 0]),
        (by_title("Top hour B"), [0, 0, 0, 0, 0, 0, 1]),
        (by_title("Bed"), [0, 0, 1, 2, 2, 1, 1]),
    ]
}

/// The wall with studio 1 level with the head end: its copy and its counts.
fn level(wall: &Wall) -> Wall {
    let mut wall = wall.clone();
    wall.library.copy_within(..COPY, COPY);
    wall.control.sent[0] = wall.control.commits;
    wall.control.applied[0] = wall.control.commits;
    wall
}

/// A read by a session of studio 1 and what it writes over 9s. It must not wait.
fn answer_of_read(wall: &Wall, session: u32, request: &[u8]) -> (Words, [u8; 400]) {
    let (mut wall, mut output) = (wall.clone(), [9; 400]);
    let words = wall.read(session, request, &mut output);
    assert_eq!(words.0, simulator::ANSWERED);
    (words, output)
}

/// The producer of demand 00: two re-cuts, and a copy that is two edits behind.
#[test]
fn a_recut_is_shown_at_once() {
    let (mut wall, mut output) = (committed(1), [9; UNIT]);
    refreshed(&mut wall, 1);
    assert_eq!(wall.commit(1, &[recut(7, 502, 9_000)]), done(2));
    assert_eq!(wall.commit(1, &[recut(7, 503, 9_500)]), done(3));
    let before = wall.clone();
    assert_eq!(wall.forward(1, &by_numbers(&[7]), &mut output), answered(3, 1));
    assert_eq!(output, new(7, "Top hour A", 503, 9_500));
    assert_eq!(wall, before, "the number was commits already");
}

#[test]
fn reached_it_answers_as_read_does() {
    for (wall, applied, number) in every_six().into_iter().filter(|(_, applied, number)| number <= applied) {
        for (request, found) in asked() {
            let (mut left, mut raised, mut output) = (wall.clone(), wall.clone(), [9; 400]);
            let words = left.forward(1, &request, &mut output);
            let case = format!("{applied} applied, number {number}, {request:?}");
            assert_eq!(words, answered(applied, found[applied as usize]), "{case}");
            assert_eq!((words, output), answer_of_read(&wall, 1, &request), "{case}");
            raised.put_number(1, applied);
            assert_eq!(left, raised, "{case}: the number and nothing else");
        }
    }
}

#[test]
fn behind_the_head_end_answers() {
    for (wall, applied, number) in every_six().into_iter().filter(|(_, applied, number)| number > applied) {
        for (request, found) in asked() {
            let (mut left, mut output) = (wall.clone(), [9; 400]);
            let words = left.forward(1, &request, &mut output);
            let case = format!("{applied} applied, number {number}, {request:?}");
            assert_eq!(words, answered(6, found[6]), "{case}");
            assert_eq!((words, output), answer_of_read(&level(&wall), 1, &request), "{case}");
            let mut raised = wall.clone();
            raised.put_number(1, 6);
            assert_eq!(left, raised, "{case}: the number and nothing else");
            assert_eq!(wall.clone().read(1, &request, &mut output), waits(number), "{case}");
        }
    }
}

/// All 16 sessions have the number 3 of 4 commits; studio i has applied i.
#[test]
fn each_session_looks_at_its_studio() {
    let mut wall = fresh();
    assert_eq!(wall.setup(4, &[1, 2, 3, 4, 1, 2, 3, 4, 1, 2, 3, 4, 1, 2, 3, 4]), done(0));
    assert_eq!(wall.commit(1, &[top_hour()]), done(1));
    for n in 2..=4 {
        assert_eq!(wall.commit(1, &[recut(7, n, n)]), done(n));
    }
    for (studio, n) in (1..=4).flat_map(|studio| (1..=studio).map(move |n| (studio, n))) {
        assert_eq!((wall.send(studio), wall.refresh(studio)), (done(n), done(n)));
    }
    for session in 1..=16 {
        wall.put_number(session, 3);
    }
    for session in 1..=16 {
        let mut output = [9; UNIT];
        let state = [4, 4, 3, 4][(session as usize - 1) % 4];
        assert_eq!(wall.forward(session, &by_numbers(&[7]), &mut output), answered(state, 1), "session {session}");
        assert_eq!(output, new(7, "Top hour A", state, state), "session {session}");
        assert_eq!(wall.number(session), state, "session {session}");
    }
}

#[test]
fn bytes_2_and_3_of_that_session_alone() {
    raises_two_bytes(|wall, session| wall.forward(session, &by_title("Top hour A"), &mut [0; UNIT]), answered(300, 1));
}

/// Each row's input has the later rows' faults in it as well. Session 1 waits, and
/// session 2 is behind on one wall and has been reached on the other.
#[test]
fn rows_from_top_to_bottom() {
    for applied in [0, 6] {
        let mut wall = six(0);
        assert_eq!(wall.read(1, &by_numbers(&[9]), &mut [0; UNIT]), waits(1));
        for n in 1..=applied {
            assert_eq!(wall.refresh(1), done(n));
        }
        let mut unlaid = wall.clone();
        unlaid.control.studios = u32::MAX;
        let mut short = unlaid.clone();
        short.sessions.pop();
        let (formless, two) = (&[9; UNIT][..], &by_numbers(&[7, 8])[..]);
        for (wall, session, request, size, words) in [
            (&short, 17, formless, 0, refused(1)),
            (&unlaid, 17, formless, 0, refused(2)),
            (&wall, 17, formless, 0, refused(3)),
            (&wall, 4, formless, 0, refused(3)),
            (&wall, 1, formless, 0, refused(4)),
            (&wall, 1, two, 159, refused(4)),
            (&wall, 1, two, 160, refused(4)),
            (&wall, 2, formless, 0, refused(12)),
            (&wall, 2, two, 159, refused(13)),
        ] {
            stopped_alike(wall, session, request, size, words);
        }
        assert_eq!(wall.forward(2, two, &mut [0; 160]), answered(6, 1), "none of those rows");
    }
}

/// Read and forward are refused by the same number, and leave wall and output.
fn stopped_alike(wall: &Wall, session: u32, request: &[u8], size: usize, words: Words) {
    let (mut left, mut output) = (wall.clone(), vec![9; size]);
    assert_eq!(left.forward(session, request, &mut output), words, "session {session}, {size} of output, {request:?}");
    assert_eq!((&left, &output), (wall, &vec![9; size]), "a refused forward");
    assert_eq!(left.read(session, request, &mut output), words, "read: session {session}, {size} of output, {request:?}");
}

#[test]
fn lengths_and_layout() {
    for applied in [0, 6] {
        let wall = six(applied);
        assert_eq!(wall.clone().forward(1, &by_numbers(&[7]), &mut [0; UNIT]), answered(6, 1));
        for (number, fault) in FAULTS {
            let mut wall = wall.clone();
            fault(&mut wall);
            stopped_alike(&wall, 1, &by_numbers(&[7]), UNIT, refused(number));
        }
    }
}

#[test]
fn session_numbers_of_any_size() {
    for applied in [0, 6] {
        let wall = six(applied);
        for session in [0, 4, 16, 17, 257, 65_536, 65_537, (1 << 31) + 1, u32::MAX] {
            stopped_alike(&wall, session, &by_numbers(&[7]), UNIT, refused(3));
        }
        for session in 1..=3 {
            assert_eq!(wall.clone().forward(session, &by_numbers(&[7]), &mut [0; UNIT]), answered(6, 1));
        }
    }
}

#[test]
fn a_request_out_of_form() {
    let (numbers, title) = (by_numbers(&[7]), by_title("Bed"));
    let of_numbers = [(0, 0), (0, 3), (1, 0), (1, 2), (1, 33), (2, 1), (15, 1), (16, 0), (16, 129), (17, 1), (18, 1), (79, 1)];
    let of_title = [(0, 0), (0, 3), (1, 0), (1, 2), (1, 4), (1, 65), (2, 1), (15, 1), (16, 31), (16, 127), (79, 32)];
    let changed = [of_numbers.map(|(at, byte)| (numbers, at, byte)).to_vec(), of_title.map(|(at, byte)| (title, at, byte)).to_vec()];
    for wall in [six(0), six(6)] {
        for (mut request, at, byte) in changed.concat() {
            request[at] = byte;
            stopped_alike(&wall, 1, &request, 2_560, refused(12));
        }
        for size in [0, 1, 79, 81, 160, 65_616] {
            let long = [numbers.to_vec(), vec![0; 65_536]].concat();
            stopped_alike(&wall, 1, &long[..size], 2_560, refused(12));
        }
    }
}

/// Row 13 also where the copy is behind, as for read. Later bytes stay.
#[test]
fn output_of_every_length() {
    for (wall, numbers) in [six(0), six(6)].iter().flat_map(|wall| [0, 1, 2, 31, 32].map(|numbers| (wall, numbers))) {
        let request = if numbers == 0 { by_title("Bed") } else { by_numbers(&vec![9; numbers]) };
        let (need, found) = (UNIT * numbers.max(1), u32::try_from(numbers.max(1)).unwrap());
        for size in [0, 1, need - 1] {
            stopped_alike(wall, 1, &request, size, refused(13));
        }
        for size in [need, need + 1, need + UNIT, 10_000] {
            let mut output = vec![9; size];
            assert_eq!(wall.clone().forward(1, &request, &mut output), answered(6, found), "{numbers} numbers, {size}");
            assert_eq!(output[..need], new(9, "Bed", 3, 3).repeat(numbers.max(1)), "{numbers} numbers, {size}");
            assert_eq!(output[need..], vec![9; size - need], "{numbers} numbers, {size}: later bytes");
        }
    }
}

/// Nothing is cancelled or answered in its place, and it is collected by its own number.
#[test]
fn a_waiting_read_waits_on() {
    let (mut wall, mut output) = (six(0), [9; UNIT]);
    assert_eq!(wall.read(1, &by_title("Top hour A"), &mut output), waits(1));
    assert_eq!(wall.forward(1, &by_numbers(&[9]), &mut output), refused(4));
    assert_eq!(wall.forward(1, &by_title("Top hour A"), &mut output), refused(4), "the same request");
    assert_eq!(output, [9; UNIT]);
    assert_eq!(wall.forward(2, &by_numbers(&[9]), &mut output), answered(6, 1), "another session of the studio");
    assert_eq!(output, new(9, "Bed", 3, 3));
    assert_eq!((wall.number(1), wall.number(2)), (1, 6));
    assert_eq!(wall.collect(1, &mut output), waits(1));
    assert_eq!(wall.refresh(1), done(1));
    assert_eq!(wall.forward(1, &by_numbers(&[7]), &mut output), refused(4), "caught up and not collected");
    assert_eq!(wall.collect(1, &mut output), answered(1, 1));
    assert_eq!(output, top_hour());
    assert_eq!(wall.forward(1, &by_numbers(&[9]), &mut output), answered(1, 0), "the studio's copy has reached 1");
    assert_eq!(wall.number(1), 1);
}

#[test]
fn a_read_straight_afterwards_waits_for_that_many() {
    let (mut wall, request, mut forwarded, mut output) = (six(0), by_numbers(&[7, 8, 9]), [9; 240], [9; 240]);
    assert_eq!(wall.forward(1, &request, &mut forwarded), answered(6, 2));
    assert_eq!(wall.commit(3, &[withdraw(7)]), done(7));
    assert_eq!(wall.read(1, &request, &mut output), waits(6), "6 and not the commit after the forward");
    for n in 1..=6 {
        assert_eq!(wall.collect(1, &mut output), waits(6));
        assert_eq!(wall.refresh(1), done(n));
    }
    assert_eq!(output, [9; 240]);
    assert_eq!(wall.collect(1, &mut output), answered(6, 2));
    assert_eq!(output, forwarded);
    assert_eq!(wall.read(1, &request, &mut output), answered(6, 2));
    assert_eq!(wall.number(1), 6);
}

#[test]
fn forwards_one_after_the_other() {
    let (mut wall, request, mut output) = (six(0), by_numbers(&[7]), [9; UNIT]);
    assert_eq!(wall.forward(1, &request, &mut output), answered(6, 1));
    assert_eq!(wall.forward(1, &request, &mut output), answered(6, 1), "the number is commits already");
    assert_eq!(wall.commit(3, &[recut(7, 70, 70)]), done(7));
    assert_eq!(wall.forward(1, &request, &mut output), answered(7, 1));
    assert_eq!((output, wall.number(1)), (new(7, "Top hour B", 70, 70), 7));
    for n in 1..=6 {
        assert_eq!(wall.refresh(1), done(n));
    }
    assert_eq!(wall.commit(3, &[recut(7, 80, 80)]), done(8));
    assert_eq!(wall.forward(1, &request, &mut output), answered(8, 1), "6 of 7 applied");
    assert_eq!((output, wall.number(1)), (new(7, "Top hour B", 80, 80), 8));
    for n in 7..=8 {
        refreshed(&mut wall, n);
    }
    assert_eq!(wall.commit(3, &[withdraw(7)]), done(9));
    assert_eq!(wall.forward(1, &request, &mut output), answered(8, 1), "the studio's copy has reached 8");
    assert_eq!((output, wall.number(1)), (new(7, "Top hour B", 80, 80), 8));
}

/// Collect finds nothing waiting, and a commit is not stopped by row 4.
#[test]
fn no_request_is_stored() {
    for (applied, (request, _)) in [0, 6].into_iter().flat_map(|applied| asked().map(|asked| (applied, asked))) {
        let (mut wall, mut output) = (six(applied), [9; 400]);
        assert_eq!(wall.forward(1, &request, &mut output).0, simulator::ANSWERED);
        assert_eq!(wall.collect(1, &mut output), refused(14));
        assert_eq!(wall.commit(1, &[recut(7, 9, 9)]), done(7));
    }
}

/// At the head end cart 7 is lost and cart 10 is there, in no record.
#[test]
fn a_head_end_that_the_log_does_not_make() {
    let (bed, mut wall) = (new(10, "Bed", 10, 10), six(0));
    wall.library[480..560].fill(0);
    wall.library[720..800].copy_from_slice(&bed);
    for (request, words, shown) in [
        (by_numbers(&[7, 10]), answered(6, 1), [[0; UNIT], bed]),
        (by_title("Top hour B"), answered(6, 0), [[0; UNIT], [9; UNIT]]),
        (by_title("Bed"), answered(6, 2), [[0; UNIT], [9; UNIT]]),
    ] {
        let (mut left, mut raised, mut output) = (wall.clone(), wall.clone(), [9; 2 * UNIT]);
        assert_eq!(left.forward(1, &request, &mut output), words);
        assert_eq!(output[..], shown.concat());
        raised.put_number(1, 6);
        assert_eq!(left, raised, "no copy is put right");
    }
}

/// Studio 1, reached, has cart 10 in no record, and the head end has not.
#[test]
fn a_studio_that_the_log_does_not_make() {
    let (bed, mut wall, mut output) = (new(10, "Jingle", 10, 10), six(6), [9; UNIT]);
    wall.library[COPY + 720..COPY + 800].copy_from_slice(&bed);
    for request in [by_numbers(&[10]), by_title("Jingle")] {
        let (mut left, mut raised) = (wall.clone(), wall.clone());
        assert_eq!(left.forward(1, &request, &mut output), answered(6, 1));
        raised.put_number(1, 6);
        assert_eq!((output, left), (bed, raised));
    }
}

/// Titles of 64 bytes that differ in the last, and one title twice, as in 01's cases
/// 11 and 12. All of them are at the head end alone.
#[test]
fn by_title_at_the_head_end() {
    let stem = "x".repeat(63);
    let (one, two) = (new(1, &format!("{stem}1"), 11, 1), new(128, &format!("{stem}2"), 12, 1));
    let mut wall = fresh();
    assert_eq!(wall.commit(1, &[one, two, new(3, "Bed", 3, 3), new(4, "Bed", 4, 4), new(5, "Beds", 5, 5)]), done(1));
    for (title, found, shown) in [
        (&format!("{stem}1")[..], 1, one),
        (&format!("{stem}2"), 1, two),
        (&stem, 0, [0; UNIT]),
        (&format!("{stem}3"), 0, [0; UNIT]),
        ("Bed", 2, [0; UNIT]),
        ("Beds", 1, new(5, "Beds", 5, 5)),
        ("beds", 0, [0; UNIT]),
        ("Beds ", 0, [0; UNIT]),
    ] {
        let mut output = [9; UNIT];
        assert_eq!(wall.forward(1, &by_title(title), &mut output), answered(1, found), "{title}");
        assert_eq!(output, shown, "{title}");
    }
}

/// Session 1 has the number 1, session 3 the other commits up to 512.
#[test]
fn the_number_512() {
    let (mut wall, request, mut output) = (committed(1), by_numbers(&[7]), [9; UNIT]);
    for n in 2..=512 {
        assert_eq!(wall.commit(3, &[recut(7, n, n)]), done(n));
    }
    assert_eq!(wall.forward(1, &request, &mut output), answered(512, 1));
    assert_eq!(output, new(7, "Top hour A", 512, 512));
    assert_eq!(wall.sessions[..4], [0, 0, 0, 2]);
    assert_eq!(wall.read(1, &request, &mut output), waits(512));
    for n in 1..=512 {
        refreshed(&mut wall, n);
    }
    assert_eq!(wall.collect(1, &mut output), answered(512, 1));
    assert_eq!(wall.forward(1, &request, &mut output), answered(512, 1));
}

/// With commits 0 every number is 0 and is reached: the studio's copy answers, also
/// where it is no L(0).
#[test]
fn no_commits() {
    let (a, bed, mut output) = (top_hour(), new(7, "Bed", 1, 1), [9; UNIT]);
    let mut held = fresh();
    held.library[480..560].copy_from_slice(&a);
    held.library[COPY + 480..COPY + 560].copy_from_slice(&bed);
    for (wall, session, found, shown) in [(fresh(), 1, 0, [0; UNIT]), (held.clone(), 2, 1, bed), (held, 3, 0, [0; UNIT])] {
        let mut left = wall.clone();
        assert_eq!(left.forward(session, &by_numbers(&[7]), &mut output), answered(0, found));
        assert_eq!((output, left), (shown, wall));
    }
}

/// S-3's presenter, refused cart 40, is shown at once what is in it.
#[test]
fn after_a_commit_refused_with_8() {
    let (mut wall, theirs, mut output) = (fresh(), new(40, "Jingle", 401, 1_000), [9; UNIT]);
    assert_eq!(wall.commit(3, &[theirs]), done(1));
    assert_eq!(wall.forward(1, &by_numbers(&[40]), &mut output), answered(0, 0), "number 0 is reached");
    assert_eq!(wall.commit(1, &[new(40, "Sponsor", 402, 2_000)]), refused(8));
    assert_eq!(wall.commit(3, &[top_hour()]), done(2));
    assert_eq!(wall.forward(1, &by_numbers(&[40]), &mut output), answered(2, 1));
    assert_eq!((output, wall.number(1)), (theirs, 2));
}

/// What a session was last told, its commit's number or a state, is never followed by
/// a lower one. The list has waits, refusals, and answers of both copies in it.
#[test]
fn a_session_never_walks_back() {
    let (mut wall, mut told, mut kinds, mut seed) = (fresh(), [0; 3], [0; 4], 1u32);
    let mut at_head_end = 0;
    for _ in 0..1_500 {
        seed = seed.wrapping_mul(1_664_525).wrapping_add(1_013_904_223);
        let (session, (kind, value, _)) = call(&mut wall, seed >> 12);
        kinds[kind as usize] += 1;
        if session == 0 || ![simulator::DONE, simulator::ANSWERED].contains(&kind) {
            continue;
        }
        let (last, studio) = (&mut told[session as usize - 1], [0, 0, 1][session as usize - 1]);
        assert!(value >= *last, "session {session} was told {last}, then {value}");
        *last = value;
        at_head_end += u32::from(kind == simulator::ANSWERED && value > wall.control.applied[studio]);
    }
    assert!(kinds.iter().all(|count| *count >= 100) && at_head_end >= 50, "the list has all of it: {kinds:?}, {at_head_end}");
}
