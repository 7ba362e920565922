//! Move, of request S-7, and the number that an answered read raises. That a move
//! changes its session's studio alone, or nothing where it is refused, is asserted by
//! `Wall::move_session`; that a reading call changes its session's request and number
//! alone, by `Wall::read`, `Wall::collect` and `Wall::forward`.

mod wall;
use simulator::UNIT;
use wall::*;

/// Session 2 made no commit; it was shown state 2 at studio 1.
#[test]
fn a_presenter_walks_to_a_studio_that_is_behind() {
    let (mut wall, asked, mut output) = (committed(2), by_numbers(&[7]), [9; UNIT]);
    refreshed(&mut wall, 1);
    refreshed(&mut wall, 2);
    assert_eq!(wall.commit(1, &[recut(7, 3, 3)]), done(3));
    assert_eq!(wall.read(2, &asked, &mut output), answered(2, 1));
    assert_eq!((output, wall.number(2)), (new(7, "Top hour A", 2, 2), 2));
    assert_eq!(wall.move_session(2, 2), done(2));
    output = [9; UNIT];
    assert_eq!(wall.read(2, &asked, &mut output), waits(2), "2 and not commits");
    assert_eq!(wall.send(2), done(1));
    assert_eq!(wall.collect(2, &mut output), waits(2), "sent is not applied");
    assert_eq!(wall.refresh(2), done(1));
    assert_eq!(wall.collect(2, &mut output), waits(2), "1 of 2");
    assert_eq!(output, [9; UNIT]);
    refreshed_at(&mut wall, 2, 2);
    assert_eq!(wall.collect(2, &mut output), answered(2, 1));
    assert_eq!((output, wall.number(2)), (new(7, "Top hour A", 2, 2), 2));
}

/// Session 3, at studio 2, has not been shown what session 2 has.
#[test]
fn a_move_is_of_one_session() {
    let (mut wall, asked, mut output) = (committed(1), by_numbers(&[7]), [9; UNIT]);
    refreshed(&mut wall, 1);
    assert_eq!(wall.read(2, &asked, &mut output), answered(1, 1));
    assert_eq!(wall.move_session(2, 2), done(2));
    assert_eq!(wall.control.session_studios[..4], [1, 2, 2, 0]);
    assert_eq!(wall.read(2, &asked, &mut output), waits(1));
    assert_eq!(wall.read(3, &asked, &mut output), answered(0, 0));
    assert_eq!(wall.read(1, &asked, &mut output), answered(1, 1), "studio 1");
}

#[test]
fn a_commit_is_waited_for_at_the_new_studio() {
    let (mut wall, asked, mut output) = (committed(1), by_numbers(&[7]), [9; UNIT]);
    refreshed(&mut wall, 1);
    assert_eq!(wall.move_session(1, 2), done(2));
    assert_eq!(wall.number(1), 1, "a move leaves it");
    assert_eq!(wall.clone().read(1, &asked, &mut output), waits(1));
    assert_eq!(wall.commit(1, &[recut(7, 2, 2)]), done(2), "a commit does not look at the studio");
    for n in 1..=2 {
        refreshed_at(&mut wall, 2, n);
    }
    assert_eq!(wall.read(1, &asked, &mut output), answered(2, 1));
    assert_eq!(output, new(7, "Top hour A", 2, 2));
    assert_eq!(wall.move_session(1, 1), done(1));
    assert_eq!(wall.read(1, &asked, &mut output), waits(2), "studio 1 has 1");
}

/// Session 1 has the number 1, which studio 2 has reached and studio 1 has not.
#[test]
fn a_studio_that_is_ahead_answers_at_once() {
    let (mut wall, asked, mut output) = (committed(1), by_title("Top hour A"), [9; UNIT]);
    refreshed_at(&mut wall, 2, 1);
    assert_eq!(wall.clone().read(1, &asked, &mut output), waits(1));
    assert_eq!(wall.move_session(1, 2), done(2));
    assert_eq!(wall.read(1, &asked, &mut output), answered(1, 1));
    assert_eq!(output, top_hour());
}

/// A forward at a studio that is behind what a read showed is the head end's.
#[test]
fn a_forward_after_a_move() {
    let (mut wall, asked, mut output) = (committed(3), by_numbers(&[7]), [9; UNIT]);
    refreshed(&mut wall, 1);
    assert_eq!(wall.forward(2, &asked, &mut output), answered(1, 1));
    assert_eq!((output, wall.number(2)), (top_hour(), 1));
    assert_eq!(wall.move_session(2, 2), done(2));
    assert_eq!(wall.forward(2, &asked, &mut output), answered(3, 1));
    assert_eq!((output, wall.number(2)), (new(7, "Top hour A", 3, 3), 3));
    assert_eq!(wall.move_session(2, 1), done(1));
    assert_eq!(wall.read(2, &asked, &mut output), waits(3), "studio 1 has 1");
}

/// Studio i has applied i of 4. A session goes up through the studios and down again.
#[test]
fn up_and_down_again() {
    let (mut wall, asked) = (studios(4), by_numbers(&[7]));
    assert_eq!(wall.commit(16, &[top_hour()]), done(1));
    for n in 2..=4 {
        assert_eq!(wall.commit(16, &[recut(7, n, n)]), done(n));
    }
    for (studio, n) in (1..=4).flat_map(|studio| (1..=studio).map(move |n| (studio, n))) {
        refreshed_at(&mut wall, studio, n);
    }
    for session in (1..=15).filter(|session| *session != 9) {
        for studio in 1..=4 {
            assert_eq!(wall.move_session(session, studio), done(studio));
            assert_eq!(wall.read(session, &asked, &mut [0; UNIT]), answered(studio, 1), "session {session}");
            assert_eq!(wall.number(session), studio, "session {session}");
        }
        for studio in (1..=3).rev() {
            assert_eq!(wall.move_session(session, studio), done(studio));
            assert_eq!(wall.clone().read(session, &asked, &mut [0; UNIT]), waits(4), "session {session}");
        }
    }
}

#[test]
fn to_the_present_studio() {
    for count in 1..=4 {
        let wall = studios(count);
        for session in (1..=16).filter(|session| *session != 9) {
            let (mut left, studio) = (wall.clone(), 1 + (session - 1) % count);
            assert_eq!(left.move_session(session, studio), done(studio));
            assert_eq!(left, wall, "session {session} of {count} studios");
        }
    }
    let (mut wall, mut output) = (committed(1), [9; UNIT]);
    assert_eq!(wall.move_session(1, 1), done(1));
    assert_eq!(wall.read(1, &by_numbers(&[7]), &mut output), waits(1), "its number is as it was");
}

/// Also an unused session, which stays so, and studio 0, which would make one unused.
#[test]
fn sessions_and_studios_of_any_size() {
    for count in 1..=4 {
        let wall = studios(count);
        for session in [0, 1, 8, 9, 10, 15, 16, 17, 257, 65_536, 65_537, (1 << 31) + 1, u32::MAX] {
            for studio in [0, 1, 2, 3, 4, 5, 6, 257, 65_536, 65_537, (1 << 31) + 1, u32::MAX] {
                let mut left = wall.clone();
                let known = [1, 8, 10, 15, 16].contains(&session) && (1..=count).contains(&studio);
                let words = if known { done(studio) } else { refused(3) };
                assert_eq!(left.move_session(session, studio), words, "session {session} to {studio} of {count}");
            }
        }
    }
}

/// Each pair of rows that can hold at once, the earlier one answered. Session 1 waits.
#[test]
fn rows_from_top_to_bottom() {
    let mut wall = committed(1);
    assert_eq!(wall.read(1, &by_numbers(&[7]), &mut [0; UNIT]), waits(1));
    let (mut short, mut unlaid) = (wall.clone(), wall.clone());
    short.sessions.pop();
    unlaid.control.studios = u32::MAX;
    let mut both = unlaid.clone();
    both.sessions.pop();
    for (wall, session, studio, words) in [
        (&both, 2, 2, refused(1)),
        (&both, 17, 0, refused(1)),
        (&both, 1, 2, refused(1)),
        (&short, 2, 2, refused(1)),
        (&short, 17, 2, refused(1)),
        (&short, 2, 3, refused(1)),
        (&short, 1, 2, refused(1)),
        (&unlaid, 2, 2, refused(2)),
        (&unlaid, 17, 2, refused(2)),
        (&unlaid, 4, 2, refused(2)),
        (&unlaid, 2, 0, refused(2)),
        (&unlaid, 1, 2, refused(2)),
        (&wall, 17, 0, refused(3)),
        (&wall, 4, 2, refused(3)),
        (&wall, 1, 0, refused(3)),
        (&wall, 1, 3, refused(3)),
        (&wall, 1, u32::MAX, refused(3)),
        (&wall, 1, 2, refused(4)),
        (&wall, 1, 1, refused(4)),
        (&wall, 2, 2, done(2)),
    ] {
        assert_eq!(wall.clone().move_session(session, studio), words, "session {session} to {studio}");
    }
}

#[test]
fn lengths_and_layout() {
    let (lengths, layouts) = FAULTS.split_at(3);
    let broken = |faults: &[Fault]| {
        let mut wall = committed(2);
        faults.iter().for_each(|(_, fault)| fault(&mut wall));
        wall
    };
    for (session, studio) in [(1, 2), (1, 1), (4, 2), (17, 2), (1, 0), (1, 3)] {
        for fault in FAULTS {
            assert_eq!(broken(&[fault]).move_session(session, studio), refused(fault.0));
        }
    }
    for (length, layout) in lengths.iter().flat_map(|length| layouts.iter().map(move |layout| (length, layout))) {
        assert_eq!(broken(&[*layout, *length]).move_session(1, 2), refused(1), "row 1 before row 2");
    }
}

/// Behind, and caught up but not collected. Its request and number stay.
#[test]
fn a_session_with_a_waiting_read_cannot_move() {
    for request in [by_numbers(&[7, 8]), by_title("Top hour A")] {
        let (mut wall, mut output) = (committed(1), [9; 2 * UNIT]);
        assert_eq!(wall.read(1, &request, &mut output), waits(1));
        assert_eq!((wall.move_session(1, 2), wall.move_session(1, 1)), (refused(4), refused(4)), "behind");
        assert_eq!((wall.move_session(2, 2), wall.move_session(3, 1)), (done(2), done(1)), "other sessions");
        assert_eq!(wall.collect(1, &mut output), waits(1));
        assert_eq!(wall.move_session(1, 2), refused(4), "a collect that waits");
        refreshed(&mut wall, 1);
        assert_eq!((wall.move_session(1, 2), wall.move_session(1, 1)), (refused(4), refused(4)), "caught up");
        assert_eq!(wall.collect(1, &mut output[..79]), refused(13));
        assert_eq!(wall.move_session(1, 2), refused(4), "a collect that is refused");
        assert_eq!(wall.collect(1, &mut output), answered(1, 1));
        assert_eq!(output[..UNIT], top_hour());
        assert_eq!(wall.move_session(1, 2), done(2), "collected");
        assert_eq!(wall.read(1, &request, &mut output), waits(1));
    }
}

/// Session 1 with every number, at studio 1 with every count applied, of 6 commits that
/// are all sent.
#[test]
fn an_answer_raises_the_number_to_its_state() {
    let request = by_numbers(&[7]);
    for (wall, applied, number) in every_six() {
        let (mut read, mut collect, mut forward) = (wall.clone(), wall.clone(), wall);
        collect.put_request(1, &request);
        let kinds = [
            (read.read(1, &request, &mut [0; UNIT]), read.number(1)),
            (collect.collect(1, &mut [0; UNIT]), collect.number(1)),
            (forward.forward(1, &request, &mut [0; UNIT]), forward.number(1)),
        ];
        let reached = (answered(applied, applied.min(1)), applied);
        let behind = [(waits(number), number), (waits(number), number), (answered(6, 1), 6)];
        let expected = if applied >= number { [reached; 3] } else { behind };
        assert_eq!(kinds, expected, "{applied} applied, number {number}");
    }
}

/// By title too, and where nothing is found: the state was shown.
#[test]
fn whatever_is_found() {
    for request in [by_numbers(&[100]), by_numbers(&[7; 32]), by_title("Bed"), by_title("None such")] {
        let (mut read, mut output) = (six(4), [0; 2_560]);
        read.put_number(1, 2);
        let (mut collect, mut forward) = (read.clone(), read.clone());
        collect.put_request(1, &request);
        let words = read.read(1, &request, &mut output);
        assert_eq!((words.0, words.1), (simulator::ANSWERED, 4));
        assert_eq!((collect.collect(1, &mut output), forward.forward(1, &request, &mut output)), (words, words));
        assert_eq!((read.number(1), collect.number(1), forward.number(1)), (4, 4, 4));
    }
}

/// Session 1 has the number 1; an answer raises it to 6.
#[test]
fn a_refusal_raises_nothing() {
    let (mut wall, request, formless) = (six(6), by_numbers(&[7]), [9; UNIT]);
    assert_eq!(wall.read(1, &formless, &mut [0; UNIT]), refused(12));
    assert_eq!(wall.forward(1, &formless, &mut [0; UNIT]), refused(12));
    assert_eq!(wall.read(1, &request, &mut [0; 79]), refused(13));
    assert_eq!(wall.forward(1, &request, &mut [0; 79]), refused(13));
    assert_eq!(wall.collect(1, &mut [0; UNIT]), refused(14));
    wall.put_request(1, &request);
    assert_eq!(wall.read(1, &request, &mut [0; UNIT]), refused(4));
    assert_eq!(wall.forward(1, &request, &mut [0; UNIT]), refused(4));
    assert_eq!(wall.collect(1, &mut [0; 79]), refused(13));
    assert_eq!(wall.number(1), 1);
    assert_eq!(wall.collect(1, &mut [0; UNIT]), answered(6, 1));
    assert_eq!(wall.number(1), 6);
}

/// Neither sends, refreshes, moves and previews, nor another session's read.
#[test]
fn no_other_call_raises_it() {
    let (mut wall, asked) = (committed(3), by_numbers(&[7]));
    for n in 1..=3 {
        refreshed(&mut wall, n);
    }
    assert_eq!(wall.read(1, &asked, &mut [0; UNIT]), answered(3, 1));
    assert_eq!(wall.preview(2, &[top_hour()]), refused(8));
    assert_eq!((wall.move_session(2, 2), wall.move_session(2, 1)), (done(2), done(1)));
    assert_eq!((wall.number(1), wall.number(2), wall.number(3)), (3, 0, 0));
    assert_eq!(wall.read(2, &asked, &mut [0; UNIT]), answered(3, 1));
    assert_eq!((wall.number(1), wall.number(2), wall.number(3)), (3, 3, 0));
}

/// Both bytes of the number, raised from 255, by a copy that the log does not make.
#[test]
fn the_numbers_255_to_512() {
    let (mut wall, asked, mut output) = (committed(512), by_numbers(&[7]), [9; UNIT]);
    for n in 1..=512 {
        refreshed(&mut wall, n);
        if [255, 256, 257, 511].contains(&n) {
            assert_eq!(wall.read(2, &asked, &mut output), answered(n, 1));
            assert_eq!(wall.number(2), n);
        }
    }
    cart(&mut wall.library[10_240..], 7).fill(0);
    assert_eq!(wall.read(2, &asked, &mut output), answered(512, 0));
    assert_eq!(wall.sessions[80..84], [0, 0, 0, 2]);
    assert_eq!(wall.move_session(2, 2), done(2));
    assert_eq!(wall.read(2, &asked, &mut output), waits(512));
}

/// Plays a call and gives its session and what that was told: its commit's number, a
/// state, or commits by refusal 8.
fn told(wall: &mut Wall, seed: u32) -> Option<(usize, u32)> {
    let (session, (kind, value, _)) = call(wall, seed);
    let place = usize::try_from(session).unwrap().checked_sub(1)?;
    match (kind, value) {
        (simulator::DONE | simulator::ANSWERED, _) => Some((place, value)),
        (simulator::REFUSED, 8) => Some((place, wall.control.commits)),
        _ => None,
    }
}

/// What a session was told is never followed by less, whatever studio it has moved to.
#[test]
fn a_session_never_walks_back() {
    let (mut wall, mut last, mut moves) = (fresh(), [0; 3], [0; 3]);
    for seed in seeds().take(2_000) {
        if seed / 1_024 % 4 == 0 {
            let (session, studio) = (1 + seed / 8 % 3, 1 + seed / 32 % 2);
            moves[session as usize - 1] += wall.move_session(session, studio).0;
        } else if let Some((place, value)) = told(&mut wall, seed) {
            assert!(value >= last[place], "session {} was told {}, then {value}", place + 1, last[place]);
            last[place] = value;
        }
    }
    assert!(moves.iter().all(|accepted| *accepted >= 50), "the list has moves: {moves:?}");
}

/// Beside it the rule of before S-7, by which an answer of the studio left the number,
/// is played: the same answers.
#[test]
fn without_moves_every_answer_is_as_it_was() {
    let (mut wall, mut old, mut differ) = (fresh(), fresh(), 0);
    for seed in seeds().take(1_500) {
        let given = old.clone();
        let (session, words) = call(&mut old, seed);
        assert_eq!(call(&mut wall, seed), (session, words));
        if words.0 == simulator::ANSWERED {
            let (number, studio) = (given.number(session), [0, 0, 1][session as usize - 1]);
            let of_studio = number <= given.control.applied[studio];
            old.put_number(session, if of_studio { number } else { given.control.commits });
        }
        differ += u32::from(wall != old);
    }
    assert!(differ >= 100, "the numbers do differ: {differ}");
}
