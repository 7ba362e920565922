//! A commit refused with 8, of request S-3: its session's number becomes commits,
//! and nothing else changes. `Wall::commit_bytes` asserts it for every commit, so
//! every test of a commit's refusal has it.

mod wall;
use simulator::UNIT;
use wall::*;

/// Six commits in eleven records; no cart is held but 7. Sessions 1 to 3 have the
/// numbers 1, 0 and 6; studio 1 has 4 sent and 2 applied.
fn busy() -> Wall {
    let mut wall = committed(1);
    for n in 2..=6 {
        assert_eq!(wall.commit(3, &[recut(7, n, n), recut(7, n, n)]), done(n));
    }
    assert_eq!((wall.send(1), wall.send(1)), (done(1), done(2)));
    assert_eq!((wall.refresh(1), wall.refresh(1)), (done(1), done(2)));
    assert_eq!((wall.send(1), wall.send(1)), (done(3), done(4)));
    wall
}

/// Session 3, at studio 2, fills cart 40; session 1, at studio 1, is refused it.
#[test]
fn the_cart_that_is_taken_is_shown() {
    let (theirs, mine, asked) = (new(40, "Jingle", 401, 1_000), new(40, "Sponsor", 402, 2_000), by_numbers(&[40]));
    let mut output = [9; UNIT];
    let mut wall = fresh();
    assert_eq!(wall.commit(3, &[top_hour()]), done(1));
    assert_eq!(wall.commit(3, &[theirs]), done(2));
    assert_eq!(wall.commit(1, &[mine]), refused(8));
    assert_eq!(wall.number(1), 2);
    assert_eq!(wall.read(1, &asked, &mut output), waits(2));
    refreshed(&mut wall, 1);
    assert_eq!(wall.collect(1, &mut output), waits(2), "commit 1 is not the one that filled it");
    assert_eq!(wall.send(1), done(2));
    assert_eq!(wall.collect(1, &mut output), waits(2), "sent is not applied");
    assert_eq!(output, [9; UNIT]);
    assert_eq!(wall.refresh(1), done(2));
    assert_eq!(wall.collect(1, &mut output), answered(2, 1));
    assert_eq!(output, theirs);
    assert_eq!(wall.number(1), 2, "the state that collect showed is no higher");
}

/// 01's cases 8 and 10, asked by session 2, whose number is 0.
#[test]
fn cases_8_and_10_by_another_session() {
    let (a, eight) = (top_hour(), new(8, "Eight", 1, 1));
    let mut wall = committed(1);
    assert_eq!(wall.commit(2, &[a]), refused(8), "case 8");
    assert_eq!(wall.number(2), 1, "case 8");
    assert_eq!(wall.commit(1, &[withdraw(7), a]), done(2), "case 9");
    assert_eq!(wall.commit(2, &[eight, eight]), refused(8), "case 10");
    assert_eq!(wall.number(2), 2, "case 10");
    assert_eq!(wall.library[560..640], [0; UNIT], "case 10: cart 8 is empty in L(2)");
}

#[test]
fn any_operation_at_any_place() {
    let (wall, edit, eight) = (busy(), recut(7, 9, 9), new(8, "Eight", 1, 1));
    for operations in [
        vec![top_hour()],
        vec![retitle(8, "Otto")],
        vec![recut(8, 1, 1)],
        vec![withdraw(8)],
        vec![eight, eight],
        vec![withdraw(7), edit],
        vec![withdraw(8), edit],
        vec![edit, edit, edit, edit, edit, edit, edit, top_hour()],
    ] {
        for session in 1..=3 {
            let mut wall = wall.clone();
            assert_eq!(wall.commit(session, &operations), refused(8));
            assert_eq!(wall.number(session), 6, "session {session}, {operations:?}");
        }
    }
}

#[test]
fn from_0_and_after_every_commit() {
    let mut wall = fresh();
    assert_eq!(wall.commit(2, &[withdraw(7)]), refused(8));
    assert_eq!(wall.number(2), 0, "no commits");
    assert_eq!(wall.commit(1, &[top_hour()]), done(1));
    for n in 1..=5 {
        assert_eq!(wall.number(2), n - 1);
        assert_eq!(wall.commit(2, &[top_hour()]), refused(8));
        assert_eq!(wall.number(2), n);
        assert_eq!(wall.commit(1, &[recut(7, n, n)]), done(n + 1));
    }
    assert_eq!(wall.commit(2, &[withdraw(7)]), done(7));
    assert_eq!(wall.number(2), 7);
}

#[test]
fn a_number_that_is_commits_already() {
    let mut wall = fresh();
    assert_eq!(wall.commit(1, &[withdraw(7)]), refused(8));
    assert_eq!(wall, fresh(), "0 of 0 commits");
    assert_eq!(wall.read(1, &by_numbers(&[7]), &mut [0; UNIT]), answered(0, 0));
    wall = busy();
    assert_eq!(wall.commit(3, &[top_hour()]), refused(8));
    assert_eq!(wall, busy(), "by its own commit");
    assert_eq!(wall.commit(2, &[top_hour()]), refused(8));
    let raised = wall.clone();
    assert_eq!(wall.commit(2, &[withdraw(8)]), refused(8));
    assert_eq!(wall, raised, "by the refusal before");
}

#[test]
fn bytes_2_and_3_of_that_session_alone() {
    raises_two_bytes(|wall, session| wall.commit(session, &[top_hour()]), refused(8));
}

/// Each input has the fault of row 8 too, a new on cart 7. Session 1 waits with the
/// number 1, session 2 has 0, and there are 511 commits.
#[test]
fn an_earlier_row_leaves_the_number() {
    let mut wall = committed(1);
    assert_eq!(wall.read(1, &by_numbers(&[7]), &mut [0; UNIT]), waits(1));
    for n in 2..=511 {
        assert_eq!(wall.commit(3, &[recut(7, n, n)]), done(n));
    }
    let (mut short, mut unlaid, mut full) = (wall.clone(), wall.clone(), wall.clone());
    short.log.pop();
    unlaid.control.studios = 5;
    assert_eq!(full.commit(3, &[recut(7, 9, 9)]), done(512));
    let a = top_hour();
    let (formless, spaced, two) = ([a, [9; UNIT]].concat(), [a, retitle(7, "A ")].concat(), [a, a].concat());
    for (wall, session, operations, words) in [
        (&short, 2, &a[..], refused(1)),
        (&unlaid, 2, &a, refused(2)),
        (&wall, 0, &a, refused(3)),
        (&wall, 4, &a, refused(3)),
        (&wall, 17, &a, refused(3)),
        (&wall, 1, &a, refused(4)),
        (&wall, 2, &two[..81], refused(5)),
        (&wall, 2, &formless, refused(6)),
        (&wall, 2, &spaced, refused(16)),
        (&wall, 2, &two, refused(7)),
        (&full, 2, &a, refused(7)),
    ] {
        let mut left = wall.clone();
        assert_eq!(left.commit_bytes(session, operations), words);
        assert_eq!(left, *wall, "session {session}, {words:?}");
    }
    assert_eq!(wall.commit(2, &[a]), refused(8), "none of those rows");
    assert_eq!((wall.number(1), wall.number(2), wall.number(3)), (1, 511, 511));
}

/// An answered read raises it to the state that it showed, of 6 commits.
#[test]
fn no_other_refusal_raises_it() {
    let (mut wall, mut output) = (busy(), [0; UNIT]);
    assert_eq!(wall.read(2, &[0; UNIT], &mut output), refused(12));
    assert_eq!(wall.read(2, &by_numbers(&[7, 8]), &mut output), refused(13));
    assert_eq!(wall.collect(2, &mut output), refused(14));
    assert_eq!(wall.refresh(2), refused(11));
    assert_eq!(wall, busy());
    assert_eq!(wall.read(2, &by_numbers(&[7]), &mut output), answered(2, 1));
    assert_eq!(wall.number(2), 2);
}

#[test]
fn a_preview_raises_nothing() {
    let (mut wall, mut output) = (busy(), [0; UNIT]);
    for session in 1..=3 {
        assert_eq!(wall.preview(session, &[top_hour()]), refused(8));
    }
    assert_eq!(wall, busy());
    assert_eq!(wall.read(2, &by_numbers(&[7]), &mut output), answered(2, 1));
    assert_eq!(wall.commit(2, &[top_hour()]), refused(8));
    assert_eq!(wall.preview(2, &[top_hour()]), refused(8), "after commit's");
    assert_eq!(wall.read(2, &by_numbers(&[7]), &mut output), waits(6));
}

/// Cart 7 is lost at the head end, or cart 8 is there and in no record. The reads
/// are answered from studio 1's copy, which is as the log makes it.
#[test]
fn a_head_end_that_the_log_does_not_make() {
    let (mut lost, mut extra) = (committed(3), committed(3));
    lost.library[480..560].fill(0);
    extra.library[560..640].copy_from_slice(&new(8, "Bed", 1, 1));
    for (mut wall, operation) in [(lost, withdraw(7)), (extra, new(8, "Eight", 2, 2))] {
        let mut output = [9; 2 * UNIT];
        assert_eq!(wall.commit(2, &[operation]), refused(8));
        assert_eq!(wall.number(2), 3);
        assert_eq!(wall.read(2, &by_numbers(&[7, 8]), &mut output), waits(3));
        for n in 1..=3 {
            refreshed(&mut wall, n);
        }
        assert_eq!(wall.collect(2, &mut output), answered(3, 1));
        assert_eq!(output[..UNIT], new(7, "Top hour A", 3, 3));
        assert_eq!(output[UNIT..], [0; UNIT]);
    }
}

/// Studio 1 has taken all three commits, studio 2 none.
#[test]
fn a_studio_that_is_level_answers_at_once() {
    let (mut wall, asked, mut output) = (committed(3), by_numbers(&[7]), [9; UNIT]);
    for n in 1..=3 {
        refreshed(&mut wall, n);
    }
    for session in [2, 3] {
        assert_eq!(wall.commit(session, &[top_hour()]), refused(8));
        assert_eq!(wall.number(session), 3);
    }
    assert_eq!(wall.read(2, &asked, &mut output), answered(3, 1));
    assert_eq!(wall.read(3, &asked, &mut output), waits(3));
    assert_eq!(wall.commit(1, &[recut(7, 9, 9)]), done(4));
    assert_eq!(wall.read(2, &asked, &mut output), answered(3, 1), "commit 4 came after the refusal");
    assert_eq!(output, new(7, "Top hour A", 3, 3));
}

/// Session 1 is refused cart 7 at one commit; session 3 withdraws it as the second.
#[test]
fn a_withdraw_afterwards_does_not_matter() {
    let (mut wall, asked, mut output) = (fresh(), by_numbers(&[7]), [9; UNIT]);
    assert_eq!(wall.commit(3, &[top_hour()]), done(1));
    assert_eq!(wall.commit(1, &[top_hour()]), refused(8));
    assert_eq!(wall.commit(3, &[withdraw(7)]), done(2));
    assert_eq!(wall.read(1, &asked, &mut output), waits(1));
    refreshed(&mut wall, 1);
    assert_eq!(wall.collect(1, &mut output), answered(1, 1));
    assert_eq!(output, top_hour());
    refreshed(&mut wall, 2);
    assert_eq!(wall.read(1, &asked, &mut output), answered(2, 0));
    assert_eq!(output, [0; UNIT]);
    assert_eq!(wall.number(1), 2, "the state that the read showed");
    assert_eq!(wall.commit(1, &[top_hour()]), done(3));
}
