//! 01's edges, and the edges of single rules.

mod wall;
use simulator::{LIBRARY, LOG, SESSION_MEMORY};
use wall::*;

#[test]
fn the_33rd_send_gives_10() {
    let mut wall = fresh();
    assert_eq!(wall.commit(1, &[top_hour()]), done(1));
    for n in 2..=33 {
        assert_eq!(wall.commit(1, &[recut(7, n, n)]), done(n));
    }
    for n in 1..=32 {
        assert_eq!(wall.send(1), done(n));
    }
    assert_eq!(wall.send(1), refused(10));
    assert_eq!(wall.refresh(1), done(1));
    assert_eq!(wall.send(1), done(33));
    assert_eq!(wall.send(1), refused(9), "row 9 stands before row 10");
}

#[test]
fn sixty_four_transactions_of_eight_fill_the_log() {
    let mut wall = fresh();
    let up = [new(1, "A", 1, 1), retitle(1, "B"), recut(1, 2, 2), withdraw(1)];
    let eight = [up, up].concat();
    for n in 1..=64 {
        assert_eq!(wall.commit(1, &eight), done(n));
    }
    assert_eq!(wall.control.used, 512);
    assert_eq!(wall.commit(1, &up), refused(7));
    assert_eq!(wall.commit(1, &[top_hour()]), refused(7));
    for n in 1..=64 {
        assert_eq!(wall.send(1), done(n));
        assert_eq!(wall.refresh(1), done(n));
    }
    assert_eq!(wall.library[10_240..20_480], wall.library[..10_240]);
}

#[test]
fn commit_number_512() {
    let mut wall = fresh();
    assert_eq!(wall.commit(3, &[top_hour()]), done(1));
    for n in 2..=512 {
        assert_eq!(wall.commit(3, &[recut(7, n, 1)]), done(n));
    }
    assert_eq!(wall.sessions[162..164], [0, 2]);
    assert_eq!(wall.commit(3, &[recut(7, 1, 1)]), refused(7));
    let mut output = [0; 80];
    assert_eq!(wall.read(3, &by_numbers(&[7]), &mut output), waits(512));
    for n in 1..=512 {
        assert_eq!(wall.collect(3, &mut output), waits(512));
        assert_eq!(wall.send(2), done(n));
        assert_eq!(wall.refresh(2), done(n));
    }
    assert_eq!(wall.collect(3, &mut output), answered(512, 1));
    assert_eq!(output[4..8], 512u32.to_le_bytes());
}

#[test]
fn output_for_32_numbers() {
    let mut wall = fresh();
    let request = by_numbers(&[128; 32]);
    let mut output = vec![9; 2_560];
    assert_eq!(wall.read(1, &request, &mut output[..2_559]), refused(13));
    assert_eq!(output, [9; 2_560]);
    assert_eq!(wall.read(1, &request, &mut output), answered(0, 0));
    assert_eq!(output, [0; 2_560]);
}

#[test]
fn row_13_stands_before_waiting() {
    let mut wall = fresh();
    assert_eq!(wall.commit(1, &[top_hour()]), done(1));
    let request = by_numbers(&[7, 7]);
    assert_eq!(wall.read(1, &request, &mut [0; 159]), refused(13));
    assert_eq!(wall.read(1, &request, &mut [0; 160]), waits(1));
    assert_eq!(wall.read(1, &request, &mut [0; 160]), refused(4));
    assert_eq!(wall.collect(1, &mut [0; 159]), refused(13));
    assert_eq!(wall.collect(1, &mut [0; 160]), waits(1));
    assert_eq!(wall.collect(2, &mut [0; 160]), refused(14));
}

#[test]
fn found_counts_places_that_are_held() {
    let mut wall = fresh();
    assert_eq!(wall.commit(1, &[top_hour()]), done(1));
    wall.send(1);
    wall.refresh(1);
    let mut output = [9; 240];
    assert_eq!(wall.read(1, &by_numbers(&[7, 8, 7]), &mut output), answered(1, 2));
    assert_eq!(output[..80], top_hour());
    assert_eq!(output[80..160], [0; 80]);
    assert_eq!(output[160..], top_hour());
}

#[test]
fn sizes_of_a_commit() {
    let mut wall = fresh();
    for size in [0, 1, 79, 81, 639, 641, 720, 8_000] {
        assert_eq!(wall.commit_bytes(1, &vec![0; size]), refused(5));
    }
    assert_eq!(wall.commit_bytes(1, &[0; 80]), refused(6));
    assert_eq!(wall.commit_bytes(1, &[0; 640]), refused(6));
}

#[test]
fn who_is_checked_for_any_number() {
    let mut wall = fresh();
    for session in [0, 4, 16, 17, u32::MAX] {
        assert_eq!(wall.commit(session, &[top_hour()]), refused(3));
        assert_eq!(wall.collect(session, &mut []), refused(3));
    }
    for studio in [0, 3, 4, 5, u32::MAX] {
        assert_eq!(wall.send(studio), refused(3));
        assert_eq!(wall.refresh(studio), refused(3));
    }
}

#[test]
fn setup_rows() {
    let mut wall = fresh();
    wall.commit(1, &[top_hour()]);
    let before = wall.clone();
    for (studios, bytes) in [
        (0, vec![0; 16]),
        (5, vec![0; 16]),
        (u32::MAX, vec![0; 16]),
        (2, vec![0; 15]),
        (2, vec![0; 17]),
        (2, [vec![0; 15], vec![3]].concat()),
    ] {
        assert_eq!(wall.setup(studios, &bytes), refused(15));
        assert_eq!(wall.control, simulator::Control::default());
        wall.control = before.control;
        assert_eq!(wall, before);
    }
    assert_eq!(wall.setup(4, &[4; 16]), done(0));
    assert_eq!((&wall.library[..], &wall.sessions[..]), (&[0; LIBRARY][..], &[0; SESSION_MEMORY][..]));
    let control = simulator::Control { studios: 4, session_studios: [4; 16], free_first: 1, free_last: 512, ..Default::default() };
    assert_eq!(wall.control, control);
    for (r, record) in (1..=512u16).zip(wall.log.chunks_exact(80)) {
        let mut free = [0; 80];
        free[12..14].copy_from_slice(&(if r < 512 { r + 1 } else { 0 }).to_le_bytes());
        assert_eq!(record, free, "record {r}");
    }
}

#[test]
fn lengths_come_first() {
    for (library, log, sessions) in
        [(LIBRARY - 1, LOG, SESSION_MEMORY), (51_200, LOG, SESSION_MEMORY), (LIBRARY, LOG + 1, SESSION_MEMORY), (LIBRARY, LOG, 0)]
    {
        let mut wall = fresh();
        wall.library.resize(library, 0);
        wall.log.resize(log, 0);
        wall.sessions.resize(sessions, 0);
        wall.control.studios = u32::MAX;
        assert_eq!(wall.send(0), refused(1));
        assert_eq!(wall.read(0, &[], &mut []), refused(1));
        assert_eq!(wall.retire(), refused(1));
        assert_eq!(wall.setup(9, &[]), refused(1));
    }
}
