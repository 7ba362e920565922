//! Preview, of request S-1: what commit would answer, and nothing changed. The
//! second is asserted by `Wall::preview_bytes`, byte by byte and with control.

mod wall;
use simulator::UNIT;
use wall::*;

#[test]
fn fresh_and_later() {
    let (a, eight) = (top_hour(), new(8, "Eight", 1, 1));
    let most = [eight, retitle(8, "Otto"), recut(8, 2, 2), withdraw(8), eight, withdraw(8), eight, recut(8, 3, 3)];
    let (first, later) = (fresh(), committed(3));
    for (session, operations, at_first, after_3) in [
        (1, a.to_vec(), done(1), refused(8)),
        (2, retitle(7, "B").to_vec(), refused(8), done(4)),
        (3, recut(7, 9, 9).to_vec(), refused(8), done(4)),
        (1, withdraw(7).to_vec(), refused(8), done(4)),
        (1, [withdraw(7), a].concat(), refused(8), done(4)),
        (2, [a, withdraw(7)].concat(), done(1), refused(8)),
        (1, [eight, eight].concat(), refused(8), refused(8)),
        (3, [eight, withdraw(8), eight].concat(), done(1), done(4)),
        (3, most.concat(), done(1), done(4)),
    ] {
        alike("fresh", &first, session, &operations, at_first);
        alike("later", &later, session, &operations, after_3);
    }
}

#[test]
fn the_log_nearly_full() {
    for (commits, count, words) in
        [(504, 8, done(505)), (505, 7, done(506)), (505, 8, refused(7)), (511, 1, done(512)), (511, 2, refused(7)), (512, 1, refused(7))]
    {
        let case = format!("{count} operations after {commits}");
        alike(&case, &committed(commits), 2, &recut(7, 9, 9).repeat(count), words);
    }
}

#[test]
fn a_waiting_read_stops_its_session_alone() {
    let edit = recut(7, 9, 9);
    let mut wall = committed(1);
    assert_eq!(wall.read(1, &by_numbers(&[7]), &mut [0; UNIT]), waits(1));
    alike("behind", &wall, 1, &edit, refused(4));
    alike("another session", &wall, 2, &edit, done(2));
    assert_eq!((wall.send(1), wall.refresh(1)), (done(1), done(1)));
    alike("caught up, not collected", &wall, 1, &edit, refused(4));
    assert_eq!(wall.collect(1, &mut [0; UNIT]), answered(1, 1));
    alike("collected", &wall, 1, &edit, done(2));
}

#[test]
fn the_head_ends_copy_decides() {
    let a = top_hour();
    let (mut emptied, mut held) = (committed(1), fresh());
    emptied.library[480..560].fill(0);
    held.library[10_720..10_800].copy_from_slice(&a);
    alike("empty, though the log made it", &emptied, 1, &a, done(2));
    alike("empty, though the log made it", &emptied, 1, &withdraw(7), refused(8));
    alike("held at studio 1 alone", &held, 1, &a, done(1));
    alike("held at studio 1 alone", &held, 1, &withdraw(7), refused(8));
}

/// Each row's input has the later rows' faults in it as well, as far as one input can.
#[test]
fn rows_from_top_to_bottom() {
    let mut wall = committed(511);
    assert_eq!(wall.read(1, &by_numbers(&[7]), &mut [0; UNIT]), waits(511));
    let mut unlaid = wall.clone();
    unlaid.control.studios = u32::MAX;
    let mut short = unlaid.clone();
    short.sessions.pop();
    let (a, formless, spaced) = (top_hour(), [9; UNIT], new(7, "A ", 1, 1));
    let (sixth, sixteenth, seventh) = ([spaced, formless].concat(), [a, spaced].concat(), [a, a].concat());
    let odd = &sixth[..159];
    for (wall, session, operations, words) in [
        (&short, 17, odd, refused(1)),
        (&unlaid, 17, odd, refused(2)),
        (&wall, 17, odd, refused(3)),
        (&wall, 1, odd, refused(4)),
        (&wall, 2, odd, refused(5)),
        (&wall, 2, &sixth, refused(6)),
        (&wall, 2, &sixteenth, refused(16)),
        (&wall, 2, &seventh, refused(7)),
        (&wall, 2, &a, refused(8)),
        (&wall, 2, &withdraw(7), done(512)),
    ] {
        alike("top to bottom", wall, session, operations, words);
    }
}

#[test]
fn lengths_and_layout() {
    for (place, (number, fault)) in (0..).zip(FAULTS) {
        let mut wall = committed(2);
        fault(&mut wall);
        alike(&format!("fault {place}"), &wall, 1, &recut(7, 9, 9), refused(number));
    }
}

#[test]
fn sessions_and_sizes() {
    let wall = committed(1);
    for session in [0, 4, 16, 17, 257, 65_537, (1 << 31) + 1, u32::MAX] {
        alike(&format!("session {session}"), &wall, session, &recut(7, 9, 9), refused(3));
    }
    let many = recut(7, 9, 9).repeat(5_000);
    for size in [0, 1, 79, 81, 639, 641, 720, 65_616, 327_760] {
        alike(&format!("{size} bytes"), &wall, 1, &many[..size], refused(5));
    }
}

#[test]
fn an_operation_out_of_form() {
    let wall = committed(1);
    for operation in formless() {
        let case = format!("{operation:?}");
        alike(&case, &wall, 1, &operation, refused(6));
        alike(&case, &wall, 1, &[withdraw(7), operation].concat(), refused(6));
    }
}

/// Neither an accepted preview nor one that gives 8 raises the session's number.
#[test]
fn no_read_waits_for_a_preview() {
    let (asked, mut output) = (by_numbers(&[7]), [9; UNIT]);
    let mut wall = fresh();
    assert_eq!(wall.preview(1, &[top_hour()]), done(1));
    assert_eq!(wall.read(1, &asked, &mut output), answered(0, 0));
    assert_eq!(wall.commit(3, &[top_hour()]), done(1));
    assert_eq!(wall.preview(1, &[top_hour()]), refused(8));
    assert_eq!(wall.read(1, &asked, &mut output), answered(0, 0));
    assert_eq!(wall.preview(1, &[recut(7, 9, 9)]), done(2));
    assert_eq!(wall.commit(2, &[recut(7, 8, 8)]), done(2));
    assert_eq!(wall.commit(1, &[recut(7, 9, 9)]), done(3), "a commit came between");
    assert_eq!(wall.read(1, &asked, &mut output), waits(3));
}
