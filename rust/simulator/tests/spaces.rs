//! Titles that begin or end with a space, of request S-2: refused as row 16 in
//! a new or retitle, and all else as before where they are stored or asked for.

mod wall;
use simulator::{UNIT, operation_in_form, request_in_form, title_spaced};
use wall::*;

/// Titles without.
fn unspaced() -> Vec<String> {
    let short = ["N w", "N  w", "N", "!", "~", "!News!", "0 0", "News bed"].map(String::from);
    [short.to_vec(), vec![long(1), long(62), "x".repeat(64)]].concat()
}

#[test]
fn the_ends_of_a_title() {
    let (first, later) = (fresh(), committed(1));
    for title in spaced() {
        alike(&format!("new {title:?}"), &first, 1, &new(7, &title, 1, 1), refused(16));
        alike(&format!("retitle {title:?}"), &later, 1, &retitle(7, &title), refused(16));
    }
    for title in unspaced() {
        alike(&format!("new {title:?}"), &first, 1, &new(7, &title, 1, 1), done(1));
        alike(&format!("retitle {title:?}"), &later, 1, &retitle(7, &title), done(2));
    }
}

#[test]
fn any_of_the_operations() {
    let (wall, edit) = (committed(1), recut(7, 9, 9));
    for count in 1..=8 {
        alike(&format!("none of {count}"), &wall, 2, &vec![edit; count].concat(), done(2));
        for place in 0..count {
            for operation in [new(8, "News ", 1, 1), retitle(7, " News")] {
                let mut operations = vec![edit; count];
                operations[place] = operation;
                alike(&format!("{operation:?} at {place} of {count}"), &wall, 2, &operations.concat(), refused(16));
            }
        }
    }
    let all = vec![retitle(7, " "); 8];
    alike("all of 8", &wall, 2, &all.concat(), refused(16));
}

#[test]
fn the_title_that_the_cart_has() {
    for title in spaced() {
        let (wall, same) = (stored(&title), retitle(7, &title));
        alike("the same", &wall, 1, &same, refused(16));
        alike("re-cut and the same", &wall, 1, &[recut(7, 9, 9), same].concat(), refused(16));
        alike("another and the same", &wall, 1, &[retitle(7, "News"), same].concat(), refused(16));
        alike("withdrawn and made again", &wall, 1, &[withdraw(7), new(7, &title, 501, 8_000)].concat(), refused(16));
    }
}

#[test]
fn a_stored_one_is_edited() {
    for title in spaced() {
        let wall = stored(&title);
        for (operation, left) in [
            (recut(7, 9, 8), new(7, &title, 9, 8)),
            (retitle(7, "News"), new(7, "News", 501, 8_000)),
            (retitle(7, "N w"), new(7, "N w", 501, 8_000)),
            (withdraw(7), [0; UNIT]),
        ] {
            let mut wall = wall.clone();
            alike("edited", &wall, 2, &operation, done(2));
            assert_eq!(wall.commit(2, &[operation]), done(2));
            assert_eq!(wall.library[480..560], left, "at the head end");
            assert_eq!(wall.log[80..160], operation);
            refreshed(&mut wall, 1);
            assert_eq!(wall.library[10_720..10_800], new(7, &title, 501, 8_000), "the record of before, at studio 1");
            refreshed(&mut wall, 2);
            assert_eq!(wall.library[10_720..10_800], left, "at studio 1");
        }
    }
}

#[test]
fn a_stored_one_is_refreshed_and_read() {
    for title in spaced() {
        let (mut wall, cart) = (stored(&title), new(7, &title, 501, 8_000));
        let (numbered, titled) = (by_numbers(&[7]), by_title(&title));
        let mut output = [9; UNIT];
        assert!(simulator::of_layout(&wall.library, &wall.log, &wall.sessions, &wall.control));
        assert_eq!(wall.read(1, &titled, &mut output), waits(1));
        assert_eq!(wall.sessions[16..80], titled[16..], "the request is stored with its spaces");
        assert_eq!(wall.collect(1, &mut output), waits(1));
        assert_eq!(wall.read(2, &titled, &mut output), answered(0, 0));
        refreshed(&mut wall, 1);
        output = [9; UNIT];
        assert_eq!(wall.collect(1, &mut output), answered(1, 1));
        assert_eq!(output, cart);
        for request in [numbered, titled] {
            output = [9; UNIT];
            assert_eq!(wall.read(2, &request, &mut output), answered(1, 1));
            assert_eq!(output, cart);
        }
    }
}

/// The record is a retitle; session 1's number is 2.
#[test]
fn a_stored_retitle_is_refreshed() {
    let mut wall = committed(1);
    assert_eq!(wall.commit(1, &[retitle(7, "News")]), done(2));
    let cart = new(7, " News ", 501, 8_000);
    wall.library[480..560].copy_from_slice(&cart);
    wall.log[80..160].copy_from_slice(&retitle(7, " News "));
    refreshed(&mut wall, 1);
    refreshed(&mut wall, 2);
    let mut output = [9; UNIT];
    assert_eq!(wall.read(1, &by_title(" News "), &mut output), answered(2, 1));
    assert_eq!(output, cart);
    assert_eq!(wall.read(1, &by_title("News"), &mut output), answered(2, 0));
}

/// Titles match byte for byte: a space at an end makes another title.
#[test]
fn titles_that_differ_by_a_space() {
    let mut wall = fresh();
    for (place, title) in [(80, "News bed"), (81, "News bed "), (82, " News bed"), (83, "News bed ")] {
        let number = u16::try_from(place - 79).unwrap();
        let at = 10_240 + UNIT * usize::from(number - 1);
        wall.library[at..at + UNIT].copy_from_slice(&new(number, title, place, 1));
    }
    for (title, found, audio) in
        [("News bed", 1, 80), (" News bed", 1, 82), ("News bed ", 2, 0), (" News bed ", 0, 0), ("News bed  ", 0, 0), (" ", 0, 0)]
    {
        let mut output = [9; UNIT];
        assert_eq!(wall.read(1, &by_title(title), &mut output), answered(0, found), "{title:?}");
        assert_eq!(output[4..8], [audio, 0, 0, 0], "{title:?}");
    }
}

#[test]
fn a_request_may_carry_spaces() {
    for title in spaced() {
        let (mut wall, request) = (fresh(), by_title(&title));
        assert!(request_in_form(&request));
        let mut output = [9; UNIT];
        assert_eq!(wall.read(1, &request, &mut output), answered(0, 0), "{title:?}");
        assert_eq!(output, [0; UNIT]);
        assert_eq!(wall.commit(1, &[new(7, "News", 1, 1)]), done(1));
        assert_eq!(wall.read(1, &request, &mut output), waits(1), "{title:?}");
        assert_eq!(wall.commit(2, &[new(8, "News bed", 2, 2)]), done(2), "such a request waits: of the layout");
        refreshed(&mut wall, 1);
        output = [9; UNIT];
        assert_eq!(wall.collect(1, &mut output), answered(1, 0), "{title:?}");
        assert_eq!(output, [0; UNIT]);
    }
}

/// Row 6 is judged for all operations first, and row 16 for all before 7 and 8.
#[test]
fn rows_6_and_7_and_8() {
    let (wall, nearly, full, edit) = (committed(1), committed(511), committed(512), recut(7, 9, 9));
    let spaced = retitle(7, "News ");
    let (mut late, mut formless, mut audio) = (edit, spaced, spaced);
    late[79] = 32;
    formless[17] = 31;
    audio[4] = 1;
    let (over, untitled) = (new(8, &" ".repeat(65), 1, 1), retitle(7, ""));
    for fault in [late, formless, audio, over, untitled, [32; UNIT], [0; UNIT]] {
        for wall in [&wall, &full] {
            alike("6 alone", wall, 1, &fault, refused(6));
            alike("6 after 16", wall, 1, &[spaced, fault].concat(), refused(6));
            alike("6 before 16", wall, 1, &[fault, spaced].concat(), refused(6));
            alike("6 last of 8", wall, 1, &[[spaced; 7].concat(), fault.to_vec()].concat(), refused(6));
        }
    }
    for operation in [spaced, new(8, " ", 1, 1)] {
        alike("16 and a full log", &full, 1, &operation, refused(16));
        alike("16 last of 8 and a full log", &full, 1, &[[edit; 7].concat(), operation.to_vec()].concat(), refused(16));
        alike("16 and one record too many", &nearly, 1, &[edit, operation].concat(), refused(16));
    }
    alike("a full log", &full, 1, &edit, refused(7));
    for operations in [
        vec![new(7, " A", 1, 1)],
        vec![retitle(8, "A ")],
        vec![top_hour(), spaced],
        vec![withdraw(8), edit, edit, edit, edit, edit, edit, spaced],
        vec![spaced, top_hour()],
        vec![new(7, " A", 1, 1), spaced],
    ] {
        alike("16 and a cart in the wrong state", &wall, 1, &operations.concat(), refused(16));
    }
    alike("a cart in the wrong state", &wall, 1, &retitle(8, "A"), refused(8));
}

#[test]
fn rows_above() {
    let mut wall = committed(1);
    assert_eq!(wall.read(1, &by_numbers(&[7]), &mut [0; UNIT]), waits(1));
    let mut unlaid = wall.clone();
    unlaid.control.commits = 2;
    let mut short = wall.clone();
    short.log.pop();
    let spaced = retitle(7, " ");
    for (wall, session, words) in
        [(&short, 2, refused(1)), (&unlaid, 2, refused(2)), (&wall, 4, refused(3)), (&wall, 1, refused(4)), (&wall, 2, refused(16))]
    {
        alike("one operation", wall, session, &spaced, words);
    }
    let nine = [spaced; 9].concat();
    for size in [0, 1, 17, 79, 81, 159, 639, 641, 720] {
        alike(&format!("{size} bytes"), &wall, 2, &nine[..size], refused(5));
        alike(&format!("{size} bytes, waiting"), &wall, 1, &nine[..size], refused(4));
    }
}

/// The session's number stays as well, and the commit's number is not used up.
#[test]
fn no_read_waits_for_a_refused_title() {
    let mut wall = fresh();
    assert_eq!(wall.commit(1, &[top_hour(), retitle(7, "News ")]), refused(16));
    let mut output = [9; UNIT];
    assert_eq!(wall.read(1, &by_numbers(&[7]), &mut output), answered(0, 0));
    assert_eq!(output, [0; UNIT]);
    assert_eq!(wall.commit(1, &[top_hour(), retitle(7, "News")]), done(1));
}

#[test]
fn form_is_as_before() {
    for title in spaced() {
        for operation in [new(7, &title, 1, 1), retitle(7, &title)] {
            assert!(operation_in_form(&operation) && title_spaced(&operation), "{title:?}");
        }
    }
    for title in unspaced() {
        for operation in [new(7, &title, 1, 1), retitle(7, &title)] {
            assert!(operation_in_form(&operation) && !title_spaced(&operation), "{title:?}");
        }
    }
    for operation in [recut(7, 1, 1), recut(32, 0x2020_2020, 0x2020_2020), withdraw(7), withdraw(32)] {
        assert!(operation_in_form(&operation) && !title_spaced(&operation));
    }
}

/// Any 80 bytes have an answer. Other kinds than new and retitle have no title.
#[test]
fn title_spaced_for_any_bytes() {
    for (kind, length) in (0..=255).flat_map(|kind| (0..=255).map(move |length| (kind, length))) {
        for fill in [0, 32, 255] {
            let mut unit = [fill; UNIT];
            (unit[0], unit[1]) = (kind, length);
            let answer = (kind == 1 || kind == 2) && length > 0 && fill == 32;
            assert_eq!(title_spaced(&unit), answer, "kind {kind}, length {length}, filled with {fill}");
        }
    }
}
