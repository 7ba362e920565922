//! 01's table of twelve cases.

mod wall;
use wall::*;

#[test]
fn cases_1_to_10() {
    let mut output = [9; 80];
    let mut wall = fresh();
    assert_eq!(wall.read(1, &by_numbers(&[7]), &mut output), answered(0, 0), "case 1");
    assert_eq!(output, [0; 80], "case 1");
    assert_eq!(wall.commit(1, &[top_hour()]), done(1), "case 2");
    assert_eq!(wall.read(1, &by_numbers(&[7]), &mut output), waits(1), "case 3");
    assert_eq!(wall.read(2, &by_numbers(&[7]), &mut output), answered(0, 0), "case 4");
    assert_eq!(wall.commit(1, &[top_hour()]), refused(4), "case 5");
    assert_eq!(wall.refresh(1), refused(11), "case 6");
    assert_eq!(wall.send(1), done(1), "case 7");
    assert_eq!(wall.refresh(1), done(1), "case 7");
    assert_eq!(wall.collect(1, &mut output), answered(1, 1), "case 7");
    assert_eq!(output, top_hour(), "case 7: a held cart begins with 1, as new does");
    assert_eq!(u32::from_le_bytes(output[4..8].try_into().unwrap()), 501, "case 7");
    assert_eq!(wall.commit(1, &[top_hour()]), refused(8), "case 8");
    assert_eq!(wall.number(1), 1, "case 8: commits, as its own commit had made it");
    assert_eq!(wall.commit(1, &[withdraw(7), top_hour()]), done(2), "case 9");
    let eight = new(8, "Eight", 1, 1);
    assert_eq!(wall.commit(1, &[eight, eight]), refused(8), "case 10");
    assert_eq!(wall.library[560..640], [0; 80], "case 10: cart 8 is empty in L(2)");
    assert_eq!(wall.number(1), 2, "case 10: commits, as its own commit had made it");
}

#[test]
fn case_11_long_titles() {
    let stem = "x".repeat(63);
    let (one, two) = (format!("{stem}1"), format!("{stem}2"));
    let mut wall = fresh();
    assert_eq!(wall.commit(1, &[new(1, &"x".repeat(65), 1, 1)]), refused(6));
    assert_eq!(wall.commit(1, &[new(1, &one, 11, 1), new(2, &two, 12, 1)]), done(1));
    assert_eq!(wall.send(1), done(1));
    assert_eq!(wall.refresh(1), done(1));
    let mut output = [9; 81];
    for (title, audio) in [(&one, 11), (&two, 12)] {
        assert_eq!(wall.read(1, &by_title(title), &mut output), answered(1, 1));
        assert_eq!(output[4..8], [audio, 0, 0, 0]);
        assert_eq!(output[80], 9, "later bytes stay");
    }
}

#[test]
fn case_12_equal_titles() {
    let mut wall = fresh();
    assert_eq!(wall.commit(3, &[new(1, "Bed", 1, 1), new(128, "Bed", 2, 2)]), done(1));
    assert_eq!(wall.send(2), done(1));
    assert_eq!(wall.refresh(2), done(1));
    let mut output = [9; 80];
    assert_eq!(wall.read(3, &by_title("Bed"), &mut output), answered(1, 2));
    assert_eq!(output, [0; 80]);
}
