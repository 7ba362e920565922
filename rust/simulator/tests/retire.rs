//! Retire, of request S-9, and a log whose records serve again. What an accepted retire
//! and an accepted commit make of log and control is asserted by `Wall::retire` and
//! `Wall::commit_bytes`, byte by byte; that a refused retire changes nothing, by the first.

mod wall;
use simulator::{COPY, DONE, RECORDS, REFUSED, UNIT, VanAnswer, of_layout, van_receive};
use wall::*;

fn sixth(wall: &Wall) -> &[u8] {
    &wall.library[5 * COPY..]
}

fn sixth_mut(wall: &mut Wall) -> &mut [u8] {
    &mut wall.library[5 * COPY..]
}

fn head_end(wall: &Wall) -> &[u8] {
    &wall.library[..COPY]
}

/// Transaction n, of 1 to 8 operations. The audio number of cart 1 is n in L(n) alone.
fn transaction(n: u32, count: usize) -> Vec<[u8; UNIT]> {
    let first = if n == 1 { new(1, "First", 1, 1) } else { recut(1, n, 1) };
    let mut operations = vec![recut(1, n, 2); count];
    operations[0] = first;
    operations
}

/// 01's wall with one transaction of each count.
fn logged(counts: &[usize]) -> Wall {
    let mut wall = fresh();
    for (n, count) in (1..).zip(counts) {
        assert_eq!(wall.commit(1 + n % 3, &transaction(n, *count)), done(n));
    }
    wall
}

/// Every studio applies what is committed.
fn level(wall: &mut Wall) {
    for studio in 1..=wall.control.studios {
        let applied = wall.control.applied[studio as usize - 1];
        (applied + 1..=wall.control.commits).for_each(|n| refreshed_at(wall, studio, n));
    }
}

/// `logged`, applied by every studio, with so many retired.
fn retired(counts: &[usize], count: u32) -> Wall {
    let mut wall = logged(counts);
    level(&mut wall);
    (1..=count).for_each(|n| assert_eq!(wall.retire(), done(n)));
    wall
}

/// A log with so many free records, up to 15. It is level and nothing is retired.
fn nearly_full(free: usize) -> Wall {
    let last = [[8, 8 - free % 8], [8 - free % 8, 0]][free / 8];
    let counts = [vec![8; 62], last.to_vec()].concat();
    let counts: Vec<usize> = counts.into_iter().filter(|count| *count > 0).collect();
    let wall = retired(&counts, 0);
    assert_eq!(wall.free_chain().len(), free);
    wall
}

/// Words of control from used on that retire and commit change.
fn counts(wall: &Wall) -> [u32; 6] {
    let control = wall.control;
    [control.used, control.commits, control.retired, control.oldest, control.free_first, control.free_last]
}

/// Each record is in exactly one chain, and control has the ends of both.
fn whole(wall: &Wall) {
    let (log, free) = (wall.log_chain(), wall.free_chain());
    let mut all = [log.concat(), free.clone()].concat();
    all.sort_unstable();
    assert!(all.into_iter().eq(1..=512), "every record once");
    assert_eq!(u32::from(free.last().copied().unwrap_or(0)), wall.control.free_last);
    assert_eq!(log.concat().len(), wall.control.used as usize);
    assert_eq!(log.len(), (wall.control.commits - wall.control.retired) as usize);
    assert!(of_layout(&wall.library, &wall.log, &wall.sessions, &wall.control));
}

#[test]
fn the_first_transactions_of_a_wall() {
    let (mut wall, mut output) = (fresh(), [9; 2 * UNIT]);
    assert_eq!(counts(&wall), [0, 0, 0, 0, 1, 512]);
    assert_eq!(wall.commit(1, &[top_hour(), new(8, "Bed", 2, 2), recut(8, 3, 3)]), done(1));
    assert_eq!(wall.commit(3, &[recut(7, 4, 4)]), done(2));
    assert_eq!(wall.commit(2, &[withdraw(8), retitle(7, "Top hour B")]), done(3));
    assert_eq!(counts(&wall), [6, 3, 0, 1, 7, 512]);
    assert_eq!(wall.retire(), refused(20), "no studio has applied it");
    (1..=3).for_each(|n| refreshed(&mut wall, n));
    assert_eq!(wall.retire(), refused(20), "studio 2 has not applied it");
    assert_eq!((wall.send(2), wall.retire()), (done(1), refused(20)), "sent is not applied");
    assert_eq!((wall.refresh(2), wall.retire()), (done(1), done(1)));
    assert_eq!(counts(&wall), [3, 3, 1, 4, 7, 3]);
    assert_eq!(cart(sixth_mut(&mut wall), 7), top_hour());
    assert_eq!(cart(sixth_mut(&mut wall), 8), new(8, "Bed", 3, 3));
    assert_eq!(wall.retire(), refused(20), "studio 2 has applied 1, which is retired");
    assert_eq!(wall.read(3, &by_numbers(&[7, 8]), &mut output), waits(2));
    refreshed_at(&mut wall, 2, 2);
    assert_eq!(wall.collect(3, &mut output), answered(2, 2), "transaction 2 is the first of the log");
    assert_eq!(output[..UNIT], new(7, "Top hour A", 4, 4));
    assert_eq!(wall.commit(1, &[new(9, "Nine", 9, 9), withdraw(9)]), done(4));
    assert_eq!(counts(&wall), [5, 4, 1, 4, 9, 3]);
    assert_eq!(wall.retire(), done(2));
    assert_eq!((wall.log_chain(), counts(&wall)), (vec![vec![5, 6], vec![7, 8]], [4, 4, 2, 5, 9, 4]));
}

#[test]
fn records_are_zeroed_but_for_their_links() {
    for count in 1..=8u16 {
        let mut wall = retired(&[count.into(), 2, 1], 1);
        for r in 1..=count {
            let mut free = [0; UNIT];
            free[12] = if r < count { u8::try_from(r + 1).unwrap() } else { 0 };
            assert_eq!(cart(&mut wall.log, r), free, "record {r} of {count}");
        }
        assert_eq!((wall.link(512, 12), wall.control.free_last), (1, count.into()));
        assert_eq!(wall.free_chain(), (count + 4..=512).chain(1..=count).collect::<Vec<u16>>());
    }
}

#[test]
fn none_or_still_needed() {
    for count in 1..=4 {
        let mut wall = studios(count);
        assert_eq!(wall.retire(), refused(20), "none is committed");
        (1..=2).for_each(|n| assert_eq!(wall.commit(1, &transaction(n, 1)), done(n)));
        for behind in 1..=count {
            let mut wall = wall.clone();
            for (studio, n) in (1..=count).filter(|studio| *studio != behind).flat_map(|studio| [(studio, 1), (studio, 2)]) {
                refreshed_at(&mut wall, studio, n);
            }
            assert_eq!(wall.retire(), refused(20), "{count} studios, {behind} has applied none");
            refreshed_at(&mut wall, behind, 1);
            assert_eq!(wall.retire(), done(1), "{count} studios");
            assert_eq!(wall.retire(), refused(20), "{count} studios, {behind} has applied 1");
            refreshed_at(&mut wall, behind, 2);
            assert_eq!((wall.retire(), wall.retire()), (done(2), refused(20)), "{count} studios, none is left");
        }
    }
}

#[test]
fn until_there_is_none() {
    let mut wall = retired(&[1, 8, 3, 2, 5], 0);
    for n in 1..=5 {
        assert_eq!(wall.retire(), done(n));
        whole(&wall);
        assert_eq!(wall.load(), done(5), "{n} retired");
    }
    assert_eq!((wall.retire(), wall.retire()), (refused(20), refused(20)));
    assert_eq!(counts(&wall), [0, 5, 5, 0, 20, 19]);
    assert_eq!(sixth(&wall), head_end(&wall));
    assert_eq!(wall.commit(1, &transaction(6, 2)), done(6));
    assert_eq!((wall.retire(), counts(&wall)), (refused(20), [2, 6, 5, 20, 22, 19]));
    level(&mut wall);
    assert_eq!((wall.retire(), counts(&wall)), (done(6), [0, 6, 6, 0, 22, 21]));
}

/// On a wall whose oldest can be retired, and on one where it is needed.
#[test]
fn lengths_and_layout_before_20() {
    let (needed, mut ready) = (committed(2), committed(2));
    level(&mut ready);
    assert_eq!((ready.clone().retire(), needed.clone().retire()), (done(1), refused(20)));
    let (lengths, layouts) = FAULTS.split_at(3);
    for wall in [&needed, &ready] {
        for (place, (row, fault)) in (0..).zip(FAULTS) {
            let mut wall = wall.clone();
            fault(&mut wall);
            assert_eq!(wall.retire(), refused(row), "fault {place}");
        }
        for ((_, length), (_, layout)) in lengths.iter().flat_map(|length| layouts.iter().map(move |layout| (length, layout))) {
            let mut wall = wall.clone();
            layout(&mut wall);
            length(&mut wall);
            assert_eq!(wall.retire(), refused(1), "row 1 before row 2");
        }
    }
}

#[test]
fn control_words_of_any_size() {
    let whole = retired(&[3, 2, 1], 1);
    for place in 0..31 {
        let right = *word(&mut whole.control.clone(), place);
        for more in [513, 1 << 16, 1 << 24, 1 << 31, u32::MAX - 512] {
            let mut wall = whole.clone();
            *word(&mut wall.control, place) = right + more;
            assert_eq!(wall.retire(), refused(2), "word {place} as {right} and {more}");
        }
    }
    assert_eq!(whole.clone().retire(), done(2));
}

/// The effect is 01's, whatever the sixth copy holds: nothing on a cart in the other state.
#[test]
fn each_operation_on_either_state() {
    let (bed, nothing) = (new(7, "Bed", 2, 3), [0; UNIT]);
    for (operation, on_empty, on_held) in [
        (bed, bed, top_hour()),
        (retitle(7, "Bed"), nothing, new(7, "Bed", 501, 8_000)),
        (recut(7, 2, 3), nothing, new(7, "Top hour A", 2, 3)),
        (withdraw(7), nothing, nothing),
    ] {
        for (before, after) in [(nothing, on_empty), (top_hour(), on_held)] {
            let mut wall = aged(fresh(), 4);
            sixth_mut(&mut wall).copy_from_slice(&full("Full"));
            cart(sixth_mut(&mut wall), 7).copy_from_slice(&before);
            cart(&mut wall.library, 7).copy_from_slice(if operation[0] == 1 { &nothing } else { &bed });
            let mut expected = sixth(&wall).to_vec();
            cart(&mut expected, 7).copy_from_slice(&after);
            assert_eq!(wall.commit(1, &[operation]), done(5));
            level(&mut wall);
            assert_eq!(wall.retire(), done(5));
            assert_eq!(sixth(&wall), expected, "{operation:?} on {before:?}");
        }
    }
}

/// Records 511 and 512, then 1 and 2, which were retired first.
#[test]
fn indexes_that_go_down() {
    let mut wall = retired(&[[vec![2, 2], vec![8; 63]].concat(), vec![2]].concat(), 2);
    assert_eq!((counts(&wall), wall.free_chain()), ([506, 66, 2, 5, 511, 4], vec![511, 512, 1, 2, 3, 4]));
    assert_eq!(wall.commit(1, &transaction(67, 4)), done(67));
    assert_eq!(wall.log_chain().last(), Some(&vec![511, 512, 1, 2]));
    assert_eq!((wall.link(512, 12), wall.link(1, 12), wall.link(2, 12)), (1, 2, 0));
    assert_eq!(wall.commit(1, &transaction(68, 1)), done(68));
    assert_eq!((wall.link(511, 14), counts(&wall)), (3, [511, 68, 2, 5, 4, 4]), "its next transaction begins at 3");
    assert_eq!(wall.commit(1, &transaction(69, 1)), done(69));
    assert_eq!((wall.link(3, 14), counts(&wall)), (4, [512, 69, 2, 5, 0, 0]), "none is free");
    level(&mut wall);
    assert_eq!(wall.library[COPY..2 * COPY], wall.library[..COPY]);
    assert_eq!((wall.load(), wall.commit(1, &transaction(70, 1))), (done(69), refused(7)));
    for n in 3..=69 {
        assert_eq!(wall.retire(), done(n));
    }
    assert_eq!(wall.free_chain(), (5..=512).chain(1..=4).collect::<Vec<u16>>());
    assert_eq!(sixth(&wall), head_end(&wall));
}

/// A transaction of the log may take its records from several retired ones, in any order.
#[test]
fn the_order_of_the_free_chain() {
    let mut wall = nearly_full(0);
    assert_eq!((wall.control.free_first, wall.control.free_last), (0, 0));
    assert_eq!(wall.retire(), done(1));
    assert_eq!(wall.free_chain(), (1..=8).collect::<Vec<u16>>(), "they are the first and the last");
    for (n, count) in [(65, 3), (66, 1), (67, 2)] {
        assert_eq!(wall.commit(2, &transaction(n, count)), done(n));
    }
    assert_eq!(wall.log_chain()[63..], [vec![1, 2, 3], vec![4], vec![5, 6]]);
    level(&mut wall);
    for n in 2..=64 {
        assert_eq!(wall.retire(), done(n));
    }
    assert_eq!((wall.free_chain()[..3].to_vec(), wall.control.free_last), (vec![7, 8, 9], 512));
    for (n, last) in [(65, 3), (66, 4), (67, 6)] {
        assert_eq!((wall.retire(), wall.control.free_last), (done(n), last));
    }
    assert_eq!(wall.free_chain(), (7..=512).chain(1..=6).collect::<Vec<u16>>());
    whole(&wall);
}

/// Commit and preview, for every count of operations and of free records around it.
#[test]
fn refusal_7_on_both_sides() {
    for free in 0..=10 {
        let wall = nearly_full(free);
        let next = wall.control.commits + 1;
        for count in 1..=8 {
            let words = if count <= free { done(next) } else { refused(7) };
            alike(&format!("{count} of {free}"), &wall, 2, &transaction(next, count).concat(), words);
        }
        let mut roomy = wall.clone();
        assert_eq!(roomy.retire(), done(1));
        alike("8 more are free", &roomy, 2, &transaction(next, 8).concat(), done(next));
    }
}

/// A retire makes room for as many operations as it had, and for no more.
#[test]
fn room_for_as_many_as_are_retired() {
    let counts = [vec![1, 3, 5, 2, 7, 6, 8, 4, 4], vec![8; 59]].concat();
    let full = retired(&counts, 0);
    let mut wall = full.clone();
    for (n, count) in (1..).zip(&counts[..8]) {
        let next = wall.control.commits + 1;
        assert_eq!(wall.commit(1, &transaction(next, 1)), refused(7));
        assert_eq!(wall.retire(), done(n));
        if *count < 8 {
            alike("one more", &wall, 1, &transaction(next, count + 1).concat(), refused(7));
        }
        assert_eq!(wall.commit(1, &transaction(next, *count)), done(next));
        assert_eq!((wall.control.used, wall.control.free_first, wall.control.free_last), (512, 0, 0));
        assert_eq!(wall.log_chain().last(), Some(&full.log_chain()[n as usize - 1]), "the same records");
        whole(&wall);
    }
}

/// Rows of a commit where the log is full, or 65,535 is used: 16, 7, 8.
#[test]
fn row_7_after_16_and_before_8() {
    let used_up = aged(retired(&[1, 1, 1], 1), 65_532);
    assert_eq!((used_up.control.commits, used_up.control.used), (65_535, 2));
    for wall in [nearly_full(0), used_up] {
        for (operation, row) in [(retitle(1, "A "), 16), (recut(1, 9, 9), 7), (new(1, "A", 1, 1), 7), (withdraw(9), 7), ([9; UNIT], 6)] {
            for count in [1, 8] {
                alike("no number or no record is left", &wall, 2, &operation.repeat(count), refused(row));
            }
        }
    }
}

/// Commit 65,535 is the last. All else goes on.
#[test]
fn the_last_number() {
    let (mut wall, asked, mut output) = (aged(retired(&[1, 2, 3], 2), 65_531), by_numbers(&[1]), [9; UNIT]);
    alike("the last number", &wall, 1, &recut(1, 9, 9), done(65_535));
    assert_eq!(wall.commit(1, &[recut(1, 9, 9)]), done(65_535));
    assert_eq!((wall.number(1), counts(&wall)), (65_535, [4, 65_535, 65_533, 4, 8, 3]));
    assert_eq!(wall.commit(2, &[recut(1, 9, 9)]), refused(7));
    assert_eq!(wall.commit(2, &[withdraw(9)]), refused(7));
    assert_eq!(wall.read(1, &asked, &mut output), waits(65_535));
    assert_eq!(wall.forward(2, &asked, &mut output), answered(65_534, 1), "studio 1 has reached its number");
    wall.put_number(2, 65_535);
    assert_eq!(wall.forward(2, &asked, &mut output), answered(65_535, 1));
    assert_eq!(wall.van_write(65_535, &mut [0; 84]), done(84));
    assert_eq!((wall.retire(), wall.retire()), (done(65_534), refused(20)));
    level(&mut wall);
    assert_eq!(wall.collect(1, &mut output), answered(65_535, 1));
    assert_eq!(output, new(1, "First", 9, 9));
    assert_eq!((wall.retire(), wall.retire(), wall.load()), (done(65_535), refused(20), done(65_535)));
    assert_eq!((wall.commit(2, &[recut(1, 9, 9)]), wall.preview(1, &[withdraw(9)])), (refused(7), refused(7)), "all records are free");
    assert_eq!((wall.van_write(65_535, &mut [0; 84]), wall.van_write(65_536, &mut [0; 84])), (refused(21), refused(17)));
    assert_eq!((wall.send(1), wall.refresh(1), wall.move_session(1, 2)), (refused(9), refused(11), done(2)));
}

/// Row 21 for numbers that are retired, with any output; 17 for all others that have no
/// message, 0 among them.
#[test]
fn the_writer() {
    for count in 0..=5 {
        let mut wall = retired(&[1, 2, 8, 1, 3], count);
        let far = [65_535, 65_536, 65_537, 65_538, 65_541, (1 << 31) + 1, u32::MAX - 1, u32::MAX];
        for number in (0..=7).chain(far) {
            for size in [0, 83, 84, 163, 164, 643, 644, 1_000] {
                let length = 4 + UNIT * [0, 1, 2, 8, 1, 3, 0, 0][number.min(7) as usize];
                let words = match number {
                    1..=5 if number <= count => refused(21),
                    1..=5 if length <= size => done(u32::try_from(length).unwrap()),
                    _ => refused(17),
                };
                assert_eq!(wall.van_write(number, &mut vec![9; size]), words, "{number}, {count} retired, {size}");
            }
        }
        for fault in FAULTS.iter().take(10) {
            let mut wall = wall.clone();
            fault.1(&mut wall);
            assert_eq!(wall.van_write(1, &mut [9; 644]), refused(fault.0), "rows 1 and 2 before 21");
        }
    }
}

/// Messages stay the same while their transactions are in the log, and may arrive later.
#[test]
fn a_van_beside_retire_calls() {
    let (mut wall, mut messages) = (retired(&[1, 2, 3, 4], 0), Vec::new());
    for (n, length) in [(1, 84), (2, 164), (3, 244), (4, 324)] {
        let mut message = vec![9; length as usize];
        assert_eq!(wall.van_write(n, &mut message), done(length));
        messages.push(message);
    }
    let (mut copy, mut lagging) = (vec![0; COPY], vec![0; COPY]);
    assert_eq!(van_receive(&mut lagging, 0, &messages[0]).kind, DONE);
    for n in 1..=4 {
        let message = &messages[n as usize - 1];
        let mut again = vec![9; message.len()];
        assert_eq!((wall.van_write(n, &mut again).0, &again), (DONE, message), "{n} of the log");
        assert_eq!((wall.retire(), wall.van_write(n, &mut again)), (done(n), refused(21)));
        assert_eq!(van_receive(&mut copy, n - 1, message), VanAnswer { kind: 1, value: n, applied: n });
        assert_eq!(copy, sixth(&wall));
    }
    assert_eq!(van_receive(&mut lagging, 1, &messages[2]), VanAnswer { kind: 0, value: 18, applied: 1 }, "2 is lost");
}

/// The oldest of the log acts on what the sixth copy has, and on nothing else.
#[test]
fn load_begins_with_the_sixth_copy() {
    for count in 1..=4 {
        let whole = retired(&[1, 2, 1, 3], count);
        assert_eq!(whole.clone().load(), done(4), "{count} retired");
        let (mut emptied, mut renamed, mut extra, mut alike) = (whole.clone(), whole.clone(), whole.clone(), whole.clone());
        sixth_mut(&mut emptied).fill(0);
        cart(sixth_mut(&mut renamed), 1)[16] += 1;
        cart(sixth_mut(&mut extra), 9).copy_from_slice(&new(9, "Bed", 1, 1));
        assert_eq!([emptied.load(), renamed.load(), extra.load()], [refused(19); 3], "{count} retired");
        for place in [0, 1, 2, 5] {
            cart(&mut alike.library[COPY * place..], 1)[16] += 1;
            cart(&mut alike.library[COPY * place..], 9).copy_from_slice(&new(9, "Bed", 1, 1));
            let words = if place == 5 { done(4) } else { refused(19) };
            assert_eq!(alike.load(), words, "{count} retired: the other copies fit it from the last on");
        }
    }
}

/// The sixth copy's audio number of cart 1 does not show in a copy that has applied more.
#[test]
fn what_no_copy_shows_of_the_sixth() {
    let mut wall = retired(&[1, 1, 1], 1);
    cart(sixth_mut(&mut wall), 1)[4] = 99;
    assert_eq!(wall.load(), done(3));
    (wall.control.applied[1], wall.library[2 * COPY + 4]) = (1, 1);
    assert_eq!(wall.load(), refused(19), "studio 2 has L(1), and the sixth copy has another");
    wall.library[2 * COPY + 4] = 99;
    assert_eq!(wall.load(), done(3));
}

/// A studio with applied = retired has the sixth copy itself.
#[test]
fn a_copy_that_is_the_sixth() {
    let mut wall = logged(&[1, 2, 1]);
    (1..=3).for_each(|n| refreshed(&mut wall, n));
    refreshed_at(&mut wall, 2, 1);
    assert_eq!((wall.retire(), wall.load()), (done(1), done(3)));
    assert_eq!(wall.library[2 * COPY..3 * COPY], wall.library[5 * COPY..]);
    for from in [0, 1, 3] {
        let mut wall = wall.clone();
        wall.library.copy_within(COPY * from..COPY * (from + 1), 2 * COPY);
        assert_eq!(wall.load(), refused(19), "copy {from} at studio 2");
    }
}

/// Judged in what the sixth copy and the operations before make. No copy differs.
#[test]
fn load_and_an_operation_in_the_wrong_state() {
    let held = top_hour();
    for (operation, met) in
        [(new(7, "Bed", 1, 1), false), (recut(7, 501, 8_000), true), (retitle(7, "Top hour A"), true), (withdraw(8), false)]
    {
        let mut wall = aged(fresh(), 9);
        for place in [1, 2, 5] {
            cart(&mut wall.library[COPY * place..], 7).copy_from_slice(&held);
        }
        cart(&mut wall.library, if met { 7 } else { 8 }).copy_from_slice(&new(if met { 7 } else { 8 }, "Bed", 1, 1));
        assert_eq!(wall.commit(1, &[operation]), done(10));
        wall.library.copy_within(5 * COPY.., 0);
        assert_eq!(wall.load(), if met { done(10) } else { refused(19) }, "{operation:?}");
        level(&mut wall);
        assert_eq!(wall.retire(), done(10));
        assert_eq!(wall.load(), done(10), "{operation:?} is in the log no more");
    }
}

/// One list with retire calls and without: the same answers but for 21 at the writer. The
/// sixth copy is L(retired), and each record is in one chain.
#[test]
fn a_list_with_and_without() {
    let mut rows = [0; 22];
    for count in 1..=4 {
        let (mut wall, mut plain) = (studios(count), studios(count));
        let mut libraries = vec![vec![0; COPY]];
        for seed in seeds().skip(count as usize).take(900) {
            if retires(seed) {
                let (kind, value, _) = wall.retire();
                rows[if kind == REFUSED { value as usize } else { 0 }] += 1;
            } else {
                let (with, without) = (any_output(&mut wall, seed), any_output(&mut plain, seed));
                let retired = with.0 == refused(21);
                let written = without.0.0 == DONE || without.0 == refused(17);
                assert!(retired && written || with == without, "seed {seed}");
                rows[21] += usize::from(retired);
            }
            if libraries.len() <= wall.control.commits as usize {
                libraries.push(head_end(&wall).to_vec());
            }
            whole(&wall);
            assert_eq!(sixth(&wall), libraries[wall.control.retired as usize], "L(retired)");
            assert_eq!((&wall.library[..5 * COPY], &wall.sessions), (&plain.library[..5 * COPY], &plain.sessions));
            assert_eq!(
                (wall.control.sent, wall.control.applied, wall.control.commits),
                (plain.control.sent, plain.control.applied, plain.control.commits)
            );
        }
        assert!(wall.control.retired >= 5, "{count} studios: {:?}", wall.control);
    }
    assert!(rows[0] >= 50 && rows[20] >= 20 && rows[21] >= 10, "{rows:?}");
}

/// The same list on walls whose records are in another order, and on one with many more
/// transactions retired.
fn alike_on_other_walls(mut wall: Wall) -> (Wall, [u32; 22]) {
    let (orders, mut rows) = ([shuffled(1), shuffled(2), (1..=512).rev().collect()], [0; 22]);
    let mut others = orders.each_ref().map(|order| reordered(&wall, order));
    let mut old = aged(wall.clone(), 65_000);
    for seed in seeds().take(1_000) {
        let call = |wall: &mut Wall| if retires(seed) { (wall.retire(), Vec::new()) } else { any_output(wall, seed) };
        let expected = call(&mut wall);
        for (other, order) in others.iter_mut().zip(&orders) {
            assert_eq!(call(other), expected, "seed {seed}");
            assert_eq!(*other, reordered(&wall, order), "seed {seed}");
        }
        call(&mut old);
        assert_eq!(old, aged(wall.clone(), 65_000), "seed {seed}");
        whole(&wall);
        let (kind, value, _) = expected.0;
        rows[if kind == REFUSED { value as usize } else { 0 }] += 1;
    }
    (wall, rows)
}

#[test]
fn a_list_on_other_walls() {
    let (wall, rows) = alike_on_other_walls(studios(2));
    assert!(wall.control.retired >= 10 && wall.control.used >= 10 && rows[20] >= 10, "{:?}, {rows:?}", wall.control);
    let (wall, rows) = alike_on_other_walls(nearly_full(0));
    assert!(wall.control.retired >= 64 && rows[7] >= 1 && rows[20] >= 10 && rows[21] >= 10, "{:?}, {rows:?}", wall.control);
}

#[test]
fn two_thousand_transactions_through_512_records() {
    let (mut wall, mut served) = (fresh(), [0; RECORDS]);
    for n in 1..=2_000 {
        let operations = transaction(n, 1 + (n as usize * 5 + n as usize / 7) % 8);
        while wall.preview(1, &operations) == refused(7) {
            let retired = wall.control.retired;
            assert_eq!(wall.retire(), done(retired + 1));
        }
        assert_eq!(wall.commit(1, &operations), done(n));
        wall.log_chain().last().unwrap().iter().for_each(|r| served[usize::from(*r) - 1] += 1);
        (1..=2).for_each(|studio| refreshed_at(&mut wall, studio, n));
        if n % 100 == 0 {
            whole(&wall);
            assert_eq!(wall.load(), done(n));
        }
    }
    assert!(served.iter().all(|times| *times >= 15), "every record serves again");
    while wall.retire().0 == DONE {}
    assert_eq!((wall.control.retired, wall.control.used, wall.free_chain().len()), (2_000, 0, 512));
    assert_eq!(sixth(&wall), head_end(&wall));
    assert_eq!(wall.load(), done(2_000));
}
