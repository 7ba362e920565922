//! Load, of request S-8: whether each copy is what the log makes, and whether each
//! logged operation met its cart. That a load changes neither memory nor control is
//! asserted by `Wall::load`, byte by byte.

mod wall;
use simulator::{COPY, DONE, LIBRARY, LOG, REFUSED, SESSION_MEMORY, UNIT, of_layout};
use wall::*;

type Operations = Vec<[u8; UNIT]>;

/// The bytes of copy 0, the head end's, or of a studio's.
fn copy(wall: &mut Wall, place: usize) -> &mut [u8] {
    &mut wall.library[COPY * place..COPY * (place + 1)]
}

fn copy_over(wall: &mut Wall, from: usize, to: usize) {
    wall.library.copy_within(COPY * from..COPY * (from + 1), COPY * to);
}

/// Five commits, no two of whose libraries are alike. Studio i has applied i of them.
/// Carts 7 and 128 are held in every copy, carts 1 and 8 in none.
fn spread(count: u32) -> Wall {
    let mut wall = studios(count);
    for (n, operations) in (1..).zip([
        vec![top_hour(), new(128, "Last", 1, 1)],
        vec![recut(7, 2, 2)],
        vec![retitle(7, "Top hour B"), new(9, "Bed", 3, 3)],
        vec![withdraw(9)],
        vec![recut(128, 5, 5)],
    ]) {
        assert_eq!(wall.commit(1, &operations), done(n));
    }
    for (studio, n) in (1..=count).flat_map(|studio| (1..=studio).map(move |n| (studio, n))) {
        refreshed_at(&mut wall, studio, n);
    }
    wall
}

/// Writes a log of these transactions, whatever carts they meet. The other records are
/// free, in order.
fn put_log(wall: &mut Wall, transactions: &[Operations]) {
    let (mut first, count) = (1, transactions.len());
    for (n, transaction) in (1..).zip(transactions) {
        let after = first + u16::try_from(transaction.len()).unwrap();
        for (r, operation) in (first..).zip(transaction) {
            let record = cart(&mut wall.log, r);
            record.copy_from_slice(operation);
            let next_operation = if r + 1 < after { r + 1 } else { 0 };
            let next_transaction = if r == first && n < count { after } else { 0 };
            record[12..14].copy_from_slice(&next_operation.to_le_bytes());
            record[14..16].copy_from_slice(&next_transaction.to_le_bytes());
        }
        first = after;
    }
    let free: Vec<u16> = (first..=512).collect();
    free.iter().for_each(|r| cart(&mut wall.log, *r).fill(0));
    wall.put_links(&free, 12);
    let ends = [free.first(), free.last()].map(|r| r.map_or(0, |r| u32::from(*r)));
    wall.control.used = u32::from(first - 1);
    wall.control.commits = u32::try_from(count).unwrap();
    (wall.control.oldest, wall.control.free_first, wall.control.free_last) = (u32::from(count > 0), ends[0], ends[1]);
}

/// A wall with such a log and as many studios as counts. Refreshes have made the copies
/// of the log, the head end's too, so no copy differs from its L.
fn logged(transactions: &[Operations], applied: &[u32]) -> Wall {
    let mut wall = studios(u32::try_from(applied.len()).unwrap());
    put_log(&mut wall, transactions);
    let mut level = wall.clone();
    for n in 1..=wall.control.commits {
        refreshed(&mut level, n);
    }
    copy(&mut wall, 0).copy_from_slice(copy(&mut level, 1));
    for (studio, count) in (1..).zip(applied) {
        (1..=*count).for_each(|n| refreshed_at(&mut wall, studio, n));
    }
    wall
}

/// The answer for such a log, for every two counts applied.
fn loads(transactions: &[Operations], words: Words) {
    let commits = u32::try_from(transactions.len()).unwrap();
    for (one, two) in (0..=commits).flat_map(|one| (0..=commits).map(move |two| (one, two))) {
        let mut wall = logged(transactions, &[one, two]);
        assert_eq!(wall.load(), words, "{one} and {two} applied of {transactions:?}");
    }
}

#[test]
fn after_setup() {
    assert_eq!(fresh().load(), done(0));
    for count in 1..=4 {
        let mut wall = studios(count);
        assert_eq!(wall.load(), done(0), "{count} studios");
        assert_eq!(wall.setup(count, &[0; 16]), done(0));
        assert_eq!(wall.load(), done(0), "{count} studios, no session");
    }
    let mut wall = fresh();
    assert_eq!(wall.setup(5, &[0; 16]), refused(15));
    assert_eq!(wall.load(), refused(2), "its control is all zero");
}

/// After every call, accepted, waiting or refused, among them retire calls.
#[test]
fn at_every_moment_of_a_list() {
    let mut rows = [0; 22];
    for count in 1..=4 {
        let (mut wall, mut kinds) = (studios(count), [0; 4]);
        for seed in seeds().take(800) {
            let (kind, value, _) = if retires(seed) { wall.retire() } else { any_call(&mut wall, seed) };
            assert_eq!(wall.load(), done(wall.control.commits), "{count} studios, after seed {seed}");
            kinds[kind as usize] += 1;
            rows[if kind == REFUSED { value as usize } else { 0 }] += 1;
        }
        assert!(kinds.iter().all(|times| *times >= 10), "{count} studios, kinds: {kinds:?}");
        let applied = &wall.control.applied[..count as usize];
        assert!(
            wall.control.retired >= 5 && wall.control.commits >= 20 && applied.iter().all(|applied| *applied >= 5),
            "{:?}",
            wall.control
        );
    }
    let missing: Vec<usize> = [3, 4, 5, 6, 8, 9, 11, 12, 13, 14, 16, 17, 20, 21].into_iter().filter(|row| rows[*row] == 0).collect();
    assert!(missing.is_empty(), "rows that refused nothing: {missing:?}");
}

/// What each copy of `spread` may come to have instead, of the layout. Among them are a
/// title in another case, one letter shorter, and with a space at its end.
const DAMAGES: [fn(&mut [u8]); 12] = [
    |copy| copy.fill(0),
    |copy| cart(copy, 7).fill(0),
    |copy| cart(copy, 128).fill(0),
    |copy| cart(copy, 1).copy_from_slice(&new(1, "First", 1, 1)),
    |copy| cart(copy, 8).copy_from_slice(&new(8, "Last", 1, 1)),
    |copy| cart(copy, 7)[25] += 32,
    |copy| (cart(copy, 128)[1], cart(copy, 128)[19]) = (3, 0),
    |copy| (cart(copy, 7)[1], cart(copy, 7)[26]) = (11, b' '),
    |copy| cart(copy, 7)[4] ^= 8,
    |copy| cart(copy, 7)[7] += 1,
    |copy| cart(copy, 128)[8] += 1,
    |copy| cart(copy, 128)[11] = 255,
];

#[test]
fn each_copy_alone() {
    for count in 1..=4 {
        let whole = spread(count);
        assert_eq!(whole.clone().load(), done(5), "{count} studios");
        for (case, damage) in (0..).zip(DAMAGES) {
            for place in 0..=count as usize {
                let mut wall = whole.clone();
                damage(copy(&mut wall, place));
                assert_eq!(wall.load(), refused(19), "{count} studios, damage {case} in copy {place}");
            }
            let mut wall = whole.clone();
            (0..=count as usize).for_each(|place| damage(copy(&mut wall, place)));
            assert_eq!(wall.load(), refused(19), "{count} studios, damage {case} in every copy");
        }
    }
}

/// Every byte of a held cart and of an empty one: 2 where that leaves the layout.
#[test]
fn no_byte_of_a_cart_is_overlooked() {
    let (whole, mut rows) = (spread(2), [0; 20]);
    for (place, number) in (0..=2).flat_map(|place| [7, 8, 128].map(|number| (place, number))) {
        for at in 0..UNIT {
            let mut wall = whole.clone();
            cart(copy(&mut wall, place), number)[at] ^= 1;
            let row = if of_layout(&wall.library, &wall.log, &wall.sessions, &wall.control) { 19 } else { 2 };
            assert_eq!(wall.load(), refused(row), "byte {at} of cart {number} in copy {place}");
            rows[row as usize] += 1;
        }
    }
    assert_eq!((rows[2], rows[19]), (634, 86), "letters, audio and length are of the layout");
}

/// `six` with a library of any moment in one copy, and any counts applied.
#[test]
fn a_library_of_another_moment() {
    let (sent, libraries): (Wall, Vec<Vec<u8>>) = (six(0), (0..=6).map(|n| copy(&mut six(n), 1).to_vec()).collect());
    for (one, two, n) in (0..343).map(|code| (code % 7, code / 7 % 7, code / 49)) {
        let (mut whole, right) = (sent.clone(), [6, one, two]);
        (whole.control.applied[0], whole.control.applied[1]) = (u32::try_from(one).unwrap(), u32::try_from(two).unwrap());
        (0..3).for_each(|place| copy(&mut whole, place).copy_from_slice(&libraries[right[place]]));
        for (place, right) in right.into_iter().enumerate() {
            let mut wall = whole.clone();
            copy(&mut wall, place).copy_from_slice(&libraries[n]);
            let words = if n == right { done(6) } else { refused(19) };
            assert_eq!(wall.load(), words, "L({n}) in copy {place}, {one} and {two} applied");
        }
    }
}

/// The head end's copy is L(applied) of a studio, or the studio's is L(commits).
#[test]
fn the_head_ends_copy_and_a_studios() {
    let walls = [1, 2, 3, 4].map(spread);
    for (count, studio) in (1..=4).flat_map(|count| (1..=count).map(move |studio| (count, studio))) {
        let mut wall = walls[count as usize - 1].clone();
        for (from, to) in [(studio, 0), (0, studio)] {
            let mut wall = wall.clone();
            copy_over(&mut wall, from as usize, to as usize);
            assert_eq!(wall.load(), refused(19), "{count} studios, copy {from} over {to}");
        }
        (studio + 1..=5).for_each(|n| refreshed_at(&mut wall, studio, n));
        copy_over(&mut wall, studio as usize, 0);
        assert_eq!(wall.load(), done(5), "{count} studios, {studio} is level");
    }
}

/// Six are sent throughout. Neither L(sent) nor another count's is L(applied).
#[test]
fn a_studios_copy_is_of_applied() {
    let mut wall = six(3);
    assert_eq!((wall.control.sent[0], wall.load()), (6, done(6)));
    for applied in [0, 1, 2, 4, 5, 6] {
        wall.control.applied[0] = applied;
        assert_eq!(wall.load(), refused(19), "{applied} applied, with L(3)");
    }
    wall.control.applied[0] = 3;
    copy_over(&mut wall, 0, 1);
    assert_eq!(wall.load(), refused(19), "L(6), of which all are sent");
}

#[test]
fn an_empty_log_with_carts() {
    for count in 1..=4 {
        for place in 0..=count as usize {
            for held in [new(1, "First", 1, 1), top_hour(), new(128, "Last", 1, 1)] {
                let mut wall = studios(count);
                cart(copy(&mut wall, place), held[2].into()).copy_from_slice(&held);
                assert_eq!(wall.load(), refused(19), "{count} studios, copy {place}");
            }
            let mut wall = studios(count);
            copy(&mut wall, place).copy_from_slice(&full("Full"));
            assert_eq!(wall.load(), refused(19), "{count} studios, a full copy {place}");
        }
        let mut wall = studios(count);
        (0..=count as usize).for_each(|place| cart(copy(&mut wall, place), 7).copy_from_slice(&top_hour()));
        assert_eq!(wall.load(), refused(19), "{count} studios, one cart in all copies");
    }
}

/// The records are there, and the carts that they make are not.
#[test]
fn a_log_without_its_carts() {
    let mut wall = committed(3);
    copy(&mut wall, 0).fill(0);
    assert_eq!(wall.load(), refused(19));
    wall = committed(3);
    assert_eq!(wall.commit(1, &[withdraw(7)]), done(4));
    assert_eq!(wall.library, [0; LIBRARY]);
    assert_eq!(wall.load(), done(4), "what this log makes is empty");
}

/// Each of the four on an empty and on a held cart, alone or after another operation.
#[test]
fn each_operation_on_either_state() {
    for (operation, on_empty, on_held) in
        [(new(7, "Bed", 2, 3), true, false), (retitle(7, "Bed"), false, true), (recut(7, 2, 3), false, true), (withdraw(7), false, true)]
    {
        let words = |met, commits| if met { done(commits) } else { refused(19) };
        loads(&[vec![operation]], words(on_empty, 1));
        loads(&[vec![top_hour(), operation]], words(on_held, 1));
        loads(&[vec![top_hour()], vec![operation]], words(on_held, 2));
        loads(&[vec![new(8, "Bed", 1, 1), operation]], words(on_empty, 1));
        loads(&[vec![top_hour(), withdraw(7), operation]], words(on_empty, 1));
        loads(&[vec![top_hour()], vec![withdraw(7), operation]], words(on_empty, 2));
        loads(&[vec![top_hour(), withdraw(7)], vec![top_hour()], vec![recut(7, 9, 9), operation]], words(on_held, 3));
    }
}

/// All copies are what the log makes, whoever has applied how many.
#[test]
fn a_second_operation_in_the_wrong_state() {
    let a = top_hour();
    for second in [a, new(7, "Bed", 2, 3), retitle(8, "Bed"), recut(8, 2, 3), withdraw(8), withdraw(128)] {
        loads(&[vec![a, second]], refused(19));
        loads(&[vec![a, second], vec![recut(7, 3, 3)]], refused(19));
        loads(&[vec![a], vec![recut(7, 2, 2), second]], refused(19));
        loads(&[vec![a], vec![recut(7, 2, 2), second, recut(7, 3, 3)]], refused(19));
    }
    for second in [new(8, "Bed", 2, 3), retitle(7, "Bed"), recut(7, 2, 3), withdraw(7)] {
        loads(&[vec![a, second]], done(1));
        loads(&[vec![a], vec![recut(7, 2, 2), second]], done(2));
    }
}

/// What comes after does not mend it, and the copies show none of it.
#[test]
fn a_wrong_state_that_leaves_nothing() {
    let a = top_hour();
    for transactions in [
        vec![vec![a, a, withdraw(7)]],
        vec![vec![a, withdraw(7), withdraw(7)]],
        vec![vec![a, withdraw(7), recut(7, 2, 2), a]],
        vec![vec![withdraw(7), a]],
        vec![vec![withdraw(7)], vec![a]],
        vec![vec![retitle(7, "Top hour A")], vec![a]],
        vec![vec![a], vec![a], vec![withdraw(7)]],
    ] {
        loads(&transactions, refused(19));
    }
    for transactions in [vec![vec![a, withdraw(7), a, withdraw(7)]], vec![vec![a, retitle(7, "Top hour A"), recut(7, 501, 8_000)]]] {
        loads(&transactions, done(1));
    }
}

/// One operation of 512, at several places, meets cart 2, which is empty. Or the log ends
/// with retitles of cart 1, which is empty before operations 0 and 4 alone.
#[test]
fn one_of_512_in_the_wrong_state() {
    let up = [new(1, "A", 1, 1), retitle(1, "B"), recut(1, 2, 2), withdraw(1)];
    let whole = vec![[up, up].concat(); 64];
    assert_eq!(logged(&whole, &[0, 33, 64]).load(), done(64));
    for (n, place) in [(0, 1), (0, 7), (31, 0), (32, 4), (33, 2), (63, 0), (63, 7)] {
        let mut transactions = whole.clone();
        transactions[n][place] = withdraw(2);
        assert_eq!(logged(&transactions, &[0, 33]).load(), refused(19), "operation {place} of transaction {n}");
        transactions = whole.clone();
        transactions[n][place..].fill(retitle(1, "B"));
        transactions.truncate(n + 1);
        let words = if place % 4 == 0 { refused(19) } else { done(u32::try_from(n).unwrap() + 1) };
        assert_eq!(logged(&transactions, &[0]).load(), words, "from operation {place} of transaction {n}");
    }
}

/// In the copies the operation would meet its cart in the right state, in L it does not.
#[test]
fn the_log_decides_and_not_a_copy() {
    let mut wall = logged(&[vec![recut(7, 2, 2)]], &[0, 1]);
    (0..=2).for_each(|place| cart(copy(&mut wall, place), 7).copy_from_slice(&new(7, "Top hour A", 2, 2)));
    assert_eq!(wall.load(), refused(19));
    wall = committed(1);
    copy(&mut wall, 0).fill(0);
    assert_eq!(wall.commit(2, &[new(7, "Bed", 2, 2)]), done(2), "the head end has lost it");
    assert_eq!(wall.load(), refused(19));
    copy(&mut wall, 0)[480..560].copy_from_slice(&top_hour());
    assert_eq!(wall.load(), refused(19), "L(2), and the log has a new too many");
}

/// Commit 2 is a re-cut that commit 3 replaces, and no studio has applied it.
#[test]
fn what_no_copy_shows_is_not_seen() {
    let mut wall = committed(3);
    wall.log[84] = 99;
    assert_eq!(wall.load(), done(3));
    refreshed(&mut wall, 1);
    refreshed(&mut wall, 2);
    assert_eq!(wall.load(), done(3), "studio 1 has taken it from this log");
    wall.log[84] = 2;
    assert_eq!(wall.load(), refused(19), "studio 1's copy shows it");
    refreshed(&mut wall, 3);
    assert_eq!(wall.load(), done(3), "it is gone from there");
}

/// Whole, with a copy that differs, with an operation that missed its cart, with both.
fn four_walls() -> [(Wall, Words); 4] {
    let (whole, mut differs, mut missed) = (committed(2), committed(2), committed(1));
    cart(copy(&mut differs, 1), 9).copy_from_slice(&new(9, "Bed", 1, 1));
    put_log(&mut missed, &[vec![top_hour()], vec![top_hour()]]);
    let mut both = missed.clone();
    cart(copy(&mut both, 0), 9).copy_from_slice(&new(9, "Bed", 1, 1));
    [(whole, done(2)), (differs, refused(19)), (missed, refused(19)), (both, refused(19))]
}

#[test]
fn rows_from_top_to_bottom() {
    let (lengths, layouts) = FAULTS.split_at(3);
    for (case, (wall, words)) in (0..).zip(four_walls()) {
        assert_eq!(wall.clone().load(), words, "wall {case}");
        for (place, (row, fault)) in (0..).zip(FAULTS) {
            let mut wall = wall.clone();
            fault(&mut wall);
            assert_eq!(wall.load(), refused(row), "wall {case}, fault {place}");
        }
        for ((_, length), (_, layout)) in lengths.iter().flat_map(|length| layouts.iter().map(move |layout| (length, layout))) {
            let mut wall = wall.clone();
            layout(&mut wall);
            length(&mut wall);
            assert_eq!(wall.load(), refused(1), "wall {case}, row 1 before row 2");
        }
    }
}

#[test]
fn control_words_of_any_size() {
    let whole = spread(3);
    for word in [5, 33, 513, 1 << 16, 1 << 31, u32::MAX] {
        for place in 0..31 {
            let mut wall = whole.clone();
            *wall::word(&mut wall.control, place) = word;
            // 5 commits and 5 sent to studios 1 to 3 are of the layout.
            let words = if (18..=21).contains(&place) && word == 5 { done(5) } else { refused(2) };
            assert_eq!(wall.load(), words, "word {place} as {word}");
        }
    }
}

/// Also a cart there that the log makes, and with faults of row 19 elsewhere.
#[test]
fn a_studio_above_s_is_row_2s() {
    for (count, above) in (1..=3).flat_map(|count| (count + 1..=4).map(move |above| (count, above))) {
        let faults: [fn(&mut Wall, usize); 5] = [
            |wall, above| copy_over(wall, 0, above),
            |wall, above| copy_over(wall, 1, above),
            |wall, above| cart(copy(wall, above), 128).copy_from_slice(&new(128, "Last", 1, 1)),
            |wall, above| wall.control.sent[above - 1] = 1,
            |wall, above| (wall.control.sent[above - 1], wall.control.applied[above - 1]) = (1, 1),
        ];
        for (case, fault) in (0..).zip(faults) {
            let mut wall = spread(count);
            fault(&mut wall, above as usize);
            assert_eq!(wall.load(), refused(2), "{count} studios, fault {case} of {above}");
            cart(copy(&mut wall, 0), 7).fill(0);
            assert_eq!(wall.load(), refused(2), "{count} studios, fault {case} of {above}, and the head end's copy");
        }
    }
}

/// Numbers up to commits, reads that wait though they need not, other studios, and none
/// of it.
#[test]
fn sessions_of_another_moment() {
    let whole = spread(4);
    for session in (1..=16).filter(|session| *session != 9) {
        for (number, words) in (0..=5).map(|number| (number, done(5))).chain([(6, refused(2))]) {
            for request in [[0; UNIT], by_numbers(&[7]), by_title("Bed")] {
                let mut wall = whole.clone();
                wall.put_number(session, number);
                wall.put_request(session, &request);
                assert_eq!(wall.load(), words, "session {session}, number {number}");
            }
        }
        for studio in 1..=4 {
            let mut wall = whole.clone();
            wall.control.session_studios[session as usize - 1] = studio;
            assert_eq!(wall.load(), done(5), "session {session} at {studio}");
        }
    }
    let mut wall = whole.clone();
    wall.sessions.fill(0);
    assert_eq!(wall.load(), done(5), "as after setup");
    wall.control.session_studios = [0; 16];
    assert_eq!(wall.load(), done(5), "no session");
}

/// From applied to 32 more, up to commits: the layout's rule, and no other.
#[test]
fn sent_of_another_moment() {
    for (commits, applied) in [(40, 0), (40, 3), (40, 8), (40, 9), (40, 40), (5, 2)] {
        let mut wall = committed(commits);
        (1..=applied).for_each(|n| refreshed(&mut wall, n));
        for sent in (0..=commits + 1).chain([u32::MAX]) {
            wall.control.sent[0] = sent;
            let of_layout = (applied..=commits.min(applied + 32)).contains(&sent);
            let words = if of_layout { done(commits) } else { refused(2) };
            assert_eq!(wall.load(), words, "{sent} sent, {applied} applied of {commits}");
        }
    }
}

/// One part of a save is of another moment of the same list. Two moments with the same
/// commits have the same log, and each control goes with the library of its own moment.
#[test]
fn parts_of_two_moments() {
    let (mut wall, mut moments) = (studios(2), Vec::new());
    for (step, seed) in (0..).zip(seeds().take(120)) {
        any_call(&mut wall, seed);
        if step % 4 == 0 {
            moments.push(wall.clone());
        }
    }
    let mut rows = [0; 20];
    for (one, other) in moments.iter().flat_map(|one| moments.iter().map(move |other| (one, other))) {
        let logs = if one.log == other.log { done(other.control.commits) } else { refused(2) };
        let libraries = if one.library == other.library { done(other.control.commits) } else { refused(19) };
        let controls = if one.log == other.log { libraries } else { refused(2) };
        assert_eq!(Wall { library: one.library.clone(), ..other.clone() }.load(), libraries);
        assert_eq!(Wall { log: one.log.clone(), ..other.clone() }.load(), logs);
        assert_eq!(Wall { control: one.control, ..other.clone() }.load(), controls);
        let late = (1..=16).any(|session| one.number(session) > other.control.commits);
        let sessions = if late { refused(2) } else { done(other.control.commits) };
        assert_eq!(Wall { sessions: one.sessions.clone(), ..other.clone() }.load(), sessions);
        for words in [libraries, logs, controls, sessions].into_iter().filter(|words| words.0 == REFUSED) {
            rows[words.1 as usize] += 1;
        }
    }
    assert!(rows[2] >= 100 && rows[19] >= 100 && moments.len() == 30, "both rows: {rows:?}");
}

/// 2.7 of the readings: "a log with such records loads".
#[test]
fn titles_with_a_space_at_an_end() {
    for title in spaced() {
        let mut wall = stored(&title);
        assert_eq!(wall.load(), done(1), "{title:?}");
        refreshed(&mut wall, 1);
        assert_eq!(wall.load(), done(1), "{title:?}, applied");
        cart(copy(&mut wall, 1), 7).copy_from_slice(&new(7, title.trim_end(), 501, 8_000));
        let row = if title.trim_end().is_empty() { 2 } else { 19 };
        let words = if title.ends_with(' ') { refused(row) } else { done(1) };
        assert_eq!(wall.load(), words, "{title:?}, without the spaces at its end");
    }
}

#[test]
fn a_full_log() {
    let mut wall = committed(512);
    assert_eq!(wall.load(), done(512));
    for n in 1..=512 {
        refreshed(&mut wall, n);
        if [1, 255, 256, 257, 511, 512].contains(&n) {
            assert_eq!(wall.load(), done(512), "{n} applied");
            let mut behind = wall.clone();
            behind.control.applied[0] -= 1;
            assert_eq!(behind.load(), refused(19), "{n} applied and one fewer counted");
        }
    }
    assert_eq!(wall.commit(1, &[recut(7, 1, 1)]), refused(7));
    assert_eq!(wall.load(), done(512));
    cart(copy(&mut wall, 2), 128).copy_from_slice(&new(128, "Last", 1, 1));
    assert_eq!(wall.load(), refused(19));
}

/// 8.3 of the readings: the other calls go by row 2 alone.
#[test]
fn nobody_is_obliged_to_load() {
    let (mut wall, mut output) = (committed(3), [9; UNIT]);
    cart(copy(&mut wall, 0), 7).fill(0);
    assert_eq!(wall.load(), refused(19));
    assert_eq!(wall.preview(1, &[top_hour()]), done(4));
    assert_eq!((wall.send(1), wall.refresh(1)), (done(1), done(1)));
    assert_eq!(wall.forward(2, &by_numbers(&[7]), &mut output), answered(1, 1));
    assert_eq!(wall.forward(1, &by_numbers(&[7]), &mut output), answered(3, 0));
    assert_eq!(wall.move_session(1, 2), done(2));
    assert_eq!(wall.read(1, &by_numbers(&[7]), &mut output), waits(3));
    assert_eq!(wall.van_write(3, &mut [0; 84]), done(84));
    assert_eq!(wall.load(), refused(19));
    cart(copy(&mut wall, 0), 7).copy_from_slice(&new(7, "Top hour A", 3, 3));
    assert_eq!(wall.load(), done(3), "mended");
}

/// 8.6 and 8.7 of the readings: the request that was loaded is collected, once.
#[test]
fn a_loaded_request() {
    for applied in 0..=6 {
        let (mut wall, mut output) = (six(applied), [9; UNIT]);
        wall.put_request(1, &by_numbers(&[7]));
        assert_eq!(wall.load(), done(6), "{applied} applied");
        if applied == 0 {
            assert_eq!(wall.collect(1, &mut output), waits(1));
            assert_eq!((wall.load(), wall.refresh(1), wall.load()), (done(6), done(1), done(6)));
        }
        assert_eq!(wall.collect(1, &mut output), answered(applied.max(1), 1), "{applied} applied");
        assert_eq!(wall.collect(1, &mut output), refused(14), "{applied} applied");
        assert_eq!(wall.load(), done(6), "{applied} applied");
    }
}

#[test]
fn memory_of_one_byte_and_any_control() {
    for byte in 0..=255 {
        let mut wall = Wall { library: vec![byte; LIBRARY], log: vec![byte; LOG], sessions: vec![byte; SESSION_MEMORY], ..fresh() };
        assert_eq!(wall.load(), refused(2), "bytes of {byte}");
        let number = u32::from(byte);
        for word in [number, number << 8, number << 24, u32::MAX - number] {
            (0..31).for_each(|place| *wall::word(&mut wall.control, place) = word);
            assert_eq!(wall.load(), refused(2), "bytes of {byte}, words of {word}");
        }
    }
}

/// One byte anywhere in the memory of `spread` takes any value: what is of the layout has
/// 19 or commits, the rest 2.
#[test]
fn one_byte_of_any_value() {
    let (whole, mut kinds) = (spread(3), [0; 2]);
    for (byte, seed) in (0..=255u8).cycle().zip(seeds().take(1_500)) {
        let (mut wall, at) = (whole.clone(), seed as usize / 4);
        match seed % 4 {
            0 => wall.library[COPY * (at % 4) + [480, 10_160][at / 4 % 2] + at / 8 % UNIT] = byte,
            1 => wall.library[at % LIBRARY] = byte,
            2 => wall.log[at % 560] = byte,
            _ => wall.sessions[at % SESSION_MEMORY] = byte,
        }
        let of_layout = of_layout(&wall.library, &wall.log, &wall.sessions, &wall.control);
        let same = wall.library == whole.library && wall.log == whole.log;
        match wall.load() {
            words if !of_layout => assert_eq!(words, refused(2)),
            words if same => assert_eq!(words, done(5)),
            words => assert_eq!(words, refused(19), "every field of this log shows in a copy"),
        }
        kinds[usize::from(of_layout)] += 1;
    }
    assert!(kinds.iter().all(|times| *times >= 100), "{kinds:?}");
    assert_eq!(whole.clone().load().0, DONE);
}
