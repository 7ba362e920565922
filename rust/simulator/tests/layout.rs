//! The layout: single fields put out of their rule, and control words of any size.

mod wall;
use simulator::of_layout;
use wall::*;

/// Two commits of two operations, one refreshed at studio 1, a read waiting.
fn worked() -> Wall {
    let mut wall = fresh();
    assert_eq!(wall.commit(1, &[top_hour(), new(8, "Bed", 2, 3)]), done(1));
    assert_eq!(wall.commit(2, &[retitle(8, "Beds"), withdraw(7)]), done(2));
    assert_eq!(wall.send(1), done(1));
    assert_eq!(wall.refresh(1), done(1));
    assert_eq!(wall.read(2, &by_title("Beds"), &mut [0; 80]), waits(2));
    wall
}

#[test]
fn the_log_links() {
    let wall = worked();
    assert_eq!(wall.log[12..16], [2, 0, 3, 0]);
    assert_eq!(wall.log[92..96], [0, 0, 0, 0]);
    assert_eq!(wall.log[172..176], [4, 0, 0, 0]);
    assert_eq!(wall.log[252..256], [0, 0, 0, 0]);
}

#[test]
fn one_field_out_of_its_rule() {
    let library = [(480, 1), (482, 7), (560, 0), (561, 5), (562, 9), (572, 1), (639, 1), (30_720, 1)];
    for (at, byte) in library {
        let mut wall = worked();
        wall.library[at] = byte;
        assert_eq!(wall.send(1), refused(2), "library byte {at}");
    }
    let log = [(0, 0), (0, 5), (1, 65), (2, 0), (12, 3), (14, 4), (94, 3), (174, 5), (320, 4)];
    for (at, byte) in log {
        let mut wall = worked();
        wall.log[at] = byte;
        assert_eq!(wall.send(1), refused(2), "log byte {at}");
    }
    for (at, byte) in [(0, 1), (1, 1), (2, 3), (3, 1), (4, 1), (16, 32), (80, 1), (80, 3), (240, 1)] {
        let mut wall = worked();
        wall.sessions[at] = byte;
        assert_eq!(wall.send(1), refused(2), "session byte {at}");
    }
}

#[test]
fn control_words_of_any_size() {
    for word in [5, 33, 513, 1 << 16, 1 << 31, u32::MAX] {
        // The first free record is 5.
        for place in (0..31).filter(|place| (*place, word) != (29, 5)) {
            let mut wall = worked();
            *wall::word(&mut wall.control, place) = word;
            assert_eq!(wall.refresh(1), refused(2), "word {place} as {word}");
        }
    }
}

#[test]
fn copies_need_not_be_libraries_of_the_log() {
    let mut wall = worked();
    wall.library[10_240..20_480].fill(0);
    assert_eq!(wall.send(1), done(2));
    assert_eq!(wall.refresh(1), done(2), "both operations meet empty carts");
    assert_eq!(wall.library[10_240..20_480], [0; 10_240]);
    let mut output = [9; 80];
    assert_eq!(wall.collect(2, &mut output), answered(2, 0));
    assert_eq!(output, [0; 80]);
    assert_eq!(wall.sessions[80..84], [0, 0, 2, 0], "the number was the state that collect showed");
}

fn laid(wall: &Wall) -> bool {
    of_layout(&wall.library, &wall.log, &wall.sessions, &wall.control)
}

/// Records 1 to 3 are retired; the log has 4 and 5, then 6; the free chain is 7 to 512,
/// then 1 to 3.
fn chained() -> Wall {
    let mut wall = fresh();
    assert_eq!(wall.commit(1, &[top_hour(), new(8, "Bed", 2, 3), recut(8, 3, 3)]), done(1));
    assert_eq!(wall.commit(2, &[retitle(8, "Beds"), withdraw(7)]), done(2));
    assert_eq!(wall.commit(3, &[top_hour()]), done(3));
    (1..=2).for_each(|studio| refreshed_at(&mut wall, studio, 1));
    assert_eq!(wall.retire(), done(1));
    assert_eq!((wall.log_chain(), wall.free_chain().len()), (vec![vec![4, 5], vec![6]], 509));
    wall
}

/// 64 transactions of 8, and no free record.
fn full_log() -> Wall {
    let mut wall = fresh();
    assert_eq!(wall.commit(1, &[vec![top_hour()], vec![recut(7, 1, 1); 7]].concat()), done(1));
    (2..=64).for_each(|n| assert_eq!(wall.commit(1, &[recut(7, n, n); 8]), done(n)));
    wall
}

#[test]
fn records_in_any_order() {
    for wall in [fresh(), worked(), chained(), full_log()] {
        let backward: Vec<u16> = (1..=512).rev().collect();
        for order in (0..20).map(shuffled).chain([backward]) {
            let mut other = reordered(&wall, &order);
            assert!(laid(&other) && (wall == other) == order.is_sorted());
            assert_eq!(other.load(), done(wall.control.commits));
        }
    }
}

/// Each index of the chains, and each that ends one, as every other index: a loop, a link
/// from one chain into the other, a record left out, or none there is.
#[test]
fn no_other_index() {
    let order = shuffled(3);
    for wall in [chained(), reordered(&chained(), &order)] {
        let log: Vec<u16> = wall.log_chain().concat();
        let free = wall.free_chain();
        let some = [&log[..], &free[..3], &free[250..252], &free[506..]].concat();
        for (r, at) in some.iter().flat_map(|r| [(*r, 12), (*r, 14)]) {
            let right = wall.link(r, at);
            for to in (0..=514).chain([768, 1_024, 32_768 + right, 65_535]) {
                let mut wall = wall.clone();
                wall.put_link(r, at, to);
                assert_eq!(laid(&wall), to == right, "{to} in bytes {at} of record {r}");
            }
        }
        for place in 28..=30 {
            let right = *word(&mut wall.control.clone(), place);
            for to in (0..=514).chain([65_536 + right, (1 << 31) + right, u32::MAX]) {
                let mut wall = wall.clone();
                *word(&mut wall.control, place) = to;
                assert_eq!(laid(&wall), to == right, "{to} as word {place}");
            }
        }
    }
}

/// A loop in either chain, at its first record, further on, and of one record alone.
#[test]
fn chains_that_do_not_end() {
    for (r, at, to) in [(4, 12, 4), (5, 12, 4), (5, 12, 5), (6, 12, 6), (4, 14, 4), (6, 14, 4), (6, 14, 6)] {
        let mut wall = chained();
        wall.put_link(r, at, to);
        assert_eq!(wall.retire(), refused(2), "{r} to {to} at {at}");
    }
    for (r, to) in [(7, 7), (3, 7), (3, 3), (3, 2), (512, 7), (300, 299), (300, 300)] {
        let mut wall = chained();
        wall.put_link(r, 12, to);
        assert_eq!(wall.retire(), refused(2), "{r} to {to}");
        wall.control.free_last = r.into();
        assert_eq!(wall.commit(1, &[recut(8, 9, 9)]), refused(2), "{r} to {to}, which is the last");
    }
}

/// A record that is taken out of a chain is to be in the other one.
#[test]
fn a_record_left_out() {
    let (mut free_first, mut free, mut free_last, mut logged) = (chained(), chained(), chained(), chained());
    free_first.control.free_first = 8;
    free_first.put_link(7, 12, 0);
    free.put_link(99, 12, 101);
    free.put_link(100, 12, 0);
    free_last.control.free_last = 2;
    free_last.put_link(2, 12, 0);
    logged.put_link(4, 12, 0);
    cart(&mut logged.log, 5).fill(0);
    logged.control.used = 2;
    for wall in [&free_first, &free, &free_last, &logged] {
        assert!(!laid(wall), "{:?}", wall.control);
    }
    logged.control.free_last = 5;
    assert!(!laid(&logged), "it is not in the chain that it ends");
    logged.put_link(3, 12, 5);
    assert!(laid(&logged), "it is free");
    logged.control.used = 3;
    assert!(!laid(&logged), "and not used");
}

/// The free chain goes on into the log, or the log into the free chain.
#[test]
fn a_record_in_both_chains() {
    for (r, at, to) in [(3, 12, 4), (3, 12, 5), (3, 12, 6), (6, 12, 7), (6, 14, 7), (5, 12, 3), (5, 12, 6), (4, 14, 5)] {
        let mut wall = chained();
        wall.put_link(r, at, to);
        for (used, last) in [(3, 3), (4, 3), (2, 3), (3, to), (4, to), (2, to), (5, 0), (513, 3)] {
            (wall.control.used, wall.control.free_last) = (used, last.into());
            assert!(!laid(&wall), "{r} to {to} at {at}, {used} used, {last} the last");
        }
    }
    let mut wall = chained();
    (wall.control.free_first, wall.control.free_last) = (4, 5);
    assert!(!laid(&wall), "the log's first transaction as the free chain");
}

/// 0 for none, and for nothing else.
#[test]
fn chains_without_a_record() {
    let (none, full) = (fresh(), full_log());
    assert_eq!([none.control.oldest, full.control.free_first, full.control.free_last], [0; 3]);
    assert!(laid(&none) && laid(&full));
    let faults: [(&Wall, usize, u32); 8] = [
        (&none, 28, 1),
        (&none, 28, 512),
        (&none, 28, 513),
        (&full, 28, 0),
        (&full, 29, 1),
        (&full, 30, 512),
        (&full, 30, 1),
        (&none, 29, 0),
    ];
    for (wall, place, to) in faults {
        let mut wall = wall.clone();
        *word(&mut wall.control, place) = to;
        assert!(!laid(&wall), "{to} as word {place}");
    }
    let mut wall = chained();
    (wall.control.oldest, wall.control.used) = (0, 0);
    assert!(!laid(&wall), "two transactions are not retired");
    wall.control.retired = 3;
    assert!(!laid(&wall), "their records are in no chain");
}

/// The first, some other and the last one: any byte but 12 and 13.
#[test]
fn a_free_record_is_zero() {
    let wall = chained();
    for (r, at) in [7, 8, 300, 512, 1, 2, 3].into_iter().flat_map(|r| (0..12).chain(14..80).map(move |at| (r, at))) {
        for byte in [1, 255] {
            let mut wall = wall.clone();
            cart(&mut wall.log, r)[at] = byte;
            assert!(!laid(&wall), "byte {at} of record {r}");
        }
    }
}

/// Two transactions are made into one of eight operations, or of nine.
#[test]
fn operations_of_a_transaction() {
    for (count, words) in [(1, done(1)), (6, done(1)), (7, done(1)), (8, refused(2))] {
        let mut wall = fresh();
        let operations = [vec![top_hour()], vec![recut(7, 1, 1); count - 1]].concat();
        assert_eq!((wall.commit(1, &operations), wall.commit(2, &[withdraw(7)])), (done(1), done(2)));
        let chain: Vec<u16> = wall.log_chain().concat();
        wall.put_link(chain[0], 14, 0);
        wall.put_links(&chain, 12);
        wall.put_number(2, 1);
        wall.control.commits = 1;
        assert_eq!(wall.send(1), words, "{} operations", count + 1);
    }
}

/// Counts that do not fit the log's chain, and the sum of used and free.
#[test]
fn counts_of_the_chains() {
    let wall = chained();
    for (commits, retired, used) in
        (0..=5).flat_map(|commits| (0..=5).flat_map(move |retired| (0..=6).map(move |used| (commits, retired, used))))
    {
        let mut wall = wall.clone();
        (wall.control.commits, wall.control.retired, wall.control.used) = (commits, retired, used);
        let right = (commits, retired, used) == (3, 1, 3);
        assert_eq!(laid(&wall), right, "{commits} commits, {retired} retired, {used} used");
    }
}

#[test]
fn the_sixth_copy() {
    let (mut empty, mut retired) = (worked(), chained());
    assert!(laid(&empty) && laid(&retired));
    retired.library[51_200..].fill(0);
    assert!(laid(&retired), "it need not be what the retired transactions made");
    for number in [1, 7, 128] {
        let held = new(number, "Bed", 1, 1);
        cart(&mut empty.library[51_200..], number).copy_from_slice(&held);
        cart(&mut retired.library[51_200..], number).copy_from_slice(&held);
        assert!(!laid(&empty) && laid(&retired), "cart {number}");
        cart(&mut empty.library[51_200..], number).fill(0);
    }
    for (at, byte) in
        [(0, 2), (1, 0), (1, 4), (2, 2), (3, 1), (4, 0), (8, 0), (12, 1), (15, 1), (16, 31), (18, 0), (19, 32), (79, 1), (80, 1)]
    {
        let mut wall = retired.clone();
        wall.library[51_200 + at] = byte;
        assert!(!laid(&wall), "byte {at} as {byte}");
    }
    for at in [51_200, 51_201, 56_000, 61_439] {
        let mut wall = worked();
        wall.library[at] = 1;
        assert!(!laid(&wall), "byte {at} with none retired");
    }
}

/// Studios 1 to S have applied at least what is retired; those above have applied none.
#[test]
fn retired_above_applied() {
    for count in 1..=4u32 {
        let mut wall = studios(count);
        assert_eq!(wall.commit(1, &[top_hour()]), done(1));
        (2..=3).for_each(|n| assert_eq!(wall.commit(1, &[recut(7, n, n)]), done(n)));
        (1..=count).for_each(|studio| (1..=3).for_each(|n| refreshed_at(&mut wall, studio, n)));
        assert_eq!((wall.retire(), wall.retire()), (done(1), done(2)));
        for (studio, applied) in (0..count as usize).flat_map(|studio| (0..=4).map(move |applied| (studio, applied))) {
            let mut wall = wall.clone();
            wall.control.applied[studio] = applied;
            assert_eq!(laid(&wall), [2, 3].contains(&applied), "studio {studio} of {count}, {applied} applied");
        }
        for studio in count as usize..4 {
            let mut wall = wall.clone();
            (wall.control.sent[studio], wall.control.applied[studio]) = (2, 2);
            assert!(!laid(&wall), "studio {studio}, above {count}");
        }
    }
}

#[test]
fn commits_up_to_65535() {
    for wall in [fresh(), chained(), full_log()] {
        let most = aged(wall.clone(), 65_535 - wall.control.commits);
        assert!(laid(&most));
        assert_eq!(most.control.commits, 65_535);
        for more in [1, 65_535, 1 << 16, 1 << 24] {
            let mut over = most.clone();
            over.control.commits += more;
            assert!(!laid(&over), "{more} more commits, and as many retired");
            over.control.retired += more;
            for studio in 0..2 {
                over.control.sent[studio] += more;
                over.control.applied[studio] += more;
            }
            assert!(!laid(&over), "{more} more commits");
        }
    }
}

/// Whether the links make the two chains, told by sorting what they reach.
fn makes_two_chains(wall: &Wall) -> bool {
    let along = |first: u32, at: usize| {
        let next = |r: &u16| Some(wall.link(*r, at)).filter(|next| (1..=512).contains(next));
        std::iter::successors(u16::try_from(first).ok().filter(|first| *first != 0), next).take(513).collect::<Vec<u16>>()
    };
    let free = along(wall.control.free_first, 12);
    let log: Vec<u16> = along(wall.control.oldest, 14).into_iter().flat_map(|first| along(first.into(), 12)).collect();
    let ended = u32::from(free.last().copied().unwrap_or(0)) == wall.control.free_last;
    let mut all = [free, log].concat();
    all.sort_unstable();
    ended && all.into_iter().eq(1..=512)
}

/// Three links of the free chain change places: that makes a chain in another order, or
/// one that leaves records out.
#[test]
fn links_that_change_places() {
    let (wall, mut kinds) = (reordered(&chained(), &shuffled(7)), [0; 2]);
    let free = wall.free_chain();
    for seed in seeds().take(600) {
        let places = [seed as usize % 509, seed as usize / 509 % 509, (seed as usize * 7) / 13 % 509];
        let [one, two, three] = places.map(|place| free[place]);
        let mut left = wall.clone();
        left.put_link(one, 12, wall.link(two, 12));
        left.put_link(two, 12, wall.link(three, 12));
        left.put_link(three, 12, wall.link(one, 12));
        let last = places.iter().position(|place| *place == 508).map(|_| free.iter().find(|r| left.link(**r, 12) == 0).unwrap());
        left.control.free_last = last.map_or(wall.control.free_last, |r| u32::from(*r));
        assert_eq!(laid(&left), makes_two_chains(&left), "{places:?}");
        kinds[usize::from(laid(&left))] += 1;
    }
    assert!(kinds.iter().all(|times| *times >= 100), "{kinds:?}");
}

/// Any links, of any records: every test ends.
#[test]
fn links_of_any_bytes() {
    let (wall, mut seeds) = (full_log(), seeds());
    for _ in 0..300 {
        let mut left = if seeds.next().unwrap() % 2 == 0 { wall.clone() } else { chained() };
        for r in 1..=512 {
            let (at, to) = ([12, 14][seeds.next().unwrap() as usize % 2], seeds.next().unwrap() % 520);
            left.put_link(r, at, u16::try_from(to).unwrap());
        }
        assert_eq!(left.retire(), refused(2));
        assert_eq!(left.load(), refused(2));
    }
}
