//! The boundaries that a run must have met, with how their calls ended.

use crate::converted::AMOUNTS;
use crate::keys::{ACTED, PASSED_OVER, RECEIVE_AHEAD, RECEIVE_APPLIED, RECEIVE_BYTES, RECEIVE_CART, RECEIVE_COPY, RECEIVE_COUNT};
use crate::keys::{ANSWERS, ANSWERS_MOVED, MOVE_ABOVE, MOVE_AHEAD, MOVE_BEHIND, MOVE_SESSION, MOVE_STUDIO};
use crate::keys::{APPLIED, Asked, COLLECT_SPACES, COMMIT, DONE, Edit, Key, PREVIEW, READ, READ_ASKED, READ_SPACES, Reading, SENT_OVER};
use crate::keys::{BELOW_ALL, COLLECT_LOADED, COMMIT_LOADED, FIRST_SHOWN, FIRST_SHOWN_MOVED, LOADED, LOADED_RETIRED, REFUSED_LOADED};
use crate::keys::{COLLECT_RAISES, FORWARD_RAISES, READ_RAISES};
use crate::keys::{Converting, FROM_OLD, FROM_OLD_MARK, TO_OLD};
use crate::keys::{FORWARD_ASKED, FORWARD_COMMITS, FORWARD_HIGH, FORWARD_IN_LIST, FORWARD_NUMBER, FORWARD_RAISED, FORWARD_SPACES};
use crate::keys::{FORWARD_STUDIO, FORWARD_UNMADE, HEAD_END, WAITED};
use crate::keys::{HELD, RECEIVE_NUMBER, RECEIVE_OPERATION, RECEIVE_SPACED, RECEIVE_SPARE, REPEATED, RUN, RUN_HIGH};
use crate::keys::{LOAD_APPLIED, LOAD_BEHIND, LOAD_BEYOND, LOAD_COMMITS, LOAD_LOGGED, LOAD_RETIRED, LOAD_SENT, LOAD_SPACED};
use crate::keys::{LOAD_BYTE, LOAD_CART, LOAD_EARLIER, LOAD_LATER, LOAD_LESS, LOAD_LETTER, LOAD_LETTER_LAST, LOAD_MORE};
use crate::keys::{LOAD_HEAD_END, LOAD_LAST, LOAD_STUDIO, LOAD_STUDIO_APPLIED, LOAD_STUDIO_BEHIND, LOAD_STUDIOS, LOAD_USED, LOAD_WAITS};
use crate::keys::{LOAD_MISFIT, LOAD_MISFIT_IN, LOAD_MISFIT_LATER, LOAD_MISFIT_PLACE};
use crate::keys::{NONE, ONE, SEARCH_BOTH, SEARCH_BYTE, SEARCH_BYTE_0, SEARCH_CART, SEARCH_COPY, SEARCH_DIFFERS, SEARCH_FOUND};
use crate::keys::{RAISED_BEHIND, RAISED_FROM, RAISED_HIGH, REFUSED_AT, REFUSED_IN_LIST};
use crate::keys::{RETIRE_ACTED, RETIRE_FREE, RETIRE_JOINED, RETIRE_LEAST, RETIRE_LEFT, RETIRE_OPERATIONS, RETIRE_PASSED_OVER};
use crate::keys::{RETIRE_NEEDED, RETIRE_NEEDED_LAST, RETIRE_NEEDED_SENT, RETIRE_NONE, RETIRE_STUDIOS, RETIRED};
use crate::keys::{SEARCH_LAST, SEARCH_LENGTH, SEARCH_LENGTH_BYTE, SEARCH_LETTERS, SEARCH_TITLE, SEVERAL, WRONG_LENGTH};
use crate::keys::{TAKEN_ALONE, TAKEN_FIRST, TAKEN_LEFT, TAKEN_NEXT, VAN_WRITE_GONE, VAN_WRITE_RETIRED, WEEKS};
use crate::keys::{TO_OLD_FIRST_LONGER, TO_OLD_LAST_LONGER, TO_OLD_LONGER, TO_OLD_LONGER_OUTPUT};
use crate::keys::{VAN_WRITE_COMMITS, VAN_WRITE_COUNT, VAN_WRITE_NUMBER, VAN_WRITE_ROOM, VAN_WRITE_SPACED, VAN_WRITE_SPARE};
use crate::lists::{FEW, MANY};
use crate::old::Form;
use crate::torn;

/// −1 as it is kept in a key.
const LESS: u32 = u32::MAX;
const HUGE: u32 = u32::MAX;
/// The last commit number.
const LAST: u32 = simulator::COMMITS;

pub fn all() -> Vec<Key> {
    let spaces = [reading(&READ_SPACES, WAITED), reading(&COLLECT_SPACES, WAITED), reading(&FORWARD_SPACES, HEAD_END)].concat();
    let asked = [asked(&READ_ASKED, WAITED), asked(&FORWARD_ASKED, HEAD_END)].concat();
    let calls = [edit(&COMMIT), edit(&PREVIEW), taken(), asked, forward(), spaces, moves(), load(), van_write(), OTHERS.to_vec()].concat();
    [calls, loaded(), retire(), searches(), receive(), converting(&FROM_OLD, Form::Old), converting(&TO_OLD, Form::Ours), longer()].concat()
}

/// Those of a load. A byte that alone differs, in memory of the layout, is one of audio, length or title.
fn load() -> Vec<Key> {
    let bytes: Vec<u32> = (4..12).chain(16..80).collect();
    numbered(&[
        (LOAD_COMMITS, &[0, 1, 2, 511, 512, LAST], DONE),
        (LOAD_COMMITS, &[0, 1, 512, LAST], 19),
        (LOAD_RETIRED, &[0, 1, 2, LAST], DONE),
        (LOAD_RETIRED, &[0, 1, LAST], 19),
        (LOAD_LOGGED, &[0, 1, 2], DONE),
        (LOAD_BEYOND, &[0, 1, 2], DONE),
        (LOAD_USED, &[0, 1, 511, 512], DONE),
        (LOAD_USED, &[0, 1, 512], 19),
        (LOAD_STUDIOS, &[1, 2, 3, 4], DONE),
        (LOAD_STUDIOS, &[1, 2, 3, 4], 19),
        (LOAD_APPLIED, &[0, 1, LAST], DONE),
        (LOAD_BEHIND, &[0, 1, 2], DONE),
        (LOAD_SENT, &[0, 1, 31, 32], DONE),
        (LOAD_WAITS, &[LESS, 0, 1], DONE),
        (LOAD_SPACED, &[1, 2], DONE),
        (LOAD_HEAD_END, &[0, 1, 512], 19),
        (LOAD_STUDIO, &[1, 2, 3, 4], 19),
        (LOAD_LAST, &[1, 2, 3, 4], 19),
        (LOAD_STUDIO_APPLIED, &[0, 1, LAST], 19),
        (LOAD_STUDIO_BEHIND, &[0, 1, 2], 19),
        (LOAD_MORE, &[0, 1, 2, 3, 4], 19),
        (LOAD_LESS, &[0, 1, 2, 3, 4], 19),
        (LOAD_EARLIER, &[0, 1, 2, 3, 4], 19),
        (LOAD_LATER, &[1, 2, 3, 4], 19),
        (LOAD_CART, &[1, 128], 19),
        (LOAD_BYTE, &bytes, 19),
        (LOAD_LETTER, &[0, 1, 2, 3, 4], 19),
        (LOAD_LETTER_LAST, &[1, 2, 3, 4], 19),
        (LOAD_MISFIT, &[1, 2, 3, 4], 19),
        (LOAD_MISFIT_PLACE, &[1, 2, 3, 4, 5, 6, 7, 8], 19),
        (LOAD_MISFIT_IN, &[1, 2, 512], 19),
        (LOAD_MISFIT_LATER, &[0, 1, 2], 19),
        (torn::SWEEP, &[0, 1, 2, 3, 4, 5], DONE),
    ])
}

/// Those of a retire, and of the records that commits take.
fn retire() -> Vec<Key> {
    numbered(&[
        (RETIRED, &[1, 2, 255, 256, 257, 512, 513, LAST - 1, LAST], DONE),
        (RETIRE_OPERATIONS, &[1, 2, 3, 4, 5, 6, 7, 8], DONE),
        (RETIRE_LEFT, &[0, 1, 2], DONE),
        (RETIRE_LEAST, &[1, 2], DONE),
        (RETIRE_FREE, &[0, 1, 511], DONE),
        (RETIRE_STUDIOS, &[1, 2, 3, 4], DONE),
        (RETIRE_ACTED, &[1, 2, 3, 4], DONE),
        (RETIRE_PASSED_OVER, &[1, 2, 3, 4], DONE),
        (RETIRE_JOINED, &[LESS, 1, 2], DONE),
        (RETIRE_NONE, &[0, 1, LAST], 20),
        (RETIRE_NEEDED, &[1, 2, 3, 4], 20),
        (RETIRE_NEEDED_LAST, &[1, 2, 3, 4], 20),
        (RETIRE_NEEDED_SENT, &[0, 1, 2], 20),
        (TAKEN_NEXT, &[LESS, 1, 2], DONE),
        (TAKEN_FIRST, &[LESS, 1, 2], DONE),
        (TAKEN_LEFT, &[0, 1], DONE),
        (TAKEN_ALONE, &[0, 1, 2], DONE),
        (WEEKS, &[FEW, MANY], DONE),
    ])
}

/// Those of the lists over loaded memory.
fn loaded() -> Vec<Key> {
    let answers = [READ, HEAD_END].map(|end| numbered(&[(FIRST_SHOWN, &[0, 1, 2], end), (FIRST_SHOWN_MOVED, &[0, 1, 2], end)]));
    let others = numbered(&[
        (LOADED, &[0, 1, 512, LAST], DONE),
        (LOADED_RETIRED, &[0, 1, 2], DONE),
        (BELOW_ALL, &[0, 1], READ),
        (COLLECT_LOADED, &[1, 2], READ),
        (COLLECT_LOADED, &[1, 2], WAITED),
        (COMMIT_LOADED, &[1, 2], DONE),
        (REFUSED_LOADED, &[0, 1, 2], 8),
    ]);
    [answers.concat(), others].concat()
}

/// Those of a move, of the numbers that answers raise, and of two answers to one session.
fn moves() -> Vec<Key> {
    let raises = [READ_RAISES, COLLECT_RAISES, FORWARD_RAISES]
        .map(|of| numbered(&[(of.from, &[0, 1], READ), (of.by, &[1, 2], READ), (of.high, &[0, 1, 2, 255], READ)]));
    let answers = [READ, HEAD_END].map(|end| numbered(&[(ANSWERS, &[0, 1, 2], end), (ANSWERS_MOVED, &[0, 1, 2], end)]));
    let others = numbered(&[
        (MOVE_SESSION, &[1, 16], DONE),
        (MOVE_SESSION, &[1, 16], 4),
        (MOVE_SESSION, &[0, 17, 257, 65_537, HUGE], 3),
        (MOVE_STUDIO, &[1, 2, 3, 4], DONE),
        (MOVE_STUDIO, &[1, 2, 3, 4], 4),
        (MOVE_STUDIO, &[0, 2, 3, 4, 5, 257, 65_537, HUGE], 3),
        (MOVE_ABOVE, &[LESS, 0], DONE),
        (MOVE_ABOVE, &[1], 3),
        (MOVE_BEHIND, &[LESS, 0, 1], DONE),
        (MOVE_BEHIND, &[0, 1], 4),
        (MOVE_AHEAD, &[LESS, 0, 1], DONE),
        (MOVE_AHEAD, &[LESS, 0, 1], 4),
    ]);
    [raises.concat(), answers.concat(), others].concat()
}

/// Those of a van_write.
fn van_write() -> Vec<Key> {
    numbered(&[
        (VAN_WRITE_NUMBER, &[1, 2, 255, 256, 257, 512, 513, LAST], DONE),
        (VAN_WRITE_NUMBER, &[0, 513, 65_536, 65_537, HUGE], 17),
        (VAN_WRITE_NUMBER, &[1, 2, LAST], 21),
        (VAN_WRITE_RETIRED, &[LESS, 0], 21),
        (VAN_WRITE_RETIRED, &[1, 2], DONE),
        (VAN_WRITE_GONE, &[0, 83, 84, 2_560], 21),
        (VAN_WRITE_COMMITS, &[LESS, 0], DONE),
        (VAN_WRITE_COMMITS, &[1], 17),
        (VAN_WRITE_COUNT, &[1, 2, 3, 4, 5, 6, 7, 8], DONE),
        (VAN_WRITE_COUNT, &[1, 8], 17),
        (VAN_WRITE_SPARE, &[0, 1], DONE),
        (VAN_WRITE_SPARE, &[LESS], 17),
        (VAN_WRITE_ROOM, &[644, 645], DONE),
        (VAN_WRITE_ROOM, &[0, 643], 17),
        (VAN_WRITE_SPACED, &[1, 2], DONE),
    ])
}

/// Those of a receive, and of the lists for fresh vans. A copy of 75,776 bytes has the right length as its low two bytes.
fn receive() -> Vec<Key> {
    let ends = [DONE, HELD, 18].map(|end| {
        numbered(&[
            (RECEIVE_NUMBER, &[2, 255, 256, 257, 65_534, 65_535], end),
            (RECEIVE_COUNT, &[1, 8], end),
            (RECEIVE_BYTES, &[84, 644], end),
            (ACTED, &[1, 2, 3, 4], end),
            (PASSED_OVER, &[1, 2, 3, 4], end),
            (RECEIVE_SPACED, &[1, 2], end),
        ])
    });
    let others = numbered(&[
        (RECEIVE_NUMBER, &[1], DONE),
        (RECEIVE_NUMBER, &[1], HELD),
        (RECEIVE_APPLIED, &[0, 1, 65_533, 65_534], DONE),
        (RECEIVE_APPLIED, &[1, 65_534, 65_535, 65_536, HUGE - 1, HUGE], HELD),
        (RECEIVE_APPLIED, &[0, 1, 65_533], 18),
        (RECEIVE_AHEAD, &[1], DONE),
        (RECEIVE_AHEAD, &[0, LESS], HELD),
        (RECEIVE_AHEAD, &[2, 3], 18),
        (RECEIVE_COUNT, &[0, 9, 255], 17),
        (RECEIVE_BYTES, &[0, 1, 2, 3, 4, 83, 85, 643, 645, 724], 17),
        (RECEIVE_SPARE, &[LESS, 1], 17),
        (RECEIVE_COPY, &[0, 10_239, 10_241, 75_776], 17),
        (RECEIVE_OPERATION, &[1, 2, 3, 4, 5, 6, 7, 8], 17),
        (RECEIVE_CART, &[1, 128], 17),
        (REPEATED, &[0, 1, 2], HELD),
        (RUN, &[0, 1, 2, 3, 512], DONE),
        (RUN_HIGH, &[0, 1, 2], DONE),
    ]);
    [ends.concat(), others].concat()
}

/// Those of a conversion each way. A length of 65,536 more than the right one has the right length as its low two bytes.
fn converting(of: &Converting, from: Form) -> Vec<Key> {
    let [input, output] = [from, from.other()].map(|form| (form.length() as u32, form.other().length() as u32));
    let wrong = |(right, other): (u32, u32)| [0, right - 1, right + 1, other, 65_536 + right];
    numbered(&[
        (of.input, &[input.0], DONE),
        (of.input, &wrong(input), 22),
        (of.output, &[output.0], DONE),
        (of.output, &wrong(output), 22),
        (of.cart, &[1, 128], 22),
        (of.byte_1, &[0, from.room() as u32 + 1, 255], 22),
        (of.held, &[0, 1, 128], DONE),
        (of.title, &(1..=32).collect::<Vec<u32>>(), DONE),
        (of.longest, &[0, 1, 31, 32], DONE),
        (of.space_first, &[1, 2, 32], DONE),
        (of.space_last, &[1, 2, 32], DONE),
        (of.audio, &AMOUNTS, DONE),
        (of.milliseconds, &AMOUNTS, DONE),
    ])
}

/// Those of one way alone: the mark, and longer titles.
fn longer() -> Vec<Key> {
    numbered(&[
        (FROM_OLD_MARK, &[1, 2, 3, 4, 5, 6], 22),
        (FROM_OLD.byte_1, &[64], 22),
        (TO_OLD.held, &[1, 128], 23),
        (TO_OLD.title, &(33..=64).collect::<Vec<u32>>(), 23),
        (TO_OLD.longest, &[33, 34, 63, 64], 23),
        (TO_OLD.space_first, &[64], 23),
        (TO_OLD.space_last, &[64], 23),
        (TO_OLD_LONGER, &[1, 128], 23),
        (TO_OLD_LONGER_OUTPUT, &[6_150], 23),
        (TO_OLD_LONGER_OUTPUT, &[0, 6_149, 6_151, 10_240, 71_686], 22),
        (TO_OLD_FIRST_LONGER, &[128], 22),
        (TO_OLD_LAST_LONGER, &[1], 22),
    ])
}

/// Those of a title search. The lengths 320 and 65,537 have a right length as their low byte or bytes, as has a copy of 75,776.
fn searches() -> Vec<Key> {
    let ends = [NONE, ONE].map(|end| {
        numbered(&[
            (SEARCH_TITLE, &[1, 7, 8, 9, 64], end),
            (SEARCH_LETTERS, &[1, 64], end),
            (SEARCH_DIFFERS, &[1, 2, 8, 9, 16, 17, 24, 25, 32, 33, 40, 41, 48, 49, 56, 57, 63, 64], end),
            (SEARCH_LAST, &[1, 33, 63], end),
            (SEARCH_LENGTH, &[LESS, 1], end),
            (SEARCH_BYTE_0, &[0, 2, 255], end),
        ])
    });
    let others = numbered(&[
        (SEARCH_COPY, &[0, 10_239, 10_241, 75_776], WRONG_LENGTH),
        (SEARCH_TITLE, &[0, 65, 320, 65_537], WRONG_LENGTH),
        (SEARCH_BOTH, &[0, 65], WRONG_LENGTH),
        (SEARCH_LETTERS, &[0, 8_192], NONE),
        (SEARCH_LETTERS, &[8_192], SEVERAL),
        (SEARCH_CART, &[1, 128], ONE),
        (SEARCH_FOUND, &[2, 3, 128], SEVERAL),
        (SEARCH_LENGTH_BYTE, &[0, 65, 255], NONE),
        (SEARCH_BYTE, &[0, 31, 127, 128, 255], ONE),
    ]);
    [ends.concat(), others].concat()
}

/// Those of a read or of a forward; `behind` is how it ends where the studio has not reached the session's number.
fn asked(of: &Asked, behind: u32) -> Vec<Key> {
    let ends = [READ, behind].map(|end| {
        numbered(&[
            (of.session, &[1, 16], end),
            (of.numbers, &[1, 32], end),
            (of.cart, &[1, 128], end),
            (of.title_length, &[1, 64], end),
            (of.spare, &[0, 1], end),
            (of.room, &[2_560], end),
            (of.title_room, &[80], end),
        ])
    });
    let others = numbered(&[
        (of.session, &[0, 17, 257, 65_537, HUGE], 3),
        (of.size, &[0, 79, 81], 12),
        (of.numbers, &[0, 33], 12),
        (of.cart, &[0, 129], 12),
        (of.title_length, &[0, 65], 12),
        (of.spare, &[LESS], 13),
        (of.room, &[2_559], 13),
        (of.title_room, &[79], 13),
        (of.behind, &[0, LESS], READ),
        (of.behind, &[1], behind),
        (of.behind, &[0, 1], 4),
        (of.behind, &[0, 1], 12),
        (of.behind, &[0, 1], 13),
        (of.found_by_numbers, &[0, 1, 32], READ),
        (of.found_by_title, &[0, 1, 2, 3], READ),
    ]);
    [ends.concat(), others].concat()
}

/// Those of a forward alone.
fn forward() -> Vec<Key> {
    let ends = [READ, HEAD_END].map(|end| {
        numbered(&[
            (FORWARD_NUMBER, &[1, 512, LAST], end),
            (FORWARD_COMMITS, &[1, 512, LAST], end),
            (FORWARD_STUDIO, &[1, 2, 3, 4], end),
            (FORWARD_UNMADE, &[1, 2], end),
            (FORWARD_IN_LIST, &[1, 2], end),
        ])
    });
    let others = numbered(&[
        (FORWARD_NUMBER, &[0], READ),
        (FORWARD_COMMITS, &[0], READ),
        (FORWARD_RAISED, &[0, 1, 2], HEAD_END),
        (FORWARD_HIGH, &[0, 1, 2, 255], HEAD_END),
        (FORWARD_ASKED.found_by_numbers, &[0, 1, 32], HEAD_END),
        (FORWARD_ASKED.found_by_title, &[0, 1, 2, 3], HEAD_END),
    ]);
    [ends.concat(), others].concat()
}

/// Those of a commit refused with 8. Its commits are at most 65,534, since at 65,535 it is refused with 7.
fn taken() -> Vec<Key> {
    numbered(&[
        (REFUSED_AT, &[0, 1, 511, LAST - 1], 8),
        (REFUSED_IN_LIST, &[0, 1], 8),
        (RAISED_FROM, &[0, 1], 8),
        (RAISED_HIGH, &[0, 1, 255], 8),
        (RAISED_BEHIND, &[0, 1, 2], 8),
    ])
}

/// Those of a read, of a collect or of a forward that have to do with spaced titles; `behind` as above.
fn reading(of: &Reading, behind: u32) -> Vec<Key> {
    let ends = [READ, behind].map(|end| match end {
        WAITED => numbered(&[(of.asked, &[1, 64], end)]),
        _ => numbered(&[(of.asked, &[1, 64], end), (of.found, &[0, 1, 2], end), (of.shown, &[0, 1, 32], end)]),
    });
    ends.concat()
}

/// A key for each number.
fn numbered(by_end: &[(&'static str, &[u32], u32)]) -> Vec<Key> {
    let keys = by_end.iter().flat_map(|(subject, numbers, end)| numbers.iter().map(move |number| (*subject, *number, *end)));
    keys.collect()
}

/// Those of a commit or of a preview.
fn edit(of: &Edit) -> Vec<Key> {
    numbered(&[
        (of.session, &[1, 16], DONE),
        (of.session, &[0, 17, HUGE], 3),
        (of.size, &[80, 160, 240, 320, 400, 480, 560, 640], DONE),
        (of.size, &[0, 79, 81, 641, 720], 5),
        (of.number, &[1, 512, 513, LAST - 1, LAST], DONE),
        (of.full, &[LESS], 7),
        (of.ended, &[LESS, 0, 1], 7),
        (of.used, &[504, 505, 506, 507, 508, 509, 510, 511], DONE),
        (of.used, &[505, 506, 507, 508, 509, 510, 511, 512], 7),
        (of.used_after, &[511, 512], DONE),
        (of.used_after, &[513, 520], 7),
        (of.kind, &[1, 2, 3, 4], DONE),
        (of.kind, &[0, 5], 6),
        (of.cart, &[1, 128], DONE),
        (of.cart, &[0, 129], 6),
        (of.title_length, &[1, 32, 33, 64], DONE),
        (of.title_length, &[0, 65], 6),
        (of.kind, &[1, 2], 16),
        (of.space_first, &[2, 64], 16),
        (of.space_last, &[2, 64], 16),
        (of.space_both, &[1, 2, 3, 64], 16),
        (of.space_inside, &[3, 64], DONE),
        (of.spaced_place, &[1, 2, 3, 4, 5, 6, 7, 8], 16),
        (of.spaced_cart, &[1], 8),
        (of.spaced_cart, &[2], 16),
        (of.spaced_cart, &[2, 3, 4], DONE),
        (of.same_title, &[64], 16),
        (of.wrong_state, &[0, 1, 2], 8),
        (of.wrong_state, &[1, 2], 7),
        (of.wrong_state, &[1, 2], 16),
        (of.wrong_state, &[2], 6),
        (of.wrong_state, &[2], 5),
        (of.wrong_state, &[2], 4),
        (of.wrong_state, &[2], 3),
        (of.at_fault, &[1, 2, 3, 4, 5, 6, 7, 8], 8),
        (of.fault_kind, &[1, 2, 3, 4], 8),
    ])
}

/// Those of every other call.
const OTHERS: &[Key] = &[
    ("setup, S", 0, 15),
    ("setup, S", 1, DONE),
    ("setup, S", 4, DONE),
    ("setup, S", 5, 15),
    ("setup, S", HUGE, 15),
    ("setup, studio bytes", 0, 15),
    ("setup, studio bytes", 15, 15),
    ("setup, studio bytes", 16, DONE),
    ("setup, studio bytes", 17, 15),
    ("setup, highest studio byte − S", 0, DONE),
    ("setup, highest studio byte − S", 1, 15),
    ("send, studio", 0, 3),
    ("send, studio", 1, DONE),
    ("send, studio", 4, DONE),
    ("send, studio", 5, 3),
    ("send, studio", HUGE, 3),
    ("send, studio", 2, DONE),
    ("send, studio", 3, DONE),
    ("send, number", 1, DONE),
    ("send, number", 512, DONE),
    ("send, number", LAST, DONE),
    ("send, studio − S", 0, DONE),
    ("send, studio − S", 1, 3),
    ("send, sent − applied", 31, DONE),
    ("send, sent − applied", 32, 10),
    ("send, sent − applied", 32, 9),
    ("send, sent − applied", 33, 2),
    (SENT_OVER, 1, DONE),
    (SENT_OVER, 4, DONE),
    ("refresh, studio", 0, 3),
    ("refresh, studio", 1, DONE),
    ("refresh, studio", 4, DONE),
    ("refresh, studio", 5, 3),
    ("refresh, studio", HUGE, 3),
    ("refresh, studio", 2, DONE),
    ("refresh, studio", 3, DONE),
    ("refresh, number", 1, DONE),
    ("refresh, number", 512, DONE),
    ("refresh, number", LAST, DONE),
    ("refresh, studio − S", 0, DONE),
    ("refresh, studio − S", 1, 3),
    (APPLIED, 1, DONE),
    (APPLIED, 2, DONE),
    ("read or collect, session number", 0, READ),
    ("read or collect, session number", 1, READ),
    ("read or collect, session number", 1, WAITED),
    ("read or collect, session number", 512, READ),
    ("read or collect, session number", 512, WAITED),
    ("read or collect, session number", LAST, READ),
    ("read or collect, session number", LAST, WAITED),
    ("read or collect, studio", 1, READ),
    ("read or collect, studio", 2, READ),
    ("read or collect, studio", 3, READ),
    ("read or collect, studio", 4, READ),
    ("collect, session", 0, 3),
    ("collect, session", 1, READ),
    ("collect, session", 16, READ),
    ("collect, session", 17, 3),
    ("collect, session", HUGE, 3),
    ("collect, output − asked", LESS, 13),
    ("collect, output − asked", 0, READ),
    ("collect, output − asked", 0, WAITED),
    ("collect, output − asked", 1, READ),
    ("collect, session number − applied", 1, WAITED),
    ("collect, session number − applied", 0, READ),
    ("collect, session number − applied", LESS, READ),
    ("collect, kind of read", 1, READ),
    ("collect, kind of read", 2, READ),
    ("collect, kind of read", 0, 14),
];
