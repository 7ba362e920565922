//! What is counted, and how its call ended.

/// Outcomes that are no refusal; a refusal is its number.
pub const DONE: u32 = 100;
pub const READ: u32 = 101;
pub const WAITED: u32 = 102;
/// A forward that the head end answered; one that the studio answered is a [`READ`].
pub const HEAD_END: u32 = 103;

/// How a title search ended: its kind, counted from here.
pub const NONE: u32 = 104;
pub const ONE: u32 = 105;
pub const SEVERAL: u32 = 106;
pub const WRONG_LENGTH: u32 = 107;

/// A receive of a number already applied; one that is applied is [`DONE`].
pub const HELD: u32 = 108;

/// Subject, the number met, and how the call ended.
pub type Key = (&'static str, u32, u32);

/// The commit that is the next call after its preview and gives the same answer: anywhere, and in lists from fresh or loaded systems.
pub const PREVIEWED: &str = "commit right after its preview";
pub const PREVIEWED_IN_LIST: &str = "commit right after its preview, in a list";

/// The commits of the control at which a commit was refused with 8: anywhere, and in lists from fresh or loaded systems, where it is an
/// entry.
pub const REFUSED_AT: &str = "commit refused with 8, commits";
pub const REFUSED_IN_LIST: &str = "commit refused with 8 in a list, commits";
/// Such a refusal of a session whose number is below commits.
pub const RAISED: Key = ("commit refused with 8, number below commits", 0, 8);
/// The number that it raises, the high byte that it writes, and how far the session's studio is behind.
pub const RAISED_FROM: &str = "number raised by a refusal 8, from";
pub const RAISED_HIGH: &str = "number raised by a refusal 8, high byte";
pub const RAISED_BEHIND: &str = "number raised by a refusal 8, commits − applied";
/// The session's next read: any, and one that waits only because of the refusal. Then the collect of that read.
pub const READ_TOLD: &str = "next read after a refusal 8 that raised the number";
pub const READ_TOLD_ALONE: &str = "next read after a refusal 8 that raised a number already reached";
pub const COLLECT_TOLD: &str = "collect of the next read after a refusal 8";
/// A number raised by a refusal 8 in lists from memory that no list reaches.
pub const RAISED_UNREACHED: &str = "list from unreached memory with a number raised by a refusal 8";

/// Of an answered forward: the session's number, commits, and the number of its studio.
pub const FORWARD_NUMBER: &str = "forward, session number";
pub const FORWARD_COMMITS: &str = "forward, commits";
pub const FORWARD_STUDIO: &str = "forward, studio";
/// Of a forward by the head end: how far it raises the session's number, 2 standing for more too, and the high byte of a raised number.
pub const FORWARD_RAISED: &str = "forward, commits − session number";
pub const FORWARD_HIGH: &str = "number raised by a forward, high byte";
/// The kind of request of a forward while the head end's copy is not what the log makes; and of one that is an entry of a list's order.
pub const FORWARD_UNMADE: &str = "forward where the head end's copy is no L(n), kind of request";
pub const FORWARD_IN_LIST: &str = "forward in a list, kind of request";
/// The session's next read after a forward by the head end: any, the very next call, and one that waits only because of the forward. Then
/// the collect of that read.
pub const READ_FORWARDED: &str = "next read after a forward by the head end";
pub const READ_STRAIGHT: &str = "read straight after a forward by the head end";
pub const READ_FORWARDED_ALONE: &str = "next read after a forward by the head end that raised a number now reached";
pub const COLLECT_FORWARDED: &str = "collect of the next read after a forward by the head end";
/// The session's next forward: any, and one that the head end answers only because of the first. Then one after a refusal 8.
pub const FORWARD_AGAIN: &str = "next forward after a forward by the head end";
pub const FORWARD_AGAIN_ALONE: &str = "next forward after a forward by the head end that raised a number now reached";
pub const FORWARD_TOLD: &str = "next forward after a refusal 8 that raised the number";
/// The collect of a read because of which a forward was refused with 4.
pub const COLLECT_KEPT: &str = "collect of a read because of which 4 refused a forward";
/// A list whose order has entries of reads, of collects and of forwards.
pub const MIXED: &str = "list with reads, collects and forwards in its order";

/// Of a move that rows 1 and 2 let through: its session, its studio, and that less S.
pub const MOVE_SESSION: &str = "move, session";
pub const MOVE_STUDIO: &str = "move, studio";
pub const MOVE_ABOVE: &str = "move, studio − S";
/// By what row 3 stops it: each part of the row alone, and session and studio both.
pub const BY_OUTSIDE: &str = "move of a session outside 1 to 16, to a studio that there is";
pub const BY_UNUSED: &str = "move of an unused session, to a studio that there is";
pub const BY_STUDIO: &str = "move of a session in use, to a studio that there is not";
pub const BY_BOTH: &str = "move of a session not in use, to a studio that there is not";
/// Where there are both: to the studio where the session is, or to another; the session's number less what that has applied.
pub const MOVE_HERE: &str = "move to the session's own studio";
pub const MOVE_AWAY: &str = "move to another studio";
pub const MOVE_BEHIND: &str = "move, session number − applied of its studio";
pub const MOVE_AHEAD: &str = "move, session number − applied of the other studio";
/// The next read and forward of a session that went to another studio, and the collect of that read.
pub const READ_MOVED: &str = "next read after a move";
pub const FORWARD_MOVED: &str = "next forward after a move";
pub const COLLECT_MOVED: &str = "collect of the next read after a move";
/// Those at a studio that has not reached the session's number, and has reached what it was before answers raised it, the last of these
/// by a read, a collect or a forward.
pub const READ_HELD: [&str; 3] = [
    "next read after a move, studio behind only what a read showed",
    "next read after a move, studio behind only what a collect showed",
    "next read after a move, studio behind only what a forward showed",
];
pub const FORWARD_HELD: [&str; 3] = [
    "next forward after a move, studio behind only what a read showed",
    "next forward after a move, studio behind only what a collect showed",
    "next forward after a move, studio behind only what a forward showed",
];
/// Two answers to one session, one after the other: the later state less the earlier, 2 standing for more too. Then those with a move
/// between them; in lists from fresh or loaded systems, where both are entries; in lists from memory that no list reaches.
pub const ANSWERS: &str = "two answers to a session, state − state";
pub const ANSWERS_MOVED: &str = "two answers to a session and a move between them, state − state";
pub const ANSWERS_IN_LIST: &str = "two answers to a session and a move between them, in a list";
pub const ANSWERS_UNREACHED: &str = "list from unreached memory with two answers to a session and a move between them";

/// A list that was played again without its moves and by the rule before S-7, where a session's number is another at the end.
pub const UNMOVED: &str = "list without its moves, with a number raised by an answer";

/// Of a load that rows 1 and 2 let through: commits, records used, and S.
pub const LOAD_COMMITS: &str = "load, commits";
pub const LOAD_USED: &str = "load, used";
pub const LOAD_STUDIOS: &str = "load, S";
/// Of each studio of an accepted one with commits: applied, commits less that, 2 standing for more too, and sent less that.
pub const LOAD_APPLIED: &str = "load with commits, applied of a studio";
pub const LOAD_BEHIND: &str = "load with commits, commits − applied of a studio";
pub const LOAD_SENT: &str = "load with commits, sent − applied of a studio";
/// Of each session of an accepted one that waits: its number less what its studio has applied, between −2 and 2. And the kind of a record
/// with a spaced title.
pub const LOAD_WAITS: &str = "load, a read waits, session number − applied";
pub const LOAD_SPACED: &str = "load, record with a spaced title, kind";
/// Where one copy differs from its L and all else is right: commits, for the head end's; the studio, S where it is the last one, what it
/// has applied, and commits less that, 2 standing for more too.
pub const LOAD_HEAD_END: &str = "load, the head end's copy alone differs, commits";
pub const LOAD_STUDIO: &str = "load, a studio's copy alone differs, studio";
pub const LOAD_LAST: &str = "load, the last studio's copy alone differs, S";
pub const LOAD_STUDIO_APPLIED: &str = "load, a studio's copy alone differs, applied";
pub const LOAD_STUDIO_BEHIND: &str = "load, a studio's copy alone differs, commits − applied";
/// How that copy (0 the head end's) differs: it has a cart more, or one less; it is that of the transaction before, or of the one after.
pub const LOAD_MORE: &str = "load, one copy differs by a cart more, copy";
pub const LOAD_LESS: &str = "load, one copy differs by a cart less, copy";
pub const LOAD_EARLIER: &str = "load, one copy is that of the state before, copy";
pub const LOAD_LATER: &str = "load, one copy is that of the state after, copy";
/// It differs in one byte alone: the cart, and the byte of it. For a letter of the title the copy, and S where it is the last studio's.
pub const LOAD_CART: &str = "load, one copy differs in one byte, cart";
pub const LOAD_BYTE: &str = "load, one copy differs in one byte, byte of the cart";
pub const LOAD_LETTER: &str = "load, one copy differs in one letter, copy";
pub const LOAD_LETTER_LAST: &str = "load, the last studio's copy differs in one letter, S";
/// Where an operation met its cart in the wrong state and every copy is right: of the first such one the kind, the place in its
/// transaction, the transaction, and commits less that, 2 standing for more too.
pub const LOAD_MISFIT: &str = "load, copies right and an operation in a wrong state, kind";
pub const LOAD_MISFIT_PLACE: &str = "load, copies right and an operation in a wrong state, place";
pub const LOAD_MISFIT_IN: &str = "load, copies right and an operation in a wrong state, transaction";
pub const LOAD_MISFIT_LATER: &str = "load, copies right and an operation in a wrong state, commits − transaction";
/// Where it is the only one, by the studios that have applied its transaction.
pub const LOAD_MISFIT_BY_NONE: &str = "load, copies right and one operation in a wrong state, applied by no studio";
pub const LOAD_MISFIT_BY_SOME: &str = "load, copies right and one operation in a wrong state, applied by some studios";
pub const LOAD_MISFIT_BY_ALL: &str = "load, copies right and one operation in a wrong state, applied by every studio";
/// A copy that differs, and an operation in a wrong state.
pub const LOAD_BOTH: &str = "load, a copy that differs and an operation in a wrong state";

/// Of a load that rows 1 and 2 let through: the count retired. Where that is not 0 and the load is accepted: the transactions in the log, 2
/// standing for more too; and what a studio has applied beyond the retired ones, likewise.
pub const LOAD_RETIRED: &str = "load, retired";
pub const LOAD_LOGGED: &str = "load with retired transactions, transactions in the log";
pub const LOAD_BEYOND: &str = "load with retired transactions, applied − retired";

/// Of an accepted retire: the count retired, the operations, the transactions left in the log and how far the studio furthest behind was
/// beyond those retired before (2 standing for more too in both), the free records before it, and S.
pub const RETIRED: &str = "retire, count retired";
pub const RETIRE_OPERATIONS: &str = "retire, operations";
pub const RETIRE_LEFT: &str = "retire, transactions left in the log";
pub const RETIRE_LEAST: &str = "retire, lowest applied − retired";
pub const RETIRE_FREE: &str = "retire, free records before";
pub const RETIRE_STUDIOS: &str = "retire, S";
/// The kind of an operation that meets its cart in the sixth copy, and of one that does not. Then where the last free record leads: how much
/// higher the record is that it names, between −1 and 2.
pub const RETIRE_ACTED: &str = "retire, operation that meets its cart, kind";
pub const RETIRE_PASSED_OVER: &str = "retire, operation in a wrong state, kind";
pub const RETIRE_JOINED: &str = "retire, first record joined − last free record";
/// Of one refused with 20: commits, where the log has none; else, where one studio alone needs the oldest, that studio, S if it is the last
/// one, and sent less applied, 2 standing for more too.
pub const RETIRE_NONE: &str = "retire with no transaction in the log, commits";
pub const RETIRE_NEEDED: &str = "retire of what one studio alone needs, studio";
pub const RETIRE_NEEDED_LAST: &str = "retire of what the last studio alone needs, S";
pub const RETIRE_NEEDED_SENT: &str = "retire of what one studio alone needs, sent − applied";

/// Of an accepted commit: how much higher the record of an operation is than that of the one before it, and its first than that of the
/// transaction before it, both between −1 and 2; the free records left; and the count retired where the log had no transaction.
pub const TAKEN_NEXT: &str = "commit, record of an operation − the one before";
pub const TAKEN_FIRST: &str = "commit, first record − that of the transaction before";
pub const TAKEN_LEFT: &str = "commit, free records left";
pub const TAKEN_ALONE: &str = "commit with no transaction in the log, retired";

/// A list of weeks, by the transactions that it was to have.
pub const WEEKS: &str = "list of weeks, transactions";

/// A list that begins with loaded memory: by its commits, and by the count retired, 2 standing for more too; one whose memory was saved before
/// other calls; one whose memory no list has left.
pub const LOADED: &str = "list over loaded memory, commits";
pub const LOADED_RETIRED: &str = "list over loaded memory, retired";
pub const LOADED_EARLIER: &str = "list over loaded memory that was saved before other calls";
pub const LOADED_MADE: &str = "list over loaded memory that no list has left";
/// In such a list, answers with a state below the loaded commits, which stand between the loaded transactions; and one with the state that the
/// single library begins with, before all of these, by the count retired, 1 standing for more too.
pub const READ_BELOW: &str = "read over loaded memory, state below its commits";
pub const COLLECT_BELOW: &str = "collect over loaded memory, state below its commits";
pub const FORWARD_BELOW: &str = "forward over loaded memory, state below its commits";
pub const BELOW_ALL: &str = "answer over loaded memory before its transactions, retired";
/// A collect of a loaded request, by its kind; a commit, by its number less the loaded commits, 2 standing for more too, or refused with 8,
/// by commits less those.
pub const COLLECT_LOADED: &str = "collect of a loaded request, kind of read";
pub const COMMIT_LOADED: &str = "commit over loaded memory, number − loaded commits";
pub const REFUSED_LOADED: &str = "commit over loaded memory refused with 8, commits − loaded commits";
/// A move to another studio, also refused by 4 because of the loaded request.
pub const MOVE_LOADED: &str = "move over loaded memory";
pub const MOVE_STOPPED: &str = "move while a loaded request waits";
/// The first answer to a session since memory was loaded: its state less the loaded number, 2 standing for more too; then with a move
/// before it.
pub const FIRST_SHOWN: &str = "first answer over loaded memory, state − loaded number";
pub const FIRST_SHOWN_MOVED: &str = "first answer over loaded memory and after a move, state − loaded number";
/// What the loaded number alone stops before the first answer: a read, a forward by the studio; and those after a move.
pub const FIRST_READ: &str = "first read over loaded memory, studio behind the loaded number";
pub const FIRST_FORWARD: &str = "first forward over loaded memory, studio behind the loaded number";
pub const FIRST_READ_MOVED: &str = "first read over loaded memory and after a move, studio behind the loaded number";
pub const FIRST_FORWARD_MOVED: &str = "first forward over loaded memory and after a move, studio behind the loaded number";

/// The subjects of a session's number that an answer of its studio raises.
pub struct Raises {
    /// The number before, how far it is raised, 2 standing for more too, and the high byte that is written.
    pub from: &'static str,
    pub by: &'static str,
    pub high: &'static str,
}

macro_rules! raises {
    ($call:literal) => {
        Raises {
            from: concat!("number raised by an answered ", $call, ", from"),
            by: concat!("number raised by an answered ", $call, ", state − number"),
            high: concat!("number raised by an answered ", $call, ", high byte"),
        }
    };
}

pub const READ_RAISES: Raises = raises!("read");
pub const COLLECT_RAISES: Raises = raises!("collect");
pub const FORWARD_RAISES: Raises = raises!("forward");

/// Title searches: the lengths of the copy and of the title, where the other one is right and where it is not.
pub const SEARCH_COPY: &str = "search, copy bytes";
pub const SEARCH_TITLE: &str = "search, title bytes";
pub const SEARCH_BOTH: &str = "search in a copy of a wrong length, title bytes";
/// The letters compared, the one cart's number, and how many carts have the title where it is not one.
pub const SEARCH_LETTERS: &str = "search, letters compared";
pub const SEARCH_CART: &str = "search, the one cart";
pub const SEARCH_FOUND: &str = "search, carts with the title";
/// In a held cart of the length asked: the first letter that differs, of 64; and the length where it is the last letter.
pub const SEARCH_DIFFERS: &str = "search for 64 letters, first that differs";
pub const SEARCH_LAST: &str = "search, the last letter alone differs in a title of";
/// A held cart of another length, all shared letters equal: how much longer it is, 2 standing for more too; and its length byte.
pub const SEARCH_LENGTH: &str = "search, held cart with the letters, its length − the length asked";
pub const SEARCH_LENGTH_BYTE: &str = "search, held cart with the letters and another length, byte 1";
/// A cart that is not held, with the length and the letters: its byte 0.
pub const SEARCH_BYTE_0: &str = "search, cart with length and letters that is not held, byte 0";
/// A cart that has the title: with bytes 2 and 3 that are not its place, and with a byte after its title.
pub const SEARCH_NUMBER: &str = "search, cart with the title and another number";
pub const SEARCH_AFTER: &str = "search, cart with the title and a byte after it";
/// A byte outside 32 to 126 in a title that one cart has.
pub const SEARCH_BYTE: &str = "search for a title with byte";

/// Of a van_write that rows 1 and 2 let through: its number, that less commits, that less the count retired, and one whose low 16 bits alone
/// are a transaction's. Of a retired transaction: output.
pub const VAN_WRITE_GONE: &str = "van_write of a retired transaction, output";
pub const VAN_WRITE_NUMBER: &str = "van_write, number";
pub const VAN_WRITE_COMMITS: &str = "van_write, number − commits";
pub const VAN_WRITE_RETIRED: &str = "van_write, number − retired";
pub const VAN_WRITE_LOW: &str = "van_write, number of which the low 16 bits are a transaction's";
/// Where there is the transaction: its operations, output less the message, and output for 8 operations.
pub const VAN_WRITE_COUNT: &str = "van_write, operations";
pub const VAN_WRITE_SPARE: &str = "van_write, output − message";
pub const VAN_WRITE_ROOM: &str = "van_write, output for 8 operations";
/// One that no studio was sent; and the kind of an operation with a spaced title.
pub const VAN_WRITE_UNSENT: &str = "van_write of a transaction that no studio was sent";
pub const VAN_WRITE_SPACED: &str = "van_write, operation with a spaced title, kind";

/// Receives: how they ended, and the bytes of the message.
pub const RECEIVE: &str = "receive";
pub const RECEIVE_BYTES: &str = "receive, message bytes";
/// Where message and copy are in form: the message's number, applied, and the one less the other, between −2 and 3.
pub const RECEIVE_NUMBER: &str = "receive, number";
pub const RECEIVE_APPLIED: &str = "receive, applied";
pub const RECEIVE_AHEAD: &str = "receive, number − applied";
/// Then the kind of an operation that meets its cart, of one that does not, and of one with a spaced title.
pub const ACTED: &str = "receive, operation that meets its cart, kind";
pub const PASSED_OVER: &str = "receive, operation in a wrong state, kind";
pub const RECEIVE_SPACED: &str = "receive, operation with a spaced title, kind";
/// Where one fault alone or none is there: the count of operations.
pub const RECEIVE_COUNT: &str = "receive, operations";
/// Where one fault alone is there: message bytes less those of its count, copy bytes, the one operation out of form, the one cart.
pub const RECEIVE_SPARE: &str = "receive, message bytes − those of its count";
pub const RECEIVE_COPY: &str = "receive, copy bytes";
pub const RECEIVE_OPERATION: &str = "receive, the one operation of eight out of form at";
pub const RECEIVE_CART: &str = "receive, the one cart out of form";

/// Lists for fresh vans: a repeat's number below applied, 2 standing for more too; a message applied that came too soon before; one
/// written before later commits; one with a spaced title; one whose transaction is retired at the end of the list of calls.
pub const REPEATED: &str = "van list, applied − number of a repeat";
pub const ARRIVED_AGAIN: &str = "van list, message that came too soon before";
pub const ARRIVED_LATE: &str = "van list, message written before later commits";
pub const ARRIVED_SPACED: &str = "van list, message with a spaced title";
pub const ARRIVED_RETIRED: &str = "van list, message of a transaction retired since";
/// What is applied after the list, and its high byte; and where the run ends: the next was lost, came too soon, or there is none.
pub const RUN: &str = "van list, applied";
pub const RUN_HIGH: &str = "van list, high byte of applied";
pub const RUN_LOST: &str = "van list, the run ends where one was lost";
pub const RUN_SOON: &str = "van list, the run ends where the next came too soon";
pub const RUN_WHOLE: &str = "van list, the run ends with the highest number";

/// The subjects of a conversion, from_old or to_old.
pub struct Converting {
    pub name: &'static str,
    /// Each reason for 22 alone, 1 standing for a longer title beside it (row 23), 0 for none.
    pub reasons: [&'static str; 4],
    /// Where that reason is the length, or where there is none.
    pub input: &'static str,
    pub output: &'static str,
    /// Where the reason is one cart: its number, and byte 1 of a held one.
    pub cart: &'static str,
    pub byte_1: &'static str,
    /// Where there is no reason: held carts, the lengths of titles, the longest, and of those with a space first or last.
    pub held: &'static str,
    pub title: &'static str,
    pub longest: &'static str,
    pub space_first: &'static str,
    pub space_last: &'static str,
    /// Then the audio numbers and lengths of carts that are among [`crate::converted::AMOUNTS`].
    pub audio: &'static str,
    pub milliseconds: &'static str,
    /// A title with small letters and capitals; a wall that went there and back.
    pub cases: &'static str,
    pub back: &'static str,
}

macro_rules! converting {
    ($name:literal) => {
        Converting {
            name: $name,
            reasons: [
                concat!($name, " of an input of a wrong length, longer titles"),
                concat!($name, " of a wrong mark, longer titles"),
                concat!($name, " of a cart out of form, longer titles"),
                concat!($name, " to an output of a wrong length, longer titles"),
            ],
            input: concat!($name, ", input bytes"),
            output: concat!($name, ", output bytes"),
            cart: concat!($name, ", the one cart out of form"),
            byte_1: concat!($name, ", the one cart out of form, byte 1"),
            held: concat!($name, ", held carts"),
            title: concat!($name, ", title of"),
            longest: concat!($name, ", longest title of"),
            space_first: concat!($name, ", space first in a title of"),
            space_last: concat!($name, ", space last in a title of"),
            audio: concat!($name, ", audio number"),
            milliseconds: concat!($name, ", length of a cart"),
            cases: concat!($name, " of a title with letters of both cases"),
            back: concat!($name, " and back"),
        }
    };
}

pub const FROM_OLD: Converting = converting!("from_old");
pub const TO_OLD: Converting = converting!("to_old");

/// The one byte of the mark that is another, counted from 1.
pub const FROM_OLD_MARK: &str = "from_old, the one byte of the mark that is another";
/// The one cart with a longer title. Beside a longer title in the first or the last cart: the one cart out of form; and output.
pub const TO_OLD_LONGER: &str = "to_old, the one cart with a longer title";
pub const TO_OLD_FIRST_LONGER: &str = "to_old of a longer title in cart 1, the one cart out of form";
pub const TO_OLD_LAST_LONGER: &str = "to_old of a longer title in cart 128, the one cart out of form";
pub const TO_OLD_LONGER_OUTPUT: &str = "to_old of a longer title, output bytes";

/// The subjects of a call that is handed a request and an output: read or forward.
pub struct Asked {
    pub session: &'static str,
    pub size: &'static str,
    pub numbers: &'static str,
    pub cart: &'static str,
    pub title_length: &'static str,
    /// Output less what is asked, and its length where 32 numbers or a title are asked.
    pub spare: &'static str,
    pub room: &'static str,
    pub title_room: &'static str,
    /// The session's number less what its studio has applied, between −2 and 2.
    pub behind: &'static str,
    pub found_by_numbers: &'static str,
    pub found_by_title: &'static str,
}

macro_rules! asked {
    ($call:literal) => {
        Asked {
            session: concat!($call, ", session"),
            size: concat!($call, ", request bytes"),
            numbers: concat!($call, ", numbers asked"),
            cart: concat!($call, ", cart asked"),
            title_length: concat!($call, ", title length"),
            spare: concat!($call, ", output − asked"),
            room: concat!($call, ", output for 32 numbers"),
            title_room: concat!($call, ", output for a title"),
            behind: concat!($call, ", session number − applied"),
            found_by_numbers: concat!($call, ", found by numbers"),
            found_by_title: concat!($call, ", found by title"),
        }
    };
}

pub const READ_ASKED: Asked = asked!("read");
pub const FORWARD_ASKED: Asked = asked!("forward");

/// The subjects of a commit or of a preview, which have the same arguments.
pub struct Edit {
    pub session: &'static str,
    pub size: &'static str,
    pub number: &'static str,
    pub used: &'static str,
    pub used_after: &'static str,
    /// Where row 7 stops it: free records less operations, between −1 and 1, below 65,535 commits and at these.
    pub full: &'static str,
    pub ended: &'static str,
    pub kind: &'static str,
    pub cart: &'static str,
    pub title_length: &'static str,
    /// Titles by their lengths: with a space first, last, at both ends, or inside only.
    pub space_first: &'static str,
    pub space_last: &'static str,
    pub space_both: &'static str,
    pub space_inside: &'static str,
    /// Among eight operations, the place of the only one with a spaced title.
    pub spaced_place: &'static str,
    /// The kind of an operation that meets a cart with a spaced title.
    pub spaced_cart: &'static str,
    /// The length of the spaced title that a retitle gives to a cart that has it.
    pub same_title: &'static str,
    /// Where row 8 holds: commits less the session's number, 2 standing for more too.
    pub wrong_state: &'static str,
    /// Where row 8 stops it: the place and the kind of the first operation at fault.
    pub at_fault: &'static str,
    pub fault_kind: &'static str,
}

macro_rules! edit {
    ($call:literal) => {
        Edit {
            session: concat!($call, ", session"),
            size: concat!($call, ", size"),
            number: concat!($call, ", number"),
            used: concat!($call, ", used"),
            used_after: concat!($call, ", used + operations"),
            full: concat!($call, " refused with 7 below 65,535 commits, free records − operations"),
            ended: concat!($call, " refused with 7 at 65,535 commits, free records − operations"),
            kind: concat!("operation of a ", $call, ", kind"),
            cart: concat!("operation of a ", $call, ", cart"),
            title_length: concat!("operation of a ", $call, ", title length"),
            space_first: concat!("operation of a ", $call, ", space first in a title of"),
            space_last: concat!("operation of a ", $call, ", space last in a title of"),
            space_both: concat!("operation of a ", $call, ", space first and last in a title of"),
            space_inside: concat!("operation of a ", $call, ", space only inside a title of"),
            spaced_place: concat!($call, ", the one spaced title of eight at"),
            spaced_cart: concat!("operation of a ", $call, " on a cart with a spaced title, kind"),
            same_title: concat!("operation of a ", $call, ", the spaced title that the cart has, length"),
            wrong_state: concat!($call, " with row 8, commits − session's number"),
            at_fault: concat!($call, ", the first operation in a wrong state at"),
            fault_kind: concat!($call, ", the first operation in a wrong state, kind"),
        }
    };
}

pub const COMMIT: Edit = edit!("commit");
pub const PREVIEW: Edit = edit!("preview");

/// The subjects of a read, a collect or a forward that have to do with spaced titles.
pub struct Reading {
    /// The length of a spaced title asked for.
    pub asked: &'static str,
    /// How many carts have it.
    pub found: &'static str,
    /// How many places of a read by numbers show a cart with a spaced title.
    pub shown: &'static str,
}

macro_rules! reading {
    ($call:literal) => {
        Reading {
            asked: concat!($call, ", spaced title of"),
            found: concat!($call, ", found by a spaced title"),
            shown: concat!($call, ", places with a spaced title"),
        }
    };
}

pub const READ_SPACES: Reading = reading!("read");
pub const COLLECT_SPACES: Reading = reading!("collect");
pub const FORWARD_SPACES: Reading = reading!("forward");

/// A studio's number, of a send over carts and records with spaced titles.
pub const SENT_OVER: &str = "send over spaced titles, studio";
/// The kind of a record with a spaced title that a refresh has applied.
pub const APPLIED: &str = "refresh, record with a spaced title, kind";

/// The subjects for the length of each memory, call by call: setup, commit, send, refresh, read, collect, preview, forward, van_write,
/// move, load, retire.
pub const LENGTHS: [[&str; 3]; 12] = [
    ["setup, library bytes", "setup, log bytes", "setup, session bytes"],
    ["commit, library bytes", "commit, log bytes", "commit, session bytes"],
    ["send, library bytes", "send, log bytes", "send, session bytes"],
    ["refresh, library bytes", "refresh, log bytes", "refresh, session bytes"],
    ["read, library bytes", "read, log bytes", "read, session bytes"],
    ["collect, library bytes", "collect, log bytes", "collect, session bytes"],
    ["preview, library bytes", "preview, log bytes", "preview, session bytes"],
    ["forward, library bytes", "forward, log bytes", "forward, session bytes"],
    ["van_write, library bytes", "van_write, log bytes", "van_write, session bytes"],
    ["move, library bytes", "move, log bytes", "move, session bytes"],
    ["load, library bytes", "load, log bytes", "load, session bytes"],
    ["retire, library bytes", "retire, log bytes", "retire, session bytes"],
];
