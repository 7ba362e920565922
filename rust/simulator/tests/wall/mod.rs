//! A wall for the tests: the lent memory, the control, and makers of inputs.
#![allow(dead_code)]

use simulator::{Answer, COPY, Control, DONE, LIBRARY, LOG, REFUSED, SESSION_MEMORY, UNIT};

#[derive(Clone, PartialEq, Debug)]
pub struct Wall {
    pub library: Vec<u8>,
    pub log: Vec<u8>,
    pub sessions: Vec<u8>,
    pub control: Control,
}

/// An answer without its control: kind, value, found.
pub type Words = (u32, u32, u32);

pub fn refused(number: u32) -> Words {
    (0, number, 0)
}

pub fn done(value: u32) -> Words {
    (1, value, 0)
}

pub fn answered(state: u32, found: u32) -> Words {
    (2, state, found)
}

pub fn waits(number: u32) -> Words {
    (3, number, 0)
}

/// 01's table: S = 2; sessions 1 and 2 at studio 1, session 3 at studio 2.
pub fn fresh() -> Wall {
    let mut wall = Wall { library: vec![7; LIBRARY], log: vec![7; LOG], sessions: vec![7; SESSION_MEMORY], control: Control::default() };
    let studios = [1, 1, 2, 0, 0, 0, 0, 0, 0, 0, 0, 0, 0, 0, 0, 0];
    assert_eq!(wall.setup(2, &studios), done(0));
    wall
}

/// S studios, with the sessions among them; session 9 is unused.
pub fn studios(count: u32) -> Wall {
    let mut bytes: Vec<u8> = (0..16).map(|place| 1 + place % u8::try_from(count).unwrap()).collect();
    bytes[8] = 0;
    let mut wall = fresh();
    assert_eq!(wall.setup(count, &bytes), done(0));
    wall
}

impl Wall {
    /// Takes the control over. `before` is the wall that a refusal has to leave.
    fn keep(&mut self, before: Wall, answer: Answer) -> Words {
        self.control = answer.control;
        if answer.kind == REFUSED {
            assert_eq!(*self, before, "a refused call changes nothing, but a session's number by a commit's 8");
        }
        (answer.kind, answer.value, answer.found)
    }

    /// An answered read, collect or forward leaves no request, and its session's number
    /// as the state it showed if that is higher. Nothing else changes.
    fn keep_read(&mut self, mut before: Wall, session: u32, answer: Answer) -> Words {
        if answer.kind == simulator::ANSWERED {
            before.put_request(session, &[0; UNIT]);
            before.put_number(session, before.number(session).max(answer.value));
        }
        self.control = answer.control;
        assert_eq!(*self, before, "a reading call changes its session's request and number alone");
        (answer.kind, answer.value, answer.found)
    }

    /// A session's number, bytes 2 and 3 of its 80.
    pub fn number(&self, session: u32) -> u32 {
        let at = number_at(session);
        u32::from(u16::from_le_bytes([self.sessions[at], self.sessions[at + 1]]))
    }

    pub fn put_number(&mut self, session: u32, number: u32) {
        let (at, number) = (number_at(session), u16::try_from(number).unwrap());
        self.sessions[at..at + 2].copy_from_slice(&number.to_le_bytes());
    }

    /// Bytes 0, 1 and 16 to 79 of a session: its waiting read, or none by zeros.
    pub fn put_request(&mut self, session: u32, request: &[u8]) {
        let at = number_at(session) - 2;
        self.sessions[at..at + 2].copy_from_slice(&request[..2]);
        self.sessions[at + 16..at + UNIT].copy_from_slice(&request[16..]);
    }

    pub fn setup(&mut self, studios: u32, bytes: &[u8]) -> Words {
        let (library, log) = (&mut self.library, &mut self.log);
        let answer = simulator::setup(library, log, &mut self.sessions, studios, bytes);
        self.control = answer.control;
        (answer.kind, answer.value, answer.found)
    }

    pub fn commit(&mut self, session: u32, operations: &[[u8; UNIT]]) -> Words {
        self.commit_bytes(session, &operations.concat())
    }

    /// The only refusal that changes a byte: with 8, the session's number becomes commits.
    /// An accepted commit changes its session's number, the head end's copy, and of log and
    /// control what `append_by_hand` does.
    pub fn commit_bytes(&mut self, session: u32, bytes: &[u8]) -> Words {
        let mut before = self.clone();
        let (library, log) = (&mut self.library, &mut self.log);
        let answer = simulator::commit(library, log, &mut self.sessions, self.control, session, bytes);
        if (answer.kind, answer.value) == (REFUSED, 8) {
            before.put_number(session, before.control.commits);
        }
        if answer.kind == DONE {
            before.append_by_hand(bytes);
            before.put_number(session, before.control.commits);
            before.library[..COPY].copy_from_slice(&self.library[..COPY]);
            assert_eq!(Wall { control: answer.control, ..self.clone() }, before, "a commit takes the first free records");
        }
        self.keep(before, answer)
    }

    pub fn preview(&mut self, session: u32, operations: &[[u8; UNIT]]) -> Words {
        self.preview_bytes(session, &operations.concat())
    }

    pub fn preview_bytes(&mut self, session: u32, bytes: &[u8]) -> Words {
        let before = self.clone();
        let (library, log) = (&mut self.library, &mut self.log);
        let answer = simulator::preview(library, log, &mut self.sessions, self.control, session, bytes);
        self.control = answer.control;
        assert_eq!(*self, before, "a preview changes nothing, accepted or refused");
        (answer.kind, answer.value, answer.found)
    }

    pub fn send(&mut self, studio: u32) -> Words {
        let before = self.clone();
        let (library, log) = (&mut self.library, &mut self.log);
        let answer = simulator::send(library, log, &mut self.sessions, self.control, studio);
        self.keep(before, answer)
    }

    pub fn refresh(&mut self, studio: u32) -> Words {
        let before = self.clone();
        let (library, log) = (&mut self.library, &mut self.log);
        let answer = simulator::refresh(library, log, &mut self.sessions, self.control, studio);
        self.keep(before, answer)
    }

    pub fn read(&mut self, session: u32, request: &[u8], output: &mut [u8]) -> Words {
        let mut before = self.clone();
        let (library, log) = (&mut self.library, &mut self.log);
        let sessions = &mut self.sessions;
        let control = self.control;
        let answer = simulator::read(library, log, sessions, control, session, request, output);
        if answer.kind == simulator::WAITS {
            before.put_request(session, request);
        }
        self.keep_read(before, session, answer)
    }

    pub fn collect(&mut self, session: u32, output: &mut [u8]) -> Words {
        let before = self.clone();
        let (library, log) = (&mut self.library, &mut self.log);
        let sessions = &mut self.sessions;
        let answer = simulator::collect(library, log, sessions, self.control, session, output);
        self.keep_read(before, session, answer)
    }

    pub fn forward(&mut self, session: u32, request: &[u8], output: &mut [u8]) -> Words {
        let before = self.clone();
        let (library, log) = (&mut self.library, &mut self.log);
        let sessions = &mut self.sessions;
        let control = self.control;
        let answer = simulator::forward(library, log, sessions, control, session, request, output);
        self.keep_read(before, session, answer)
    }

    /// An accepted move changes one word of control, a refused one nothing.
    pub fn move_session(&mut self, session: u32, studio: u32) -> Words {
        let mut before = self.clone();
        let (library, log) = (&mut self.library, &mut self.log);
        let answer = simulator::move_session(library, log, &mut self.sessions, self.control, session, studio);
        if answer.kind != REFUSED {
            before.control.session_studios[session as usize - 1] = studio;
        }
        self.control = answer.control;
        assert_eq!(*self, before, "a move changes its session's studio alone");
        (answer.kind, answer.value, answer.found)
    }

    pub fn load(&mut self) -> Words {
        let before = self.clone();
        let answer = simulator::load(&self.library, &self.log, &self.sessions, self.control);
        self.control = answer.control;
        assert_eq!(*self, before, "a load changes neither memory nor control, accepted or refused");
        (answer.kind, answer.value, answer.found)
    }

    /// An accepted retire changes of library, log and control what `retire_by_hand` does.
    pub fn retire(&mut self) -> Words {
        let mut before = self.clone();
        let answer = simulator::retire(&mut self.library, &mut self.log, &mut self.sessions, self.control);
        self.control = answer.control;
        if answer.kind == DONE {
            before.retire_by_hand();
        }
        assert_eq!(*self, before, "the oldest transaction's records join the end of the free chain");
        (answer.kind, answer.value, answer.found)
    }

    /// The index in bytes 12 to 13 or 14 to 15 of record r.
    pub fn link(&self, r: u16, at: usize) -> u16 {
        let at = UNIT * (usize::from(r) - 1) + at;
        u16::from_le_bytes([self.log[at], self.log[at + 1]])
    }

    pub fn put_link(&mut self, r: u16, at: usize, to: u16) {
        cart(&mut self.log, r)[at..at + 2].copy_from_slice(&to.to_le_bytes());
    }

    /// Each record of a chain has the index of the next one, and the last one 0.
    pub fn put_links(&mut self, chain: &[u16], at: usize) {
        for (r, to) in chain.iter().zip(chain.iter().skip(1).chain([&0])) {
            self.put_link(*r, at, *to);
        }
    }

    /// The records along the indexes at one place, from one on; 0 for none.
    pub fn chain(&self, first: u32, at: usize) -> Vec<u16> {
        let first = u16::try_from(first).unwrap();
        let next = |r: &u16| Some(self.link(*r, at)).filter(|next| *next != 0);
        let chain: Vec<u16> = std::iter::successors((first != 0).then_some(first), next).take(513).collect();
        assert!(chain.len() <= 512, "the chain from {first} ends");
        chain
    }

    /// The records of each transaction, the oldest first.
    pub fn log_chain(&self) -> Vec<Vec<u16>> {
        self.chain(self.control.oldest, 14).into_iter().map(|first| self.chain(first.into(), 12)).collect()
    }

    pub fn free_chain(&self) -> Vec<u16> {
        self.chain(self.control.free_first, 12)
    }

    /// 02's words on a commit's records, in bytes.
    fn append_by_hand(&mut self, operations: &[u8]) {
        let mut taken = self.free_chain();
        let rest = taken.split_off(operations.len() / UNIT);
        for (r, operation) in taken.iter().zip(operations.chunks_exact(UNIT)) {
            cart(&mut self.log, *r).copy_from_slice(operation);
        }
        self.put_links(&taken, 12);
        match self.chain(self.control.oldest, 14).last() {
            Some(last) => self.put_link(*last, 14, taken[0]),
            None => self.control.oldest = taken[0].into(),
        }
        self.control.free_first = rest.first().map_or(0, |r| u32::from(*r));
        self.control.free_last = rest.last().map_or(0, |r| u32::from(*r));
        self.control.used += u32::try_from(taken.len()).unwrap();
        self.control.commits += 1;
    }

    /// 02's words on a retire, in bytes. The effect on the sixth copy is that of the van's
    /// receiver for the same transaction.
    fn retire_by_hand(&mut self) {
        let (retired, mut message) = (self.control.retired, [0; 644]);
        let (kind, length, _) = self.van_write(retired + 1, &mut message);
        let answer = simulator::van_receive(&mut self.library[5 * COPY..], retired, &message[..length as usize]);
        assert_eq!((kind, answer.kind, answer.applied), (DONE, DONE, retired + 1));
        let (records, next) = (self.chain(self.control.oldest, 12), self.link(self.control.oldest as u16, 14));
        records.iter().for_each(|r| cart(&mut self.log, *r).fill(0));
        let free = [self.free_chain(), records.clone()].concat();
        self.put_links(&free, 12);
        (self.control.free_first, self.control.free_last) = (free[0].into(), free[free.len() - 1].into());
        self.control.used -= u32::try_from(records.len()).unwrap();
        self.control.oldest = next.into();
        self.control.retired += 1;
    }

    pub fn van_write(&mut self, number: u32, output: &mut [u8]) -> Words {
        let (before, given) = (self.clone(), output.to_vec());
        let (library, log) = (&mut self.library, &mut self.log);
        let answer = simulator::van_write(library, log, &mut self.sessions, self.control, number, output);
        self.control = answer.control;
        assert_eq!(*self, before, "the writer changes neither memory nor control, accepted or refused");
        if answer.kind == REFUSED {
            assert_eq!(output, given, "a refused writer leaves its output");
        }
        (answer.kind, answer.value, answer.found)
    }
}

fn number_at(session: u32) -> usize {
    UNIT * (usize::try_from(session).unwrap() - 1) + 2
}

/// Two previews, then the commit: the same answer three times.
pub fn alike(case: &str, wall: &Wall, session: u32, operations: &[u8], words: Words) {
    let mut wall = wall.clone();
    assert_eq!(wall.preview_bytes(session, operations), words, "{case}: preview");
    assert_eq!(wall.preview_bytes(session, operations), words, "{case}: preview once more");
    assert_eq!(wall.commit_bytes(session, operations), words, "{case}: commit");
}

/// A row's number, and what brings a wall of few commits under it.
pub type Fault = (u32, fn(&mut Wall));

pub const FAULTS: [Fault; 23] = [
    (1, |wall| wall.library.truncate(51_200)),
    (1, |wall| wall.log.truncate(40_959)),
    (1, |wall| wall.sessions.push(0)),
    (2, |wall| wall.library[480] = 2),
    (2, |wall| wall.library[51_199] = 1),
    (2, |wall| wall.log[14] = 3),
    (2, |wall| wall.log[40_959] = 1),
    (2, |wall| wall.put_number(1, wall.control.commits + 1)),
    (2, |wall| wall.sessions[240] = 1),
    (2, |wall| wall.control = Control::default()),
    (2, |wall| wall.control.session_studios[15] = 65_537),
    (2, |wall| wall.control.used += 65_536),
    (2, |wall| wall.control.commits = u32::MAX),
    (2, |wall| wall.control.sent[0] = wall.control.commits + 1),
    (2, |wall| wall.control.applied[3] = u32::MAX),
    (2, |wall| wall.library[61_439] = 1),
    (2, |wall| wall.library[51_200 + 480..51_200 + 560].copy_from_slice(&top_hour())),
    (2, |wall| wall.control.retired = 1),
    (2, |wall| wall.control.oldest = 0),
    (2, |wall| wall.control.oldest += 65_536),
    (2, |wall| wall.control.free_first = 512),
    (2, |wall| wall.control.free_last = 0),
    (2, |wall| wall.put_link(512, 12, 512)),
];

/// A word of control, counted from 0.
pub fn word(control: &mut Control, place: usize) -> &mut u32 {
    match place {
        0 => &mut control.studios,
        1..=16 => &mut control.session_studios[place - 1],
        17 => &mut control.used,
        18 => &mut control.commits,
        19..=22 => &mut control.sent[place - 19],
        23..=26 => &mut control.applied[place - 23],
        27 => &mut control.retired,
        28 => &mut control.oldest,
        29 => &mut control.free_first,
        30 => &mut control.free_last,
        _ => panic!("control has 31 words"),
    }
}

/// A call that raises its session's number to commits changes bytes 2 and 3 of that
/// session alone. All 16 sessions are in use, and the other ones but the last have a read
/// waiting. Session n has made commit n, and the last one the rest of 300, as bytes 44
/// and 1.
pub fn raises_two_bytes(call: fn(&mut Wall, u32) -> Words, words: Words) {
    let mut full = fresh();
    assert_eq!(full.setup(4, &[1, 2, 3, 4, 1, 2, 3, 4, 1, 2, 3, 4, 1, 2, 3, 4]), done(0));
    assert_eq!(full.commit(1, &[top_hour()]), done(1));
    for n in 2..=300 {
        assert_eq!(full.commit(n.min(16), &[recut(7, n, n)]), done(n));
    }
    for (session, at) in (1..=15).zip((2..).step_by(UNIT)) {
        let mut wall = full.clone();
        for other in (1..=15).filter(|other| *other != session) {
            assert_eq!(wall.read(other, &by_title("Top hour A"), &mut [0; UNIT]), waits(other));
        }
        let before = wall.clone();
        assert_eq!(call(&mut wall, session), words);
        let changed: Vec<usize> = (0..SESSION_MEMORY).filter(|at| wall.sessions[*at] != before.sessions[*at]).collect();
        assert_eq!(changed, [at, at + 1]);
        assert_eq!(wall.sessions[at..at + 2], [44, 1]);
        wall.sessions[at..at + 2].copy_from_slice(&before.sessions[at..at + 2]);
        assert_eq!(wall, before, "neither library nor log nor control");
    }
}

/// Cart 7 is held; session 1 has made all the commits, of one operation each.
pub fn committed(commits: u32) -> Wall {
    let mut wall = fresh();
    assert_eq!(wall.commit(1, &[top_hour()]), done(1));
    for n in 2..=commits {
        assert_eq!(wall.commit(1, &[recut(7, n, n)]), done(n));
    }
    wall
}

/// Six commits, all sent to both studios, and no L(n) is like the one before it.
/// Studio 1 has applied as many as asked for, studio 2 none. Sessions 1 to 3 have
/// the numbers 1, 4 and 6.
pub fn six(applied: u32) -> Wall {
    let mut wall = fresh();
    for (n, session, operations) in [
        (1, 1, vec![top_hour()]),
        (2, 3, vec![new(8, "Bed", 2, 2)]),
        (3, 3, vec![recut(7, 3, 3), new(9, "Bed", 3, 3)]),
        (4, 2, vec![recut(7, 4, 4)]),
        (5, 3, vec![withdraw(8)]),
        (6, 3, vec![retitle(7, "Top hour B")]),
    ] {
        assert_eq!(wall.commit(session, &operations), done(n));
    }
    for n in 1..=6 {
        assert_eq!((wall.send(1), wall.send(2)), (done(n), done(n)));
    }
    for n in 1..=applied {
        assert_eq!(wall.refresh(1), done(n));
    }
    wall
}

/// `six` for every count applied at studio 1 and every number of session 1.
pub fn every_six() -> Vec<(Wall, u32, u32)> {
    let mut walls = Vec::new();
    for applied in 0..=6 {
        let wall = six(applied);
        for number in 0..=6 {
            let mut wall = wall.clone();
            wall.put_number(1, number);
            walls.push((wall, applied, number));
        }
    }
    walls
}

/// Seeds of 20 bits for lists of calls.
pub fn seeds() -> impl Iterator<Item = u32> {
    let next = |seed: &u32| Some(seed.wrapping_mul(1_664_525).wrapping_add(1_013_904_223));
    std::iter::successors(Some(7u32), next).map(|seed| seed >> 12)
}

/// One call of a list that a seed makes: its session, or 0 for a send or refresh,
/// and its answer.
pub fn call(wall: &mut Wall, seed: u32) -> (u32, Words) {
    let (session, studio, cart) = (1 + seed / 8 % 3, 1 + seed / 8 % 2, 7 + u16::try_from(seed / 32 % 2).unwrap());
    let (request, mut output) = ([by_numbers(&[7, 8]), by_title("Bed")][seed as usize / 64 % 2], [9; 2 * UNIT]);
    let operation = [new(cart, "Bed", seed, 1), recut(cart, seed, 2), withdraw(cart)][seed as usize / 128 % 3];
    match seed % 8 {
        0 | 1 => (session, wall.commit(session, &[operation])),
        2 => (0, wall.send(studio)),
        3 => (0, wall.refresh(studio)),
        4 => (session, wall.collect(session, &mut output)),
        5 => (session, wall.read(session, &request, &mut output)),
        _ => (session, wall.forward(session, &request, &mut output)),
    }
}

/// 1 to 3 operations on few carts, or none. A few are out of form, or have a space at an
/// end of the title.
pub fn edits(seed: u32) -> Vec<[u8; UNIT]> {
    let edit = |seed: u32| {
        let number = [1, 7, 8, 128][seed as usize / 16 % 4];
        match seed % 16 {
            0..=4 => new(number, ["Bed", "News"][seed as usize / 64 % 2], 1 + seed, 1),
            5..=8 => recut(number, 1 + seed, 2),
            9..=11 => retitle(number, ["Bed", "Top hour A"][seed as usize / 64 % 2]),
            12 | 13 => withdraw(number),
            14 => retitle(number, "Bed "),
            _ => recut(number, 0, 2),
        }
    };
    let count = [1, 1, 2, 1, 3, 1, 0, 1][seed as usize % 8];
    [seed / 8, seed / 32, seed / 128][..count].iter().map(|seed| edit(*seed)).collect()
}

/// One call of any kind but retire, for sessions 0 to 9 and studios 0 to S + 1, and what
/// is in its output.
pub fn any_output(wall: &mut Wall, seed: u32) -> (Words, Vec<u8>) {
    let (session, studio, operations) = (seed / 16 % 10, seed / 160 % (wall.control.studios + 2), edits(seed / 128));
    let request = [by_numbers(&[7, 8]), by_title("Bed"), by_numbers(&[128, 1]), [9; UNIT]][seed as usize / 512 % 4];
    let mut output = vec![9; [160, 160, 160, 79][seed as usize / 2_048 % 4]];
    let words = match seed % 16 {
        0..=4 => wall.commit(session, &operations),
        5 | 6 => wall.send(studio),
        7 | 8 => wall.refresh(studio),
        9 => wall.read(session, &request, &mut output),
        10 => wall.forward(session, &request, &mut output),
        11 | 12 => wall.collect(session, &mut output),
        13 => wall.move_session(session, studio),
        14 => wall.preview(session, &operations),
        _ => wall.van_write(seed / 16 % 64, &mut output),
    };
    (words, output)
}

pub fn any_call(wall: &mut Wall, seed: u32) -> Words {
    any_output(wall, seed).0
}

/// Whether the seed's call is to be a retire: one in eight.
pub fn retires(seed: u32) -> bool {
    seed >> 17 == 5
}

/// The wall's records under other indexes: record r is moved to place `order[r − 1]`.
pub fn reordered(wall: &Wall, order: &[u16]) -> Wall {
    let (mut left, to) = (wall.clone(), |r: u16| if r == 0 { 0 } else { order[usize::from(r) - 1] });
    for r in 1..=512 {
        cart(&mut left.log, to(r)).copy_from_slice(&wall.log[UNIT * (usize::from(r) - 1)..UNIT * usize::from(r)]);
        left.put_link(to(r), 12, to(wall.link(r, 12)));
        left.put_link(to(r), 14, to(wall.link(r, 14)));
    }
    for place in 28..=30 {
        let word = word(&mut left.control, place);
        *word = to(u16::try_from(*word).unwrap()).into();
    }
    left
}

/// The indexes 1 to 512 in another order.
pub fn shuffled(seed: usize) -> Vec<u16> {
    let mut order: Vec<u16> = (1..=512).collect();
    for (place, seed) in (1..512).rev().zip(seeds().skip(seed)) {
        order.swap(place, seed as usize % (place + 1));
    }
    order
}

/// The wall with so many transactions more, all of them retired: every count has risen.
/// The sixth copy is as it was.
pub fn aged(mut wall: Wall, more: u32) -> Wall {
    let studios = wall.control.studios as usize;
    wall.control.commits += more;
    wall.control.retired += more;
    for place in 0..studios {
        wall.control.sent[place] += more;
        wall.control.applied[place] += more;
    }
    let at = wall.control.session_studios;
    for session in (1..=16).filter(|session| at[*session as usize - 1] != 0) {
        wall.put_number(session, wall.number(session) + more);
    }
    wall
}

/// A copy of 128 carts with one title.
pub fn full(title: &str) -> Vec<u8> {
    (1..=128).flat_map(|number| new(number, title, 501, 8_000)).collect()
}

/// A copy in which these are held, each at its place.
pub fn copy_of(carts: &[[u8; UNIT]]) -> Vec<u8> {
    let mut copy = vec![0; COPY];
    for held in carts {
        cart(&mut copy, held[2].into()).copy_from_slice(held);
    }
    copy
}

/// The 80 bytes of a cart of a copy.
pub fn cart(copy: &mut [u8], number: u16) -> &mut [u8] {
    let at = UNIT * (usize::from(number) - 1);
    &mut copy[at..at + UNIT]
}

/// 64 bytes, all x but for a space at one place.
pub fn long(space: usize) -> String {
    let mut title = "x".repeat(64);
    title.replace_range(space..=space, " ");
    title
}

/// Titles with a space at an end.
pub fn spaced() -> Vec<String> {
    let short = [" News", "News ", " News ", "  News", "News  ", " ", "  ", "News bed "].map(String::from);
    [short.to_vec(), vec![long(0), long(63), " ".repeat(64)]].concat()
}

/// A wall from before S-2: cart 7 has the title, by commit 1 of session 1. The
/// cart and its record are written over those of a title that is accepted.
pub fn stored(title: &str) -> Wall {
    let mut wall = committed(1);
    let unit = new(7, title, 501, 8_000);
    wall.library[480..560].copy_from_slice(&unit);
    wall.log[..80].copy_from_slice(&unit);
    wall
}

/// Operations on cart 7 with one byte out of form.
pub fn formless() -> Vec<[u8; UNIT]> {
    let b = new(7, "B", 1, 1);
    let numbers = [(0, 0), (0, 5), (2, 0), (2, 129), (3, 1), (4, 0), (8, 0), (12, 1), (15, 1)].map(|(at, byte)| (b, at, byte));
    let titles = [(1, 0), (1, 2), (1, 65), (16, 31), (16, 127), (79, 32)].map(|(at, byte)| (b, at, byte));
    let missing = [(retitle(7, "B"), 1, 0), (recut(7, 1, 1), 4, 0), (recut(7, 1, 1), 8, 0)];
    let extra = [(retitle(7, "B"), 4, 1), (recut(7, 1, 1), 1, 1), (withdraw(7), 8, 1), (withdraw(7), 16, 32)];
    let mut operations = [&numbers[..], &titles, &missing, &extra].concat();
    for (operation, at, byte) in &mut operations {
        operation[*at] = *byte;
    }
    operations.into_iter().map(|(operation, _, _)| operation).collect()
}

/// Transaction n is sent to studio 1 and acts there.
pub fn refreshed(wall: &mut Wall, n: u32) {
    refreshed_at(wall, 1, n);
}

/// The next transaction of a studio, number n, is sent there and acts there.
pub fn refreshed_at(wall: &mut Wall, studio: u32, n: u32) {
    assert_eq!((wall.send(studio), wall.refresh(studio)), (done(n), done(n)));
}

fn unit(kind: u8, cart: u16, title: &str, audio: u32, length: u32) -> [u8; UNIT] {
    let mut unit = [0; UNIT];
    unit[0] = kind;
    unit[1] = u8::try_from(title.len()).unwrap();
    unit[2..4].copy_from_slice(&cart.to_le_bytes());
    unit[4..8].copy_from_slice(&audio.to_le_bytes());
    unit[8..12].copy_from_slice(&length.to_le_bytes());
    let kept = title.len().min(64);
    unit[16..16 + kept].copy_from_slice(&title.as_bytes()[..kept]);
    unit
}

pub fn new(cart: u16, title: &str, audio: u32, length: u32) -> [u8; UNIT] {
    unit(1, cart, title, audio, length)
}

pub fn retitle(cart: u16, title: &str) -> [u8; UNIT] {
    unit(2, cart, title, 0, 0)
}

pub fn recut(cart: u16, audio: u32, length: u32) -> [u8; UNIT] {
    unit(3, cart, "", audio, length)
}

pub fn withdraw(cart: u16) -> [u8; UNIT] {
    unit(4, cart, "", 0, 0)
}

/// 01's A.
pub fn top_hour() -> [u8; UNIT] {
    new(7, "Top hour A", 501, 8_000)
}

pub fn by_numbers(numbers: &[u16]) -> [u8; UNIT] {
    let mut request = [0; UNIT];
    request[0] = 1;
    request[1] = u8::try_from(numbers.len()).unwrap();
    for (i, number) in numbers.iter().enumerate() {
        request[16 + 2 * i..18 + 2 * i].copy_from_slice(&number.to_le_bytes());
    }
    request
}

pub fn by_title(title: &str) -> [u8; UNIT] {
    unit(2, 0, title, 0, 0)
}
