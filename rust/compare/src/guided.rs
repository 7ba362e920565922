//! Lists from fresh systems, guided so that deep states are reached, and the lists over loaded memory that go on from them.

use crate::arguments::{self, CALLS, COMMIT, PREVIEW, RETIRE, Taste};
use crate::asides;
use crate::call::Call;
use crate::keys::{DONE, LOADED_EARLIER, WEEKS};
use crate::lists;
use crate::make::Maker;
use crate::message;
use crate::older;
use crate::played::Played;
use crate::player::{Mismatch, Player};
use crate::random::Random;
use crate::torn;
use crate::wall::Wall;
use crate::written;
use simulator::{Answer, DONE as ACCEPTED};

/// In one of so many lists of a kind memory is loaded after each call, without the simulator in all.
const LOADS_EACH: usize = 4;

/// What a list is after.
#[derive(Clone, Copy, Debug)]
pub enum Aim {
    Mixed,
    /// Transactions of eight until the log is full.
    Eights,
    /// Single operations up to commit number 512.
    Ones,
    /// Any sizes to a nearly full log, then single steps.
    Varied,
    /// The window of 32.
    Window,
    Waits,
    Titles,
    /// Titles that only an engine before S-2 took.
    Older,
    /// Commits refused with 8, with studios behind and level, and the reads after them.
    Taken,
    /// Forwards, with studios behind and level, among reads and collects.
    Forwards,
    /// Moves among reads, collects and forwards, with studios that have applied different counts.
    Moves,
    /// Restarts while reads wait and studios are behind, some with a save from before, and lists over what is loaded.
    Restarts,
    /// So many transactions, which are retired once the studios have them: the log's records serve again and again.
    Weeks(u32),
}

/// One list being played.
pub struct Guide<'p, 'e> {
    player: &'p mut Player<'e>,
    random: Random,
    maker: Maker,
    wall: Wall,
    list: Played,
    /// A save from an earlier moment.
    saved: Option<Wall>,
    /// Whether memory is loaded after each call, and the calls since it last was.
    loads_each: bool,
    unloaded: u32,
}

pub fn play(player: &mut Player<'_>, seed: u64, aim: Aim) -> Result<(), Mismatch> {
    let mut random = Random::new(seed);
    let carts = match aim {
        Aim::Weeks(_) | Aim::Titles | Aim::Waits | Aim::Older | Aim::Taken | Aim::Forwards | Aim::Moves | Aim::Restarts => 3,
        Aim::Mixed => 40,
        _ => 10,
    };
    let maker = Maker::new(&mut random, carts);
    let (wall, list) = (Wall::zeros(), Played::fresh());
    let loads_each = !player.is_compared() || lists::turn(seed).is_multiple_of(LOADS_EACH);
    let mut guide = Guide { player, random, maker, wall, list, saved: None, loads_each, unloaded: 0 };
    guide.begin(aim)?;
    guide.follow(aim)?;
    guide.list.end(guide.player)
}

impl Guide<'_, '_> {
    /// Refused setups now and then, on memory of any bytes, then one that is
    /// accepted.
    fn begin(&mut self, aim: Aim) -> Result<(), Mismatch> {
        let lent = &mut self.wall.played;
        for part in [&mut lent.library, &mut lent.log, &mut lent.sessions] {
            part.lent_mut().fill(self.random.byte());
        }
        self.wall.mirror();
        for _ in 0..self.random.below(3) {
            let call = arguments::setup(&mut self.random, 30);
            self.player.play(&mut self.wall, &call)?;
        }
        let mut call = arguments::setup(&mut self.random, 100);
        if let Call::Setup { studios, session_studios } = &mut call {
            if let Some((low, high)) = aim.studios() {
                *studios = self.random.within(low, high) as u32;
                session_studios.iter_mut().for_each(|studio| *studio = (*studio).min(*studios as u8));
            }
            if self.random.percent(95) {
                session_studios[0] = 1;
                session_studios[15] = *studios as u8;
            }
        }
        self.list.set_up(self.player, &mut self.wall, call)
    }

    fn follow(&mut self, aim: Aim) -> Result<(), Mismatch> {
        match aim {
            Aim::Mixed => self.halves(400, &taste([25, 20, 20, 25, 10, 8, 12, 12, 10, 4, 10], (1, 8), 85)),
            Aim::Waits => self.halves(350, &taste([22, 13, 13, 30, 22, 6, 15, 10, 8, 4, 5], (1, 3), 93)),
            Aim::Titles => self.halves(350, &taste([25, 18, 20, 30, 7, 6, 15, 10, 8, 4, 6], (1, 3), 93)),
            Aim::Eights => self.fill(&taste([66, 13, 13, 5, 3, 7, 4, 8, 3, 2, 3], (8, 8), 97), 504),
            // Few reads: a session that waits commits nothing, and the studios are far behind. Few arguments that do not fit: among them
            // are transactions of two.
            Aim::Ones => {
                self.fill(&taste([85, 6, 6, 1, 1, 5, 3, 4, 2, 1, 0], (1, 1), 99), 511)?;
                self.write_all()
            }
            Aim::Varied => self.fill(&taste([66, 13, 13, 5, 3, 7, 4, 6, 3, 2, 3], (1, 8), 97), 500),
            Aim::Window => self.window(),
            Aim::Older => self.older(),
            Aim::Taken => self.taken(),
            Aim::Forwards => self.forwards(),
            Aim::Moves => self.moves(),
            Aim::Restarts => self.restarts(),
            Aim::Weeks(transactions) => self.weeks(transactions),
        }
    }

    fn step(&mut self, taste: &Taste) -> Result<Answer, Mismatch> {
        if self.random.percent(7) {
            asides::play(self.player, &mut self.random, &self.maker, taste, &self.wall)?;
        }
        if self.random.percent(2) {
            torn::play_aside(self.player, &mut self.random, &self.maker, &self.wall)?;
        }
        let call = arguments::call(&mut self.random, &self.maker, taste, &self.wall);
        self.play(call)
    }

    /// In some lists memory is loaded after each call; with the simulator, which then takes long, less often where the log is long.
    fn load_after(&mut self) -> Result<(), Mismatch> {
        let between = if self.player.is_compared() { self.wall.control.used / 40 } else { 0 };
        self.unloaded += 1;
        if !self.loads_each || self.unloaded <= between {
            return Ok(());
        }
        self.unloaded = 0;
        self.player.check_restart(&mut self.wall)
    }

    /// Saves memory and control.
    fn save(&mut self) {
        self.saved = Some(self.wall.clone());
    }

    /// The list ends. Memory and control are loaded, as they are or as they were saved, and a list begins with them; nothing else is left
    /// of the one before.
    fn restart(&mut self) -> Result<(), Mismatch> {
        let earlier = self.saved.take();
        if let Some(before) = &earlier {
            torn::play_mixed(self.player, before, &self.wall)?;
        }
        let mut wall = earlier.clone().unwrap_or_else(|| self.wall.clone());
        wall.mirror();
        if !self.player.load(&mut wall)? {
            return Ok(());
        }
        self.list.end(self.player)?;
        self.player.coverage.note_loaded(&wall);
        if earlier.is_some() {
            self.player.coverage.count((LOADED_EARLIER, 0, DONE));
            self.player.written.go_back(&wall.control);
        }
        self.list = Played::over(&wall);
        self.wall = wall;
        Ok(())
    }

    /// A restart in some lists.
    fn restart_in(&mut self, percent: usize) -> Result<(), Mismatch> {
        match self.random.percent(percent) {
            true => self.restart(),
            false => Ok(()),
        }
    }

    /// Steps with a restart between them now and then.
    fn halves(&mut self, count: usize, taste: &Taste) -> Result<(), Mismatch> {
        self.steps(count / 2, taste)?;
        self.restart_in(30)?;
        self.steps(count / 2, taste)
    }

    fn steps(&mut self, count: usize, taste: &Taste) -> Result<(), Mismatch> {
        (0..count).try_for_each(|_| self.step(taste).map(|_| ()))
    }

    /// Commits until `used` reaches the mark, then every way of ending. Where nothing is retired on the way, nothing is later.
    fn fill(&mut self, filling: &Taste, mark: u32) -> Result<(), Mismatch> {
        let retires = |weight: usize| if filling.weights[RETIRE] == 0 { 0 } else { weight };
        for _ in 0..1_200 {
            if self.wall.control.used >= mark {
                break;
            }
            self.step(filling)?;
        }
        for _ in 0..60 {
            self.overfill()?;
            self.step(&taste([50, 15, 15, 10, 10, 12, 10, 10, 5, 2, retires(2)], (1, 2), 90))?;
        }
        self.restart_in(30)?;
        self.steps(40, &taste([60, 12, 12, 10, 6, 12, 8, 8, 5, 2, retires(4)], (1, 8), 80))?;
        self.restart_in(30)?;
        self.steps(150, &taste([5, 40, 40, 10, 5, 3, 6, 8, 6, 2, retires(20)], (1, 1), 95))
    }

    /// Now and then the messages of all transactions.
    fn write_all(&mut self) -> Result<(), Mismatch> {
        match self.random.percent(50) {
            true => written::write_first(self.player, &mut self.wall, usize::MAX),
            false => Ok(()),
        }
    }

    /// A preview and its commit that just fit the log, or are one operation too large, aside; often with a cart in the wrong state.
    fn overfill(&mut self) -> Result<(), Mismatch> {
        let space = 512 - self.wall.control.used as usize;
        let size = self.random.within(space, space + 1).clamp(1, 8);
        let taste = Taste { misfits: 30, ..taste(arguments::only(PREVIEW), (size, size), 97) };
        let call = arguments::call(&mut self.random, &self.maker, &taste, &self.wall);
        self.player.play_aside(&self.wall, &call, |_| ()).map(|_| ())
    }

    /// Sends ahead of refreshes until the window is full, again and again.
    fn window(&mut self) -> Result<(), Mismatch> {
        for _ in 0..2 {
            let more = self.random.within(31, 35);
            let exact = self.random.percent(50);
            let commits = if exact { 32 } else { more };
            let target = self.wall.control.applied[0] + commits as u32;
            for _ in 0..150 {
                if self.wall.control.commits >= target {
                    break;
                }
                self.step(&taste([90, 2, 0, 6, 2, 4, 3, 4, 2, 2, 2], (1, 1), 97))?;
            }
            self.steps(80, &taste([2, 90, 0, 6, 2, 1, 3, 3, 2, 3, 2], (1, 1), 95))?;
            self.restart_in(30)?;
            self.steps(60, &taste([8, 36, 40, 10, 6, 4, 6, 8, 6, 3, 10], (1, 2), 90))?;
        }
        Ok(())
    }

    /// Studios that have nearly caught up, then titles exchanged.
    fn older(&mut self) -> Result<(), Mismatch> {
        let mixed = taste([30, 22, 22, 20, 8, 6, 10, 10, 6, 4, 6], (1, 3), 93);
        self.steps(60, &mixed)?;
        self.steps(80, &taste([2, 45, 45, 5, 3, 0, 3, 5, 3, 2, 6], (1, 1), 95))?;
        self.steps(5, &taste([80, 5, 5, 5, 5, 0, 5, 5, 0, 0, 0], (1, 1), 97))?;
        let Guide { player, random, maker, wall, list, .. } = self;
        if older::exchange_titles(random, maker, wall, &mut list.history, &mut player.written) {
            player.coverage.count((older::NAME, 0, DONE));
        }
        self.halves(300, &mixed)
    }

    /// Edits; then studios that stay behind or catch up; then edits of carts in the wrong state, and reads.
    fn taken(&mut self) -> Result<(), Mismatch> {
        for _ in 0..10 {
            self.steps(6, &taste([75, 5, 5, 5, 5, 5, 3, 5, 3, 2, 3], (1, 3), 95))?;
            if self.random.percent(50) {
                self.catch_up()?;
                self.steps(4, &taste([0, 5, 5, 0, 40, 0, 0, 0, 0, 2, 20], (1, 1), 100))?;
            }
            self.restart_in(5)?;
            let mistaken = Taste { misfits: 70, ..taste([40, 5, 5, 30, 12, 8, 10, 5, 8, 3, 4], (1, 3), 97) };
            self.steps(10, &mistaken)?;
        }
        Ok(())
    }

    /// Edits; then studios that stay behind or nearly catch up; then forwards, reads and collects, with edits and refreshes between them.
    fn forwards(&mut self) -> Result<(), Mismatch> {
        for _ in 0..10 {
            self.steps(6, &taste([75, 5, 5, 5, 5, 0, 5, 5, 3, 2, 3], (1, 3), 95))?;
            if self.random.percent(50) {
                self.steps(14, &taste([0, 45, 45, 0, 10, 0, 0, 0, 0, 2, 10], (1, 1), 100))?;
            }
            self.restart_in(5)?;
            self.steps(14, &taste([12, 12, 14, 18, 14, 2, 28, 5, 8, 3, 5], (1, 2), 97))?;
        }
        Ok(())
    }

    /// Edits; then studios that catch up, one further than the other; then reads, collects and forwards with moves between them.
    fn moves(&mut self) -> Result<(), Mismatch> {
        for _ in 0..10 {
            self.steps(6, &taste([75, 5, 5, 5, 5, 0, 5, 5, 5, 2, 3], (1, 2), 95))?;
            self.steps(10, &taste([0, 45, 45, 0, 10, 0, 0, 0, 10, 2, 8], (1, 1), 100))?;
            self.restart_in(5)?;
            self.steps(20, &taste([6, 8, 12, 25, 14, 2, 12, 3, 28, 3, 5], (1, 2), 97))?;
        }
        Ok(())
    }

    /// Edits; studios that catch up, one further than the other; reads, some of which wait; perhaps a save and then collects, edits and
    /// reads that are lost; then a restart, and all kinds of call over what is loaded.
    fn restarts(&mut self) -> Result<(), Mismatch> {
        let waits = taste([16, 8, 10, 40, 6, 2, 6, 3, 8, 3, 5], (1, 2), 97);
        self.restart_in(10)?;
        for _ in 0..6 {
            self.steps(6, &taste([75, 5, 5, 5, 5, 0, 5, 5, 5, 2, 3], (1, 2), 95))?;
            self.steps(8, &taste([0, 45, 45, 0, 10, 0, 0, 0, 5, 0, 10], (1, 1), 100))?;
            self.steps(12, &waits)?;
            if self.random.percent(40) {
                self.save();
                self.steps(12, &taste([0, 30, 30, 0, 30, 0, 0, 0, 0, 2, 10], (1, 1), 100))?;
                self.steps(12, &waits)?;
            }
            self.restart()?;
            let mistaken = Taste { misfits: 20, ..taste([14, 8, 12, 24, 18, 4, 16, 4, 18, 4, 8], (1, 2), 97) };
            self.steps(20, &mistaken)?;
        }
        Ok(())
    }
}

/// Weeks of a busy station.
impl Guide<'_, '_> {
    /// Edits; studios that keep up, or lag; messages written in turn; then what every studio has is retired, and all kinds of call follow.
    fn weeks(&mut self, transactions: u32) -> Result<(), Mismatch> {
        let edits = taste(arguments::only(COMMIT), (1, 8), 98);
        let others = taste([4, 6, 6, 14, 8, 4, 8, 4, 6, 2, 8], (1, 8), 95);
        for _ in 0..transactions {
            if self.wall.control.commits >= transactions {
                break;
            }
            let count = self.random.within(1, 24);
            self.steps(count, &edits)?;
            self.catch_up()?;
            self.retire()?;
            let count = self.random.within(0, 6);
            self.steps(count, &others)?;
            self.restart_in(4)?;
        }
        if self.wall.control.commits >= transactions {
            self.player.coverage.count((WEEKS, transactions, DONE));
        }
        Ok(())
    }

    /// Every studio is sent and applies what it lacks; now and then one stays behind.
    fn catch_up(&mut self) -> Result<(), Mismatch> {
        for studio in 1..=self.wall.control.studios {
            let behind = *self.random.pick(&[0, 0, 0, 1, 40]);
            let place = studio as usize - 1;
            while self.wall.control.applied[place] + behind < self.wall.control.commits {
                self.play(Call::Send { studio })?;
                if self.play(Call::Refresh { studio })?.kind != ACCEPTED {
                    break;
                }
            }
        }
        Ok(())
    }

    /// Retires all that is not needed, each transaction after its message was written, or most of it.
    fn retire(&mut self) -> Result<(), Mismatch> {
        let most = *self.random.pick(&[1, 20, u32::MAX, u32::MAX]);
        for _ in 0..most {
            let number = self.wall.next_message();
            if number <= self.wall.control.retired + 1 {
                self.play(Call::VanWrite { number, output: message::MOST })?;
            }
            if self.play(Call::Retire)?.kind != ACCEPTED {
                break;
            }
        }
        Ok(())
    }

    fn play(&mut self, call: Call) -> Result<Answer, Mismatch> {
        let answer = self.list.play(self.player, &mut self.wall, call)?;
        self.load_after()?;
        Ok(answer)
    }
}

impl Aim {
    /// How many studios its lists have, from and to; any if it does not say.
    fn studios(self) -> Option<(usize, usize)> {
        match self {
            Aim::Window | Aim::Waits | Aim::Older | Aim::Taken | Aim::Forwards => Some((1, 2)),
            Aim::Moves | Aim::Restarts => Some((2, 4)),
            Aim::Weeks(_) => Some((1, 2)),
            _ => None,
        }
    }
}

fn taste(weights: [usize; CALLS], sizes: (usize, usize), fitting: usize) -> Taste {
    Taste { weights, sizes, fitting, misfits: 5 }
}
