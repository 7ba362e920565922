//! Memory for load (02's S-8): walls that the log makes, walls torn so that they are of the layout and no list leaves them, and what two
//! saves of one list make.

use crate::call::Call;
use crate::coverage::outcome;
use crate::damage;
use crate::direct;
use crate::keys::DONE;
use crate::log;
use crate::made::{self, SIXTH};
use crate::make::Maker;
use crate::player::{Mismatch, Player};
use crate::random::Random;
use crate::tears::{self, TORN, Torn};
use crate::wall::Wall;
use simulator::{CARTS, COPY, UNIT};

/// The name under which sweeps are counted, by the copy.
pub const SWEEP: &str = "sweep of a cart in a copy that the log makes, copy";

/// A wall of the layout that the log makes.
pub fn made_wall(studios: u32, random: &mut Random, maker: &Maker) -> Wall {
    let mut wall = direct::wall_of(studios, random, maker);
    let mut held = [false; 129];
    for (cart, unit) in (1..).zip(wall.played.library.lent()[SIXTH * COPY..].chunks_exact(UNIT)) {
        held[cart] = unit[0] == 1;
    }
    let log = wall.played.log.lent_mut();
    for record in log::transactions(log, &wall.control).concat() {
        let operation = maker.logged_fitting(random, &mut held);
        tears::put_operation(&mut log[UNIT * record..UNIT * (record + 1)], &operation);
    }
    made::make_copies(&wall.control, &mut wall.played);
    wall.mirror();
    wall
}

/// Loads a torn copy of a wall that a list has left; with the simulator alone, since memory is then known to be right.
pub fn play_aside(player: &mut Player<'_>, random: &mut Random, maker: &Maker, wall: &Wall) -> Result<(), Mismatch> {
    let torn = random.pick(TORN);
    match player.is_compared() {
        true => torn.play(player, random, maker, wall),
        false => Ok(()),
    }
}

impl Torn {
    fn play(&self, player: &mut Player<'_>, random: &mut Random, maker: &Maker, wall: &Wall) -> Result<(), Mismatch> {
        let answer = player.play_aside(wall, &Call::Load, |wall| (self.tear)(random, maker, wall))?;
        player.coverage.count((self.name, 0, outcome(&answer)));
        Ok(())
    }
}

/// Where one part is of an earlier save than the others, and how a load of that must have ended.
pub const MIXED: [(&str, u32); 4] = [
    ("torn: the library of an earlier save", 19),
    ("torn: the log of an earlier save", 2),
    ("torn: the sessions of an earlier save", DONE),
    ("torn: the control of an earlier save", 2),
];

/// Loads what two saves of one list make, some of the four parts from before and some from now.
pub fn play_mixed(player: &mut Player<'_>, before: &Wall, now: &Wall) -> Result<(), Mismatch> {
    if !player.is_compared() {
        return Ok(());
    }
    for parts in 1..15 {
        let answer = player.play_aside(now, &Call::Load, |wall| mix(parts, before, wall))?;
        if let Some(part) = (0..4).find(|part| parts == 1 << part) {
            player.coverage.count((MIXED[part].0, 0, outcome(&answer)));
        }
    }
    Ok(())
}

/// The parts whose bits are set become those of before.
fn mix(parts: u32, before: &Wall, wall: &mut Wall) {
    let is_before = |part: u32| parts & 1 << part != 0;
    let memories = [
        (&mut wall.played.library, &before.played.library),
        (&mut wall.played.log, &before.played.log),
        (&mut wall.played.sessions, &before.played.sessions),
    ];
    for (_, (memory, earlier)) in (0..).zip(memories).filter(|(part, _)| is_before(*part)) {
        memory.copy_from(earlier);
    }
    if is_before(3) {
        wall.control = before.control;
    }
}

/// Loads copies of a wall torn in every way, torn twice, and damaged.
pub fn play(player: &mut Player<'_>, random: &mut Random, maker: &Maker, wall: &Wall) -> Result<(), Mismatch> {
    TORN.iter().try_for_each(|torn| torn.play(player, random, maker, wall))?;
    for _ in 0..5 {
        let twice = [random.pick(TORN), random.pick(TORN)];
        player.play_aside(wall, &Call::Load, |wall| twice.iter().for_each(|torn| (torn.tear)(random, maker, wall)))?;
        player.play_aside(wall, &Call::Load, |wall| {
            damage::damage(random, wall);
        })?;
    }
    Ok(())
}

/// Every byte of a held cart in each copy of a wall of four studios, the sixth copy among them, and one byte of some other carts, changed and
/// loaded.
pub fn sweep(player: &mut Player<'_>, random: &mut Random) -> Result<(), Mismatch> {
    let wall = loop {
        let maker = Maker::new(random, 128);
        let wall = made_wall(4, random, &maker);
        if wall.control.used <= 100 && (0..=SIXTH).all(|copy| !held(&wall, copy).is_empty()) {
            break wall;
        }
    };
    for copy in 0..=SIXTH {
        let swept = COPY * copy + UNIT * *random.pick(&held(&wall, copy));
        let others: Vec<usize> = (0..10).map(|_| COPY * copy + random.below(COPY)).collect();
        for at in (swept..swept + UNIT).chain(others) {
            player.play_aside(&wall, &Call::Load, |wall| wall.played.library.lent_mut()[at] ^= 1 << random.below(3))?;
        }
        player.coverage.count((SWEEP, copy as u32, DONE));
    }
    Ok(())
}

/// The carts, from 0, that are held in a copy.
fn held(wall: &Wall, copy: usize) -> Vec<usize> {
    (0..CARTS).filter(|cart| wall.played.library.byte(COPY * copy + UNIT * cart) == 1).collect()
}
