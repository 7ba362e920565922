//! Memory of the layout made directly: copies that are no L(n), logged
//! operations that meet wrong states, chains of records in any order, any count
//! retired, waiting reads that nobody asked.

use crate::log;
use crate::made::SIXTH;
use crate::make::Maker;
use crate::random::Random;
use crate::wall::Wall;
use simulator::{COMMITS, COPY, Control, RECORDS, UNIT};

pub fn wall(random: &mut Random, maker: &Maker) -> Wall {
    let studios = random.within(1, 4) as u32;
    wall_of(studios, random, maker)
}

/// The same with so many studios.
pub fn wall_of(studios: u32, random: &mut Random, maker: &Maker) -> Wall {
    let mut wall = Wall::zeros();
    let mut control = Control { studios, ..Control::default() };
    for word in &mut control.session_studios {
        *word = random.within(0, studios as usize) as u32;
    }
    let session = random.below(16);
    control.session_studios[session] = random.within(1, studios as usize) as u32;
    fill_log(random, maker, &mut wall, &mut control);
    fill_copies(random, maker, &mut wall, &control);
    fill_counts(random, &mut control);
    fill_sessions(random, maker, &mut wall, &control);
    wall.control = control;
    wall.mirror();
    wall
}

fn fill_log(random: &mut Random, maker: &Maker, wall: &mut Wall, control: &mut Control) {
    let most = *random.pick(&[0, 1, 2, 8, 40, 100, 500, 504, 508, 511, 512, 512]);
    let largest = *random.pick(&[1, 2, 8, 8]);
    let records = in_some_order(random, (0..RECORDS).collect());
    let (used, free) = records.split_at(most);
    let (mut transactions, mut left) = (Vec::new(), used);
    while !left.is_empty() {
        let (taken, rest) = left.split_at(random.within(1, largest).min(left.len()));
        transactions.push(taken.to_vec());
        left = rest;
    }
    let log = wall.played.log.lent_mut();
    used.iter().for_each(|record| log[UNIT * record..UNIT * (record + 1)].copy_from_slice(&maker.logged(random)));
    let free = if random.percent(50) { free.to_vec() } else { in_some_order(random, free.to_vec()) };
    log::put_chains(log, control, &transactions, &free);
    control.retired = retired(random, transactions.len() as u32);
    control.commits = control.retired + transactions.len() as u32;
}

/// Records as they are, backwards, from somewhere in their middle on, or in any order.
fn in_some_order(random: &mut Random, mut records: Vec<usize>) -> Vec<usize> {
    match random.below(5) {
        0 => records,
        1 => {
            records.reverse();
            records
        }
        2 => {
            let middle = random.below(records.len().max(1));
            records.rotate_left(middle);
            records
        }
        _ => random.shuffled(records),
    }
}

/// How many transactions are retired where the log has so many: none, some, or so many that commit numbers are nearly or all used.
fn retired(random: &mut Random, logged: u32) -> u32 {
    let last = COMMITS - logged;
    let any = random.within(1, last as usize) as u32;
    if logged == 0 && random.percent(30) {
        return last;
    }
    *random.pick(&[0, 0, 0, 0, 0, 0, 1, 2, any, last - 9, last - 2, last - 1, last - 1, last, last])
}

/// The sixth copy is filled only where something is retired.
fn fill_copies(random: &mut Random, maker: &Maker, wall: &mut Wall, control: &Control) {
    let library = wall.played.library.lent_mut();
    let is_there = |copy: usize| copy <= control.studios as usize || (copy == SIXTH && control.retired > 0);
    for (_, copy) in library.chunks_exact_mut(COPY).enumerate().filter(|(copy, _)| is_there(*copy)) {
        fill_copy(random, maker, copy);
    }
}

/// Carts of the layout in an empty copy, as many as chance has it.
pub fn fill_copy(random: &mut Random, maker: &Maker, copy: &mut [u8]) {
    let held = *random.pick(&[0, 10, 50, 90, 100]);
    for (cart, unit) in (1..).zip(copy.chunks_exact_mut(UNIT)) {
        let likely = if maker.carts.contains(&cart) { held.max(40) } else { held };
        if random.percent(likely) {
            unit.copy_from_slice(&maker.held_cart(random, cart));
        }
    }
}

fn fill_counts(random: &mut Random, control: &mut Control) {
    let (retired, commits) = (control.retired as usize, control.commits as usize);
    for studio in 0..control.studios as usize {
        let sent = *random.pick(&[retired, commits, commits, random.clone().within(retired, commits)]);
        let ahead = *random.pick(&[0, 1, 31, 32, random.clone().within(0, 32)]);
        control.sent[studio] = sent as u32;
        control.applied[studio] = sent.saturating_sub(ahead).max(retired) as u32;
    }
}

fn fill_sessions(random: &mut Random, maker: &Maker, wall: &mut Wall, control: &Control) {
    let sessions = wall.played.sessions.lent_mut();
    for (unit, studio) in sessions.chunks_exact_mut(UNIT).zip(control.session_studios) {
        if studio == 0 {
            continue;
        }
        if random.percent(50) {
            unit.copy_from_slice(&maker.request(random));
        }
        let applied = control.applied[studio as usize - 1];
        let any = random.within(0, control.commits as usize) as u32;
        let near = [applied, (applied + 1).min(control.commits), any];
        let number = *random.pick(&near) as u16;
        unit[2..4].copy_from_slice(&number.to_le_bytes());
    }
}
