//! Vans (02's S-6): on fresh ones the messages that a list of calls has written, lost, repeated and reordered; and messages, copies and
//! applied numbers of any sort.

use crate::asides;
use crate::damage;
use crate::delivery::Delivery;
use crate::direct;
use crate::lists;
use crate::make::{Maker, spoil_message};
use crate::message;
use crate::player::{Mismatch, Player};
use crate::random::Random;
use crate::runs;
use crate::van_sweep;
use crate::written::{Message, Written};
use simulator::{CARTS, COPY, UNIT};
use std::cmp::Reverse;

/// Fresh vans of a list of calls; copies of any sort after it, and receives in each.
const FRESH: usize = 2;
const COPIES: usize = 4;
const RECEIVES: usize = 15;

/// The vans of a seed.
pub fn play(player: &mut Player<'_>, seed: u64) -> Result<(), Mismatch> {
    play_fresh(player, seed)?;
    let mut random = Random::new(seed.reverse_bits());
    play_any(player, &mut random)?;
    van_sweep::play(player, &mut random, lists::kind(seed), lists::turn(seed))
}

/// Fresh vans alone. What 02 says of them is checked, with the simulator and without it.
pub fn play_fresh(player: &mut Player<'_>, seed: u64) -> Result<(), Mismatch> {
    let written = std::mem::take(&mut player.written);
    written.check().map_err(|words| player.mismatch("(the whole list)".to_string(), words))?;
    let mut random = Random::new(!seed.reverse_bits());
    let vans = if written.messages.is_empty() { 0 } else { FRESH };
    (0..vans).try_for_each(|_| deliver(player, &written, &arriving(&mut random, &written.messages)))?;
    player.written = written;
    Ok(())
}

/// The messages as they arrive: sent in some order, once or again and again, each perhaps lost, repeated or late.
fn arriving<'a>(random: &mut Random, messages: &'a [Message]) -> Vec<&'a Message> {
    let mut sent: Vec<&Message> = messages.iter().collect();
    match random.below(6) {
        0 => {}
        1 => sent.sort_by_cached_key(|_| random.word()),
        2 => sent.sort_by_key(|message| Reverse(message.number)),
        _ => sent.sort_by_key(|message| message.number),
    }
    let rounds = *random.pick(&[1, 1, 2, 3]);
    let (lost, repeated, late) = (*random.pick(&[0, 0, 10, 40]), *random.pick(&[0, 10, 50]), *random.pick(&[0, 0, 5, 30]));
    let mut arriving: Vec<&Message> = Vec::new();
    for message in sent.repeat(rounds) {
        if random.percent(lost) {
            continue;
        }
        arriving.push(message);
        if random.percent(repeated) {
            arriving.push(message);
        }
        if random.percent(late) {
            let (one, other) = (random.below(arriving.len()), arriving.len() - 1);
            arriving.swap(one, other);
        }
    }
    arriving
}

/// A list of messages for a fresh van. Where the list begins with retired transactions, the first is not among them.
fn deliver(player: &mut Player<'_>, written: &Written, list: &[&Message]) -> Result<(), Mismatch> {
    let numbers: Vec<u32> = list.iter().map(|message| message.number).collect();
    let mut van = Delivery::new(&[0; COPY], 0, &[]);
    let mut made = vec![0; COPY]; // L(applied)
    for (place, message) in list.iter().enumerate() {
        van.message.set(&message.bytes);
        let applied = van.applied;
        let answer = player.receive(&mut van)?;
        van.applied = answer.applied;
        let checked = check_run(&numbers[..=place], &van).and_then(|()| check_copy(written, applied, &van, &mut made));
        checked.map_err(|words| player.mismatch(van.to_string(), words))?;
        player.coverage.note_arrived(message, &numbers[..place], applied, written, answer);
    }
    player.coverage.note_run(&numbers, van.applied);
    Ok(())
}

/// "applied is exactly the longest run 1, 2, 3, … that can be picked from the list in its order".
fn check_run(received: &[u32], van: &Delivery) -> Result<(), String> {
    let applied = van.applied;
    match runs::is_longest(applied, received) {
        true => Ok(()),
        false => Err(format!("fresh van: applied {applied} is not the longest run of {received:?}")),
    }
}

/// "the van's copy is L(applied)"; `made` is L(before), and becomes it.
fn check_copy(written: &Written, before: u32, van: &Delivery, made: &mut [u8]) -> Result<(), String> {
    if van.applied > before {
        written.play(before, van.applied, made);
    }
    match van.copy.lent() == made {
        true => Ok(()),
        false => Err(format!("fresh van: the copy is not L({}) after the message of {}", van.applied, van.number())),
    }
}

/// Messages of any sort on vans of any sort; some of them are the list's.
fn play_any(player: &mut Player<'_>, random: &mut Random) -> Result<(), Mismatch> {
    let maker = Maker::new(random, 6);
    for _ in 0..COPIES {
        let copy = copy(random, &maker, &player.written);
        for _ in 0..RECEIVES {
            let message = message(random, &maker, &player.written.messages);
            let mut van = Delivery::new(&copy, applied_near(random, message::number(&message)), &message);
            if random.percent(20) {
                damage_copy(random, &mut van);
            }
            player.receive(&mut van)?;
        }
    }
    Ok(())
}

/// A copy of the layout: L(n), or one that no list makes.
fn copy(random: &mut Random, maker: &Maker, written: &Written) -> Vec<u8> {
    if random.percent(30) {
        let count = written.any_count(random);
        return written.library(count);
    }
    let mut copy = vec![0; COPY];
    direct::fill_copy(random, maker, &mut copy);
    copy
}

fn message(random: &mut Random, maker: &Maker, written: &[Message]) -> Vec<u8> {
    let any = random.within(1, 65_535) as u32;
    let number = *random.pick(&[1, 2, 3, 255, 256, 257, 65_534, 65_534, 65_535, 65_535, any]);
    let count = *random.pick(&[1, 1, 2, 8, 8, random.clone().within(1, 8)]);
    let mut message = match written.is_empty() || random.percent(70) {
        true => maker.message(random, number, count),
        false => random.pick(written).bytes.clone(),
    };
    if random.percent(40) {
        spoil_message(random, &mut message);
    }
    message
}

/// What a van has applied: often the number before, or one that tells.
fn applied_near(random: &mut Random, number: u32) -> u32 {
    let (next, any) = (number.wrapping_sub(1), random.word());
    let near = [next, next, next, next, number, number + 1, number.wrapping_sub(2), number.wrapping_sub(3)];
    let ends = [0, 1, 65_533, 65_534, 65_535, 65_536, 65_536 + number, u32::MAX - 1, u32::MAX, any];
    *random.pick(&[near.as_slice(), &near, &ends].concat())
}

/// A cart out of form, often the first or the last; another length; or noise.
fn damage_copy(random: &mut Random, van: &mut Delivery) {
    let any = random.below(CARTS);
    let at = UNIT * *random.pick(&[0, CARTS - 1, any]);
    match random.below(8) {
        0..=1 => asides::resize(&mut van.copy, *random.pick(&[0, 1, UNIT, COPY - UNIT, COPY - 1, COPY + 1, COPY + UNIT, COPY + 65_536])),
        2 => van.copy.lent_mut().iter_mut().for_each(|byte| *byte = random.byte()),
        _ => damage::cart(random, &mut van.copy.lent_mut()[at..at + UNIT]),
    }
}
