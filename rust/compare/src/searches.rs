//! Title searches (02's S-5): on copies of the layout, with damaged carts and of noise, for titles near those of the carts.

use crate::asides;
use crate::damage;
use crate::direct;
use crate::make::{self, Maker};
use crate::player::{Mismatch, Player};
use crate::random::Random;
use crate::sought::Sought;
use simulator::{COPY, UNIT};

/// Copies of a seed, and searches in each.
const COPIES: usize = 4;
const SEARCHES: usize = 30;

/// The searches of a seed.
pub fn play(player: &mut Player<'_>, seed: u64) -> Result<(), Mismatch> {
    let mut random = Random::new(!seed);
    for _ in 0..COPIES {
        let copy = copy(&mut random);
        for _ in 0..SEARCHES {
            let mut sought = Sought::new(&copy, &title(&mut random, &copy));
            if random.percent(6) {
                let lengths = [0, 1, UNIT, COPY - UNIT, COPY - 1, COPY + 1, COPY + UNIT, COPY + 65_536];
                asides::resize(&mut sought.copy, *random.pick(&lengths));
            }
            player.search(&sought)?;
        }
    }
    Ok(())
}

fn copy(random: &mut Random) -> Vec<u8> {
    let mut copy = vec![0; COPY];
    let maker = Maker::new(random, 6);
    match random.below(5) {
        0 => {
            noise(random, &mut copy);
            return copy;
        }
        1..=2 => direct::fill_copy(random, &maker, &mut copy),
        _ => alike(random, &maker, &mut copy),
    }
    let damaged = *random.pick(&[0, 0, 5, 50]);
    for cart in copy.chunks_exact_mut(UNIT) {
        if cart[0] == 1 && random.percent(damaged) {
            damage::held_cart(random, cart);
        }
    }
    copy
}

/// Random bytes, most carts held, with few lengths and few first letters.
fn noise(random: &mut Random, copy: &mut [u8]) {
    for cart in copy.chunks_exact_mut(UNIT) {
        cart.iter_mut().for_each(|byte| *byte = random.byte());
        if random.percent(80) {
            cart[0] = *random.pick(&[0, 1, 1, 1, 2, 255]);
            cart[1] = *random.pick(&[0, 1, 1, 2, 3, 64, 65, 255]);
            cart[16..18].iter_mut().for_each(|byte| *byte = *random.pick(b"ab"));
        }
    }
}

/// One title in all held carts, or with a letter changed in some.
fn alike(random: &mut Random, maker: &Maker, copy: &mut [u8]) {
    let longest = random.percent(50);
    let common = random.pick(if longest { &maker.titles[..2] } else { &maker.titles });
    let (held, changed) = (*random.pick(&[1, 3, 50, 100, 100]), *random.pick(&[0, 0, 50, 99]));
    for (number, cart) in (1..).zip(copy.chunks_exact_mut(UNIT)) {
        if !random.percent(held) {
            continue;
        }
        let mut title = common.clone();
        if random.percent(changed) {
            change_letter(random, &mut title);
        }
        cart.copy_from_slice(&maker.held_cart(random, number));
        make::put_title(cart, &title);
    }
}

/// The title of one of the carts, or one near it.
fn title(random: &mut Random, copy: &[u8]) -> Vec<u8> {
    let titled: Vec<&[u8]> = copy.chunks_exact(UNIT).filter(|cart| (1..=64).contains(&cart[1])).collect();
    let mut title = if titled.is_empty() {
        vec![random.byte(); random.within(1, 64)]
    } else {
        let cart = *random.pick(&titled);
        cart[16..16 + usize::from(cart[1])].to_vec()
    };
    if random.percent(65) {
        change(random, &mut title);
    }
    title
}

/// A letter changed, a letter less or more, or another length.
fn change(random: &mut Random, title: &mut Vec<u8>) {
    match random.below(10) {
        0..=4 => change_letter(random, title),
        5 => title.truncate(title.len() - 1),
        6 => title.push(*random.pick(&[0, 32, b'1', 255])),
        7 => title[0] = random.byte(),
        8 => title.truncate(random.within(1, title.len())),
        _ => title.resize(*random.pick(&[0, 65, 128, 257, 320, 65_537, 65_600]), b'x'),
    }
}

/// Another letter at one place: at an end, in the middle, beside a multiple of 8, or anywhere.
fn change_letter(random: &mut Random, title: &mut [u8]) {
    let last = title.len() - 1;
    let any = random.within(0, last);
    let beside = 8 * random.within(1, 7) - random.within(0, 1);
    let at = *random.pick(&[0, 0, last, last, last / 2, 1, beside, beside, beside, beside, 62, 63, any]);
    let letter = &mut title[at.min(last)];
    *letter = *letter % 94 + 33;
}
