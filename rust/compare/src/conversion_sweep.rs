//! Sweeps of what a conversion is lent (02's S-10): every byte of a cart, of the mark, every telling length, every length of a title, and
//! each reason for 22 beside a longer title.

use crate::asides;
use crate::conversion::Conversion;
use crate::conversions::{fit, hold, lengths, place, put_letters};
use crate::direct;
use crate::keys::DONE;
use crate::make::Maker;
use crate::old::{self, Form};
use crate::player::{Mismatch, Player};
use crate::random::Random;
use crate::sweep::values;
use simulator::{CARTS, COPY, UNIT};

/// Carts by their form, held and empty; then the others.
pub const SWEEPS: [&str; 8] = [
    "sweep of held carts of an old file",
    "sweep of empty carts of an old file",
    "sweep of held carts of a copy to convert",
    "sweep of empty carts of a copy to convert",
    "sweep of an old file's mark",
    "sweep of the lengths of a conversion",
    "sweep of title lengths of a conversion",
    "sweep of reasons beside a longer title",
];

/// The sweep that comes after a list of this kind; `turn` says of what.
pub fn play(player: &mut Player<'_>, random: &mut Random, kind: &str, turn: usize) -> Result<(), Mismatch> {
    let swept = match (kind, turn % 4) {
        ("titles", 0) => turn / 4 % 4,
        ("titles", 1) => 4,
        ("titles", 2) => 5,
        ("titles", _) => 6 + turn / 4 % 2,
        _ => return Ok(()),
    };
    let maker = Maker::new(random, 10);
    match swept {
        0..=1 => carts(player, random, &maker, Form::Old, swept == 0)?,
        2..=3 => carts(player, random, &maker, Form::Ours, swept == 2)?,
        4 => mark(player, random, &maker)?,
        5 => all_lengths(player, random, &maker)?,
        6 => titles(player, random, &maker)?,
        _ => beside_longer(player, random, &maker)?,
    }
    player.coverage.count((SWEEPS[swept], 0, DONE));
    Ok(())
}

/// A copy without a longer title.
fn fitting(random: &mut Random, maker: &Maker) -> Vec<u8> {
    let mut copy = vec![0; COPY];
    direct::fill_copy(random, maker, &mut copy);
    fit(random, &mut copy);
    copy
}

/// A wall of this form, of a copy without a longer title.
fn wall(form: Form, copy: &[u8]) -> Vec<u8> {
    match form {
        Form::Old => old::file_of(copy),
        Form::Ours => copy.to_vec(),
    }
}

/// The first cart, one in the middle, the last.
fn places(random: &mut Random) -> [usize; 3] {
    [1, random.within(2, CARTS - 1), CARTS]
}

/// Puts a held cart with a title of this length into a copy.
fn hold_titled(random: &mut Random, maker: &Maker, copy: &mut [u8], place: usize, length: usize) {
    hold(random, maker, copy, place);
    put_letters(random, copy, place, length);
}

/// Every byte of three carts, each with a row of values; of empty carts with a short one, since each of them is out of form.
fn carts(player: &mut Player<'_>, random: &mut Random, maker: &Maker, form: Form, held: bool) -> Result<(), Mismatch> {
    for place in places(random) {
        let mut copy = fitting(random, maker);
        copy[Form::Ours.at(place)..][..UNIT].fill(0);
        if held {
            let length = *random.pick(&[1, 20, 31, 32]);
            hold_titled(random, maker, &mut copy, place, length);
        }
        let input = wall(form, &copy);
        for at in form.at(place)..form.at(place) + form.unit() {
            let row = if held { values(input[at]).collect() } else { vec![1, 2, 32, 255] };
            byte(player, form, &input, at, &row)?;
        }
    }
    Ok(())
}

/// Every byte of the mark.
fn mark(player: &mut Player<'_>, random: &mut Random, maker: &Maker) -> Result<(), Mismatch> {
    let input = old::file_of(&fitting(random, maker));
    (0..Form::Old.mark().len()).try_for_each(|at| byte(player, Form::Old, &input, at, &values(input[at]).collect::<Vec<u8>>()))
}

/// Conversions with one byte of the input changed to each of a row of values.
fn byte(player: &mut Player<'_>, form: Form, input: &[u8], at: usize, row: &[u8]) -> Result<(), Mismatch> {
    let mut conversion = Conversion::of(form, input);
    row.iter().try_for_each(|value| {
        conversion.input.lent_mut()[at] = *value;
        player.convert(&conversion)
    })
}

/// An input and an output of every telling length, with a longer title and without; and the other form in the place of the input.
fn all_lengths(player: &mut Player<'_>, random: &mut Random, maker: &Maker) -> Result<(), Mismatch> {
    let copy = fitting(random, maker);
    let mut longer = copy.clone();
    let place = place(random);
    hold_titled(random, maker, &mut longer, place, 33);
    for (form, input) in [(Form::Old, wall(Form::Old, &copy)), (Form::Ours, copy), (Form::Ours, longer)] {
        for (length, output) in lengths(form).into_iter().flat_map(|length| lengths(form.other()).map(|output| (length, output))) {
            let mut conversion = Conversion::new(form, &input, output);
            asides::resize(&mut conversion.input, length);
            player.convert(&conversion)?;
        }
        player.convert(&Conversion::of(form.other(), &input))?;
    }
    Ok(())
}

/// A title of every length, in each of three carts; the others have titles of one letter, or are empty.
fn titles(player: &mut Player<'_>, random: &mut Random, maker: &Maker) -> Result<(), Mismatch> {
    for place in places(random) {
        let mut copy = vec![0; COPY];
        let held = *random.pick(&[0, 50, 100]);
        for other in 1..=CARTS {
            if random.percent(held) {
                hold_titled(random, maker, &mut copy, other, 1);
            }
        }
        for length in 1..=64 {
            hold_titled(random, maker, &mut copy, place, length);
            player.convert(&Conversion::of(Form::Ours, &copy))?;
            if length <= Form::Old.room() {
                player.convert(&Conversion::of(Form::Old, &old::file_of(&copy)))?;
            }
        }
    }
    Ok(())
}

/// A longer title in each of three carts, with another of these out of form, and with each wrong length of input and of output.
fn beside_longer(player: &mut Player<'_>, random: &mut Random, maker: &Maker) -> Result<(), Mismatch> {
    let three = places(random);
    for place in three {
        let mut copy = fitting(random, maker);
        let length = *random.pick(&[33, 64]);
        hold_titled(random, maker, &mut copy, place, length);
        for other in three.into_iter().filter(|other| *other != place) {
            for (at, value) in [(0, 2), (3, 1), (12, 1), (79, 1)] {
                let mut conversion = Conversion::of(Form::Ours, &copy);
                conversion.input.lent_mut()[Form::Ours.at(other) + at] = value;
                player.convert(&conversion)?;
            }
        }
        for length in lengths(Form::Ours) {
            let mut conversion = Conversion::of(Form::Ours, &copy);
            asides::resize(&mut conversion.input, length);
            player.convert(&conversion)?;
        }
        lengths(Form::Old).into_iter().try_for_each(|output| player.convert(&Conversion::new(Form::Ours, &copy, output)))?;
    }
    Ok(())
}
