//! Mistakes of the conversions (02's S-10).

use super::mistake::{Mistake, conversion_mistake, refused};
use crate::conversion::{self, CART, Conversion, OUTPUT_LENGTH};
use crate::make;
use crate::old::{self, Form, HEAD};
use crate::rows;
use simulator::{Answer, CARTS, Control, DONE, REFUSED};

pub const MISTAKES: &[Mistake] = &[
    conversion_mistake("from_old: the mark is not compared", mark_not_compared),
    conversion_mistake("from_old: the mark's last byte is not compared", mark_but_the_last),
    conversion_mistake("from_old: a mark of small letters is accepted", small_mark),
    conversion_mistake("from_old: a title length above 32 is taken as 32", length_taken_as_32),
    conversion_mistake("from_old: a title length above 32 is refused with 23", length_is_23),
    conversion_mistake("from_old: the title's other 32 bytes stay as they were", other_half_stays),
    conversion_mistake("from_old: the bytes read are returned", |lent| returning(lent, Form::Old, Form::Old.length())),
    conversion_mistake("from_old: the number of carts is returned", |lent| returning(lent, Form::Old, CARTS)),
    conversion_mistake("from_old: carts are written before the test ends", written_before),
    conversion_mistake("from_old: output is cleared before the test", |lent| refused_writes(lent, Form::Old, |output| output.fill(0))),
    conversion_mistake("from_old: carts move up to empty places", moved_up),
    conversion_mistake("from_old: letters become capitals", capitals),
    conversion_mistake("from_old: bytes 12 to 15 are not looked at", |lent| repaired(lent, Form::Old, zeros)),
    conversion_mistake("from_old: the number is not compared with its place", |lent| repaired(lent, Form::Old, number)),
    conversion_mistake("from_old: the number's high byte is not compared", |lent| repaired(lent, Form::Old, high_byte)),
    conversion_mistake("from_old: bytes after the title are not looked at", |lent| repaired(lent, Form::Old, after_title)),
    conversion_mistake("from_old: every cart with a zero byte 0 is empty", |lent| repaired(lent, Form::Old, empty)),
    conversion_mistake("from_old: the last cart is not tested", |lent| last_not_tested(lent, Form::Old)),
    conversion_mistake("from_old: the last cart is left out", |lent| last_left_out(lent, Form::Old)),
    conversion_mistake("from_old: an empty cart is not written", |lent| empty_not_written(lent, Form::Old)),
    conversion_mistake("from_old: an empty wall is refused", |lent| empty_refused(lent, Form::Old)),
    conversion_mistake("from_old: a spaced title is refused", |lent| spaced_refused(lent, Form::Old)),
    conversion_mistake("from_old: spaces at a title's ends are taken away", trimmed),
    conversion_mistake("from_old: a longer file is accepted", |lent| longer_input(lent, Form::Old)),
    conversion_mistake("from_old: the file's length is taken by its low two bytes", |lent| low_input(lent, Form::Old)),
    conversion_mistake("from_old: a longer output is accepted", |lent| longer_output(lent, Form::Old)),
    conversion_mistake("from_old: the output's length is taken by its low two bytes", |lent| low_output(lent, Form::Old)),
    conversion_mistake("from_old: the file is changed", |lent| beside(lent, Form::Old, |lent, _| lent.input.lent_mut()[0] = 0)),
    conversion_mistake("from_old: a byte is written past the copy", |lent| beside(lent, Form::Old, past_output)),
    conversion_mistake("from_old: control is not zero", |lent| beside(lent, Form::Old, |_, answer| answer.control.studios = 1)),
    conversion_mistake("to_old: a longer title is cut to 32 letters", |lent| repaired(lent, Form::Ours, cut)),
    conversion_mistake("to_old: a longer title is refused with 22", longer_is_22),
    conversion_mistake("to_old: a title of 32 letters is refused", of_32_refused),
    conversion_mistake("to_old: a title of 33 letters is cut", |lent| repaired(lent, Form::Ours, cut_of_33)),
    conversion_mistake("to_old: the last cart's title is not measured", last_not_measured),
    conversion_mistake("to_old: 23 is told before 22", |lent| told_first(lent, |_| true)),
    conversion_mistake("to_old: 23 is told before the output's length", |lent| told_first(lent, of_output_alone)),
    conversion_mistake("to_old: 23 is told of a longer title before the cart out of form", |lent| told_first(lent, before_damage)),
    conversion_mistake("to_old: the mark is written before the test ends", |lent| refused_writes(lent, Form::Ours, put_mark)),
    conversion_mistake("to_old: the mark is not written", mark_not_written),
    conversion_mistake("to_old: the bytes of the carts alone are returned", |lent| returning(lent, Form::Ours, CARTS * Form::Old.unit())),
    conversion_mistake("to_old: audio and length are exchanged", exchanged),
    conversion_mistake("to_old: bytes 48 to 79 of a cart are not looked at", |lent| repaired(lent, Form::Ours, other_half)),
    conversion_mistake("to_old: bytes 12 to 15 are not looked at", |lent| repaired(lent, Form::Ours, zeros)),
    conversion_mistake("to_old: the number is not compared with its place", |lent| repaired(lent, Form::Ours, number)),
    conversion_mistake("to_old: the last cart is not tested", |lent| last_not_tested(lent, Form::Ours)),
    conversion_mistake("to_old: the last cart is left out", |lent| last_left_out(lent, Form::Ours)),
    conversion_mistake("to_old: an empty cart is not written", |lent| empty_not_written(lent, Form::Ours)),
    conversion_mistake("to_old: an empty wall is refused", |lent| empty_refused(lent, Form::Ours)),
    conversion_mistake("to_old: a spaced title is refused", |lent| spaced_refused(lent, Form::Ours)),
    conversion_mistake("to_old: a longer copy is accepted", |lent| longer_input(lent, Form::Ours)),
    conversion_mistake("to_old: the copy's length is taken by its low two bytes", |lent| low_input(lent, Form::Ours)),
    conversion_mistake("to_old: a longer output is accepted", |lent| longer_output(lent, Form::Ours)),
    conversion_mistake("to_old: the output's length is taken by its low two bytes", |lent| low_output(lent, Form::Ours)),
    conversion_mistake("to_old: a byte is written past the file", |lent| beside(lent, Form::Ours, past_output)),
];

/// The conversion; where it goes this way and ends in this kind, `change` makes the mistake. `before` is the output as it was.
fn changed(lent: &mut Conversion, from: Form, kind: u32, change: impl Fn(&mut Conversion, &[u8], &mut Answer)) -> Answer {
    let before = lent.output.lent().to_vec();
    let mut answer = lent.simulate();
    if lent.from == from && answer.kind == kind {
        change(lent, &before, &mut answer);
    }
    answer
}

/// The conversion of another input, where it goes this way.
fn with_input(lent: &mut Conversion, from: Form, change: impl Fn(&mut Vec<u8>)) -> Answer {
    let mut input = lent.input.lent().to_vec();
    if lent.from == from {
        change(&mut input);
    }
    conversion::simulate(lent.from, &input, lent.output.lent_mut())
}

/// The conversion of an input with each cart repaired.
fn repaired(lent: &mut Conversion, from: Form, repair: fn(place: usize, cart: &mut [u8])) -> Answer {
    with_input(lent, from, |input| from.carts_mut(input).for_each(|(place, cart)| repair(place, cart)))
}

/// This refusal, where the conversion goes this way and would be accepted and this holds of its input.
fn refusing(lent: &mut Conversion, from: Form, row: u32, holds: fn(Form, &[u8]) -> bool) -> Answer {
    let refuses = lent.from == from && lent.faults().rows().is_empty() && holds(from, lent.input.lent());
    if refuses { refused(row, Control::default()) } else { lent.simulate() }
}

fn mark_not_compared(lent: &mut Conversion) -> Answer {
    with_input(lent, Form::Old, |input| put_mark(input))
}

fn put_mark(bytes: &mut [u8]) {
    bytes.iter_mut().zip(Form::Old.mark()).for_each(|(byte, mark)| *byte = *mark);
}

fn mark_but_the_last(lent: &mut Conversion) -> Answer {
    with_input(lent, Form::Old, |input| input.iter_mut().skip(5).take(1).for_each(|byte| *byte = b'2'))
}

fn small_mark(lent: &mut Conversion) -> Answer {
    with_input(lent, Form::Old, |input| {
        if input.starts_with(b"cart32") {
            put_mark(input);
        }
    })
}

fn length_taken_as_32(lent: &mut Conversion) -> Answer {
    repaired(lent, Form::Old, |_, cart| cart[1] = cart[1].min(32))
}

fn length_is_23(lent: &mut Conversion) -> Answer {
    changed(lent, Form::Old, REFUSED, |lent, _, answer| {
        if lent.from.carts(lent.input.lent()).any(|(_, cart)| cart[0] == 1 && cart[1] > 32) {
            answer.value = 23;
        }
    })
}

fn other_half_stays(lent: &mut Conversion) -> Answer {
    changed(lent, Form::Old, DONE, |lent, before, _| {
        let carts = Form::Ours.carts_mut(lent.output.lent_mut()).zip(Form::Ours.carts(before));
        carts.for_each(|((_, cart), (_, old))| cart[48..].copy_from_slice(&old[48..]));
    })
}

fn returning(lent: &mut Conversion, from: Form, count: usize) -> Answer {
    changed(lent, from, DONE, |_, _, answer| answer.value = count as u32)
}

fn written_before(lent: &mut Conversion) -> Answer {
    changed(lent, Form::Old, REFUSED, |lent, _, _| {
        let Conversion { from, input, output } = lent;
        let damaged = from.out_of_form(input.lent()).first().copied().unwrap_or(1);
        let carts = from.carts(input.lent()).zip(Form::Ours.carts_mut(output.lent_mut()));
        carts.take(damaged - 1).for_each(|((_, cart), (_, written))| written[..48].copy_from_slice(cart));
    })
}

/// Where it is refused, `write` has changed the output.
fn refused_writes(lent: &mut Conversion, from: Form, write: fn(&mut [u8])) -> Answer {
    changed(lent, from, REFUSED, |lent, _, _| write(lent.output.lent_mut()))
}

fn moved_up(lent: &mut Conversion) -> Answer {
    changed(lent, Form::Old, DONE, |lent, _, _| {
        let held: Vec<Vec<u8>> = Form::Ours.carts(lent.output.lent()).map(|(_, cart)| cart.to_vec()).filter(|cart| cart[0] == 1).collect();
        let output = lent.output.lent_mut();
        output.fill(0);
        for ((place, cart), from) in Form::Ours.carts_mut(output).zip(held) {
            cart.copy_from_slice(&from);
            cart[2] = place as u8;
        }
    })
}

fn capitals(lent: &mut Conversion) -> Answer {
    changed(lent, Form::Old, DONE, |lent, _, _| {
        Form::Ours.carts_mut(lent.output.lent_mut()).for_each(|(_, cart)| cart[HEAD..].make_ascii_uppercase());
    })
}

fn zeros(_: usize, cart: &mut [u8]) {
    if cart[0] == 1 {
        cart[12..HEAD].fill(0);
    }
}

fn number(place: usize, cart: &mut [u8]) {
    if cart[0] == 1 {
        cart[2..4].copy_from_slice(&[place as u8, 0]);
    }
}

fn high_byte(_: usize, cart: &mut [u8]) {
    if cart[0] == 1 {
        cart[3] = 0;
    }
}

fn after_title(_: usize, cart: &mut [u8]) {
    if cart[0] == 1 {
        let end = HEAD + usize::from(cart[1]);
        cart.iter_mut().skip(end).for_each(|byte| *byte = 0);
    }
}

fn empty(_: usize, cart: &mut [u8]) {
    if cart[0] == 0 {
        cart.fill(0);
    }
}

fn last_not_tested(lent: &mut Conversion, from: Form) -> Answer {
    with_input(lent, from, |input| {
        if from.out_of_form(input) == [CARTS] {
            input[from.at(CARTS)..][..from.unit()].fill(0);
        }
    })
}

fn last_left_out(lent: &mut Conversion, from: Form) -> Answer {
    changed(lent, from, DONE, |lent, _, _| lent.output.lent_mut()[from.other().at(CARTS)..].fill(0))
}

fn empty_not_written(lent: &mut Conversion, from: Form) -> Answer {
    changed(lent, from, DONE, |lent, before, _| {
        let carts = from.other().carts_mut(lent.output.lent_mut()).zip(from.other().carts(before));
        carts.filter(|((_, cart), _)| cart[0] == 0).for_each(|((_, cart), (_, old))| cart.copy_from_slice(old));
    })
}

fn empty_refused(lent: &mut Conversion, from: Form) -> Answer {
    refusing(lent, from, 22, |from, input| from.carts(input).all(|(_, cart)| cart[0] == 0))
}

fn spaced_refused(lent: &mut Conversion, from: Form) -> Answer {
    refusing(lent, from, 22, |from, input| from.carts(input).any(|(_, cart)| rows::title_spaced(cart)))
}

fn trimmed(lent: &mut Conversion) -> Answer {
    changed(lent, Form::Old, DONE, |lent, _, _| {
        for (_, cart) in Form::Ours.carts_mut(lent.output.lent_mut()) {
            let title = old::title(cart).trim_ascii().to_vec();
            make::put_title(cart, &title);
        }
    })
}

fn longer_input(lent: &mut Conversion, from: Form) -> Answer {
    with_input(lent, from, |input| input.truncate(from.length()))
}

fn low_input(lent: &mut Conversion, from: Form) -> Answer {
    with_input(lent, from, |input| input.truncate(input.len() % 65_536))
}

/// The conversion to the output's first bytes, where it goes this way.
fn to_first_bytes(lent: &mut Conversion, from: Form, length: usize) -> Answer {
    let length = if lent.from == from { length } else { lent.output.len() };
    conversion::simulate(lent.from, lent.input.lent(), &mut lent.output.lent_mut()[..length])
}

fn longer_output(lent: &mut Conversion, from: Form) -> Answer {
    to_first_bytes(lent, from, lent.output.len().min(from.other().length()))
}

fn low_output(lent: &mut Conversion, from: Form) -> Answer {
    to_first_bytes(lent, from, lent.output.len() % 65_536)
}

/// What is changed beside the output.
fn beside(lent: &mut Conversion, from: Form, change: fn(&mut Conversion, &mut Answer)) -> Answer {
    changed(lent, from, DONE, |lent, _, answer| change(lent, answer))
}

fn past_output(lent: &mut Conversion, _: &mut Answer) {
    lent.output.trespass(lent.output.len() as isize, 0);
}

fn cut(place: usize, cart: &mut [u8]) {
    if old::in_form(place, cart) && cart[1] > 32 {
        let title = cart[HEAD..HEAD + 32].to_vec();
        make::put_title(cart, &title);
    }
}

fn cut_of_33(place: usize, cart: &mut [u8]) {
    if cart[1] == 33 {
        cut(place, cart);
    }
}

fn longer_is_22(lent: &mut Conversion) -> Answer {
    changed(lent, Form::Ours, REFUSED, |_, _, answer| answer.value = 22)
}

fn of_32_refused(lent: &mut Conversion) -> Answer {
    refusing(lent, Form::Ours, 23, |from, input| from.carts(input).any(|(_, cart)| cart[1] == 32))
}

fn last_not_measured(lent: &mut Conversion) -> Answer {
    repaired(lent, Form::Ours, |place, cart| {
        if place == CARTS {
            cut(place, cart);
        }
    })
}

/// 23 where a title is longer, 22 holds too and `is_first`.
fn told_first(lent: &mut Conversion, is_first: fn(&Conversion) -> bool) -> Answer {
    let both = lent.faults().rows() == [22, 23];
    if both && is_first(lent) { refused(23, Control::default()) } else { lent.simulate() }
}

fn of_output_alone(lent: &Conversion) -> bool {
    lent.faults().reasons == [OUTPUT_LENGTH]
}

fn before_damage(lent: &Conversion) -> bool {
    let faults = lent.faults();
    faults.reasons == [CART] && faults.longer.first() < lent.from.out_of_form(lent.input.lent()).first()
}

fn mark_not_written(lent: &mut Conversion) -> Answer {
    changed(lent, Form::Ours, DONE, |lent, before, _| lent.output.lent_mut()[..6].copy_from_slice(&before[..6]))
}

fn exchanged(lent: &mut Conversion) -> Answer {
    changed(lent, Form::Ours, DONE, |lent, _, _| {
        Form::Old.carts_mut(lent.output.lent_mut()).for_each(|(_, cart)| cart[4..12].rotate_left(4));
    })
}

fn other_half(_: usize, cart: &mut [u8]) {
    if cart[1] <= 32 {
        cart[48..].fill(0);
    }
}
