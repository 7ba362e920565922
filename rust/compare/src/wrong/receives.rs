//! Mistakes of the van's receiver (02's S-6).

use super::mistake::{Mistake, receive_mistake, van_mistake};
use crate::delivery::Delivery;
use crate::faults;
use crate::left;
use crate::message::{self, HEAD};
use crate::rows;
use crate::single;
use simulator::{CARTS, COPY, DONE, HELD, REFUSED, UNIT, VanAnswer};

pub const MISTAKES: &[Mistake] = &[
    van_mistake(receive_mistake("receive: any newer number is applied", any_newer)),
    van_mistake(receive_mistake("receive: a repeat acts again", acts_again)),
    van_mistake(receive_mistake("receive: a repeat of number 1 begins anew", begins_anew)),
    van_mistake(receive_mistake("receive: applied is raised though refused", raised_though_refused)),
    van_mistake(receive_mistake("receive: a message that comes too soon acts", acts_too_soon)),
    van_mistake(receive_mistake("receive: a held number becomes applied", held_becomes_applied)),
    van_mistake(receive_mistake("receive: it counts and leaves the carts", counts_only)),
    van_mistake(receive_mistake("receive: the first operation only", first_operation)),
    receive_mistake("receive: a new replaces a held cart", new_replaces),
    receive_mistake("receive: a wrong state is refused", wrong_state_refused),
    receive_mistake("receive: a wrong state ends the message", wrong_state_ends),
    receive_mistake("receive: a spaced title is refused", spaced_refused),
    receive_mistake("receive: number 65,535 is refused", last_number_refused),
    receive_mistake("receive: a trailing byte is accepted", trailing_byte),
    receive_mistake("receive: a message cut by one byte is accepted", cut_by_one),
    receive_mistake("receive: number 0 is held", number_0),
    receive_mistake("receive: a count of 0 is accepted", count_0),
    receive_mistake("receive: a count of 9 is accepted", count_9),
    receive_mistake("receive: the fourth byte is not tested", fourth_byte),
    receive_mistake("receive: links in operations are accepted", links_accepted),
    receive_mistake("receive: only the first operation's form is tested", first_form),
    receive_mistake("receive: the copy is not tested", copy_not_tested),
    receive_mistake("receive: the copy's last cart is not tested", last_cart),
    receive_mistake("receive: a copy of more bytes is accepted", longer_copy),
    receive_mistake("receive: the copy's length is taken by its low two bytes", low_two_bytes),
    receive_mistake("receive: a held number is refused with 18", held_is_18),
    receive_mistake("receive: held is told of the newest number alone", newest_alone),
    receive_mistake("receive: a damaged repeat is held", damaged_held),
    receive_mistake("receive: 18 is told of a damaged message", damaged_18),
    receive_mistake("receive: the value of held is applied", held_value),
    receive_mistake("receive: applied + 1 wraps at 2^32 − 1", wraps),
    receive_mistake("receive: applied is taken by its low 16 bits", applied_low),
    receive_mistake("receive: the number is taken by its low byte", number_low),
    receive_mistake("receive: the message is changed", message_changed),
    receive_mistake("receive: a byte is written past the copy", past_copy),
    receive_mistake("receive: a byte is written before the copy", before_copy),
];

fn refused(value: u32, delivery: &Delivery) -> VanAnswer {
    VanAnswer { kind: REFUSED, value, applied: delivery.applied }
}

/// The receive; where it ends in this kind `change` makes the mistake.
fn changed(delivery: &mut Delivery, kind: u32, change: fn(&mut Delivery, &mut VanAnswer)) -> VanAnswer {
    let mut answer = delivery.simulate();
    if answer.kind == kind {
        change(delivery, &mut answer);
    }
    answer
}

/// The receive; where it is applied, from the copy as it was, `act` does what the operations do.
fn acting(delivery: &mut Delivery, act: fn(copy: &mut [u8], operations: &[&[u8]])) -> VanAnswer {
    let before = delivery.copy.clone();
    let answer = delivery.simulate();
    if answer.kind == DONE {
        delivery.copy.copy_from(&before);
        act(delivery.copy.lent_mut(), &message::operations(delivery.message.lent()).collect::<Vec<_>>());
    }
    answer
}

/// The operations of the message act on the copy.
fn act(delivery: &mut Delivery) {
    let copy = delivery.copy.lent_mut();
    message::operations(delivery.message.lent()).for_each(|operation| single::act(copy, operation));
}

/// Where message and copy are in form and this holds, this refusal.
fn refusing(delivery: &mut Delivery, value: u32, holds: fn(&Delivery) -> bool) -> VanAnswer {
    let in_form = faults::holding(delivery.copy.lent(), delivery.message.lent()).is_empty();
    if in_form && holds(delivery) { refused(value, delivery) } else { delivery.simulate() }
}

/// Where this is the only reason for refusal 17 and `passes`, as if it were none.
fn without(fault: usize, delivery: &mut Delivery, passes: fn(&Delivery) -> bool) -> VanAnswer {
    let alone = faults::holding(delivery.copy.lent(), delivery.message.lent()) == [fault];
    if alone && passes(delivery) { left::by_number(delivery) } else { delivery.simulate() }
}

/// The receive of another message, which is thrown away again.
fn with_message(delivery: &mut Delivery, other: fn(&[u8]) -> Vec<u8>) -> VanAnswer {
    let other = other(delivery.message.lent());
    simulator::van_receive(delivery.copy.lent_mut(), delivery.applied, &other)
}

fn any_newer(delivery: &mut Delivery) -> VanAnswer {
    changed(delivery, REFUSED, |delivery, answer| {
        if answer.value == 18 {
            act(delivery);
            *answer = VanAnswer { kind: DONE, value: delivery.number(), applied: delivery.number() };
        }
    })
}

fn acts_again(delivery: &mut Delivery) -> VanAnswer {
    changed(delivery, HELD, |delivery, _| act(delivery))
}

fn begins_anew(delivery: &mut Delivery) -> VanAnswer {
    changed(delivery, HELD, |delivery, answer| {
        if delivery.number() == 1 {
            delivery.copy.lent_mut().fill(0);
            act(delivery);
            (answer.kind, answer.applied) = (DONE, 1);
        }
    })
}

fn raised_though_refused(delivery: &mut Delivery) -> VanAnswer {
    changed(delivery, REFUSED, |delivery, answer| {
        if answer.value == 18 {
            answer.applied = delivery.number();
        }
    })
}

fn acts_too_soon(delivery: &mut Delivery) -> VanAnswer {
    changed(delivery, REFUSED, |delivery, answer| {
        if answer.value == 18 {
            act(delivery);
        }
    })
}

fn held_becomes_applied(delivery: &mut Delivery) -> VanAnswer {
    changed(delivery, HELD, |delivery, answer| answer.applied = delivery.number())
}

fn counts_only(delivery: &mut Delivery) -> VanAnswer {
    acting(delivery, |_, _| ())
}

fn first_operation(delivery: &mut Delivery) -> VanAnswer {
    acting(delivery, |copy, operations| single::act(copy, operations[0]))
}

fn new_replaces(delivery: &mut Delivery) -> VanAnswer {
    acting(delivery, |copy, operations| {
        for operation in operations {
            if let (1, Some(at)) = (operation[0], single::cart_at(operation)) {
                copy[at..at + UNIT].fill(0);
            }
            single::act(copy, operation);
        }
    })
}

fn wrong_state_refused(delivery: &mut Delivery) -> VanAnswer {
    refusing(delivery, 8, |delivery| {
        let next = delivery.number() - 1 == delivery.applied;
        next && rows::first_at_fault(&delivery.message.lent()[HEAD..], delivery.copy.lent()).is_some()
    })
}

fn wrong_state_ends(delivery: &mut Delivery) -> VanAnswer {
    acting(delivery, |copy, operations| {
        let end = rows::first_at_fault(&operations.concat(), copy).unwrap_or(operations.len());
        operations[..end].iter().for_each(|operation| single::act(copy, operation));
    })
}

fn spaced_refused(delivery: &mut Delivery) -> VanAnswer {
    refusing(delivery, 17, |delivery| message::operations(delivery.message.lent()).any(rows::title_spaced))
}

fn last_number_refused(delivery: &mut Delivery) -> VanAnswer {
    refusing(delivery, 17, |delivery| delivery.number() == 65_535)
}

fn trailing_byte(delivery: &mut Delivery) -> VanAnswer {
    with_message(delivery, |message| match message.len() % UNIT == HEAD + 1 {
        true => message[..message.len() - 1].to_vec(),
        false => message.to_vec(),
    })
}

fn cut_by_one(delivery: &mut Delivery) -> VanAnswer {
    with_message(delivery, |message| match message.len() % UNIT == HEAD - 1 {
        true => [message, &[0]].concat(),
        false => message.to_vec(),
    })
}

fn number_0(delivery: &mut Delivery) -> VanAnswer {
    without(0, delivery, |_| true)
}

fn count_0(delivery: &mut Delivery) -> VanAnswer {
    without(1, delivery, |delivery| message::count(delivery.message.lent()) == 0)
}

fn count_9(delivery: &mut Delivery) -> VanAnswer {
    without(1, delivery, |delivery| message::count(delivery.message.lent()) == 9)
}

fn fourth_byte(delivery: &mut Delivery) -> VanAnswer {
    without(2, delivery, |_| true)
}

fn links_accepted(delivery: &mut Delivery) -> VanAnswer {
    with_message(delivery, |message| {
        let mut message = message.to_vec();
        let head = message.len().min(HEAD);
        message[head..].chunks_exact_mut(UNIT).for_each(|unit| unit[12..16].fill(0));
        message
    })
}

fn first_form(delivery: &mut Delivery) -> VanAnswer {
    without(4, delivery, |delivery| faults::operations_out_of_form(delivery.message.lent()).all(|place| place > 1))
}

fn copy_not_tested(delivery: &mut Delivery) -> VanAnswer {
    without(6, delivery, |_| true)
}

fn last_cart(delivery: &mut Delivery) -> VanAnswer {
    without(6, delivery, |delivery| faults::carts_out_of_form(delivery.copy.lent()).all(|cart| cart == CARTS as u32))
}

/// The receive in the copy's first bytes.
fn in_first_bytes(delivery: &mut Delivery, length: usize) -> VanAnswer {
    simulator::van_receive(&mut delivery.copy.lent_mut()[..length], delivery.applied, delivery.message.lent())
}

fn longer_copy(delivery: &mut Delivery) -> VanAnswer {
    in_first_bytes(delivery, delivery.copy.len().min(COPY))
}

fn low_two_bytes(delivery: &mut Delivery) -> VanAnswer {
    in_first_bytes(delivery, delivery.copy.len() % 65_536)
}

fn held_is_18(delivery: &mut Delivery) -> VanAnswer {
    changed(delivery, HELD, |delivery, answer| *answer = refused(18, delivery))
}

fn newest_alone(delivery: &mut Delivery) -> VanAnswer {
    changed(delivery, HELD, |delivery, answer| {
        if delivery.number() < delivery.applied {
            *answer = refused(18, delivery);
        }
    })
}

fn damaged_held(delivery: &mut Delivery) -> VanAnswer {
    changed(delivery, REFUSED, |delivery, answer| {
        let number = delivery.number();
        if answer.value == 17 && (1..=delivery.applied).contains(&number) {
            (answer.kind, answer.value) = (HELD, number);
        }
    })
}

fn damaged_18(delivery: &mut Delivery) -> VanAnswer {
    changed(delivery, REFUSED, |delivery, answer| {
        if delivery.applied.checked_add(1).is_some_and(|next| delivery.number() > next) {
            answer.value = 18;
        }
    })
}

fn held_value(delivery: &mut Delivery) -> VanAnswer {
    changed(delivery, HELD, |delivery, answer| answer.value = delivery.applied)
}

fn wraps(delivery: &mut Delivery) -> VanAnswer {
    refusing(delivery, 18, |delivery| delivery.applied == u32::MAX)
}

fn applied_low(delivery: &mut Delivery) -> VanAnswer {
    let answer = simulator::van_receive(delivery.copy.lent_mut(), delivery.applied & 0xFFFF, delivery.message.lent());
    let applied = if answer.kind == DONE { answer.applied } else { delivery.applied };
    VanAnswer { applied, ..answer }
}

fn number_low(delivery: &mut Delivery) -> VanAnswer {
    with_message(delivery, |message| {
        let mut message = message.to_vec();
        message.iter_mut().skip(1).take(1).for_each(|byte| *byte = 0);
        message
    })
}

fn message_changed(delivery: &mut Delivery) -> VanAnswer {
    changed(delivery, DONE, |delivery, _| delivery.message.lent_mut()[2] = 0)
}

fn past_copy(delivery: &mut Delivery) -> VanAnswer {
    changed(delivery, DONE, |delivery, _| delivery.copy.trespass(COPY as isize, 0))
}

fn before_copy(delivery: &mut Delivery) -> VanAnswer {
    changed(delivery, DONE, |delivery, _| delivery.copy.trespass(-1, 0))
}
