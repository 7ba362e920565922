//! The comparison after a call, a title search, a receive or a conversion, and the place of the first difference.

use crate::conversion::Conversion;
use crate::delivery::Delivery;
use crate::lent::{Lent, Part};
use crate::made::SIXTH;
use crate::message::HEAD;
use crate::old::Form;
use crate::sought::Sought;
use simulator::{Answer, COPY, Control, Search, UNIT, VanAnswer};

/// The first difference between the right end of a call and the engine's, in
/// words; `by` names who says what is right.
pub fn first_difference(by: &str, right: (&Answer, &Lent), played: (&Answer, &Lent)) -> Option<String> {
    let (answer, lent) = right;
    let (other_answer, other) = played;
    answer_difference(by, answer, other_answer)
        .or_else(|| part_difference(by, "library", (&lent.library, &other.library), cart_place))
        .or_else(|| part_difference(by, "log", (&lent.log, &other.log), record_place))
        .or_else(|| part_difference(by, "sessions", (&lent.sessions, &other.sessions), session_place))
        .or_else(|| part_difference(by, "output", (&lent.output, &other.output), unit_place))
        .or_else(|| part_difference(by, "const input", (&lent.input, &other.input), unit_place))
}

/// The first difference between a title search's right end, by the simulator, and the engine's.
pub fn search_difference(right: (Search, &Sought), played: (Search, &Sought)) -> Option<String> {
    let (search, sought) = right;
    let (other_search, other) = played;
    if search != other_search {
        return Some(format!("answer: simulator {search:?}, engine {other_search:?}"));
    }
    part_difference("simulator", "copy", (&sought.copy, &other.copy), unit_place)
        .or_else(|| part_difference("simulator", "title", (&sought.title, &other.title), unit_place))
}

/// The first difference between a receive's right end and the engine's; `by` as above.
pub fn receive_difference(by: &str, right: (VanAnswer, &Delivery), played: (VanAnswer, &Delivery)) -> Option<String> {
    let (answer, delivery) = right;
    let (other_answer, other) = played;
    if answer != other_answer {
        return Some(format!("answer: {by} {answer:?}, engine {other_answer:?}"));
    }
    part_difference(by, "copy", (&delivery.copy, &other.copy), unit_place)
        .or_else(|| part_difference(by, "message", (&delivery.message, &other.message), message_place))
}

/// The first difference between a conversion's right end, by the simulator, and the engine's.
pub fn conversion_difference(right: (&Answer, &Conversion), played: (&Answer, &Conversion)) -> Option<String> {
    let (answer, conversion) = right;
    let (other_answer, other) = played;
    let [input_place, output_place]: [fn(usize) -> String; 2] = match conversion.from {
        Form::Old => [old_place, unit_place],
        Form::Ours => [unit_place, old_place],
    };
    answer_difference("simulator", answer, other_answer)
        .or_else(|| part_difference("simulator", "output", (&conversion.output, &other.output), output_place))
        .or_else(|| part_difference("simulator", "const input", (&conversion.input, &other.input), input_place))
}

/// The first difference between two answers; `by` as above.
pub fn answer_difference(by: &str, right: &Answer, played: &Answer) -> Option<String> {
    let words = |answer: &Answer| (answer.kind, answer.value, answer.found);
    if words(right) != words(played) {
        let (right, wrong) = (answer_text(right), answer_text(played));
        return Some(format!("answer: {by} {right}, engine {wrong}"));
    }
    let right = control_words(&right.control);
    let wrong = control_words(&played.control);
    let at = right.iter().zip(&wrong).position(|(a, b)| a != b)?;
    let name = control_word_name(at);
    Some(format!("control, {name}: {by} {}, engine {}", right[at], wrong[at]))
}

pub fn answer_text(answer: &Answer) -> String {
    let value = answer.value;
    match answer.kind {
        simulator::REFUSED => format!("refused {value} (found {})", answer.found),
        simulator::DONE => format!("done {value} (found {})", answer.found),
        simulator::ANSWERED => format!("answered state {value} found {}", answer.found),
        simulator::WAITS => format!("waits {value} (found {})", answer.found),
        kind => format!("kind {kind} value {value} found {}", answer.found),
    }
}

fn control_words(control: &Control) -> Vec<u32> {
    let mut words = vec![control.studios];
    words.extend(control.session_studios);
    words.extend([control.used, control.commits]);
    words.extend(control.sent);
    words.extend(control.applied);
    words.extend([control.retired, control.oldest, control.free_first, control.free_last]);
    words
}

fn control_word_name(at: usize) -> String {
    match at {
        0 => "studios".to_string(),
        1..=16 => format!("session {at}'s studio"),
        17 => "used".to_string(),
        18 => "commits".to_string(),
        19..=22 => format!("sent of studio {}", at - 18),
        23..=26 => format!("applied of studio {}", at - 22),
        27 => "retired".to_string(),
        28 => "oldest".to_string(),
        29 => "free first".to_string(),
        _ => "free last".to_string(),
    }
}

fn part_difference(by: &str, name: &str, (right, played): (&Part, &Part), place: fn(usize) -> String) -> Option<String> {
    let at = right.first_difference(played)?;
    let words = match usize::try_from(at) {
        Err(_) => format!("guard, {} before the start", -at),
        Ok(at) if at >= right.len() => format!("guard, {} past the end", at - right.len()),
        Ok(at) => format!("byte {at} ({})", place(at)),
    };
    let (right, wrong) = (right.at(at), played.at(at));
    Some(format!("{name}, {words}: {by} {right}, engine {wrong}"))
}

fn cart_place(at: usize) -> String {
    let copy = match at / COPY {
        0 => "head end".to_string(),
        SIXTH => "the sixth copy".to_string(),
        studio => format!("studio {studio}"),
    };
    format!("{copy}, cart {}, byte {}", at % COPY / UNIT + 1, at % UNIT)
}

fn record_place(at: usize) -> String {
    format!("record {}, byte {}", at / UNIT + 1, at % UNIT)
}

fn session_place(at: usize) -> String {
    format!("session {}, byte {}", at / UNIT + 1, at % UNIT)
}

fn message_place(at: usize) -> String {
    match at.checked_sub(HEAD) {
        None => "head".to_string(),
        Some(at) => unit_place(at),
    }
}

fn old_place(at: usize) -> String {
    match at.checked_sub(Form::Old.mark().len()) {
        None => "mark".to_string(),
        Some(at) => format!("cart {}, byte {}", at / Form::Old.unit() + 1, at % Form::Old.unit()),
    }
}

fn unit_place(at: usize) -> String {
    format!("unit {}, byte {}", at / UNIT + 1, at % UNIT)
}
