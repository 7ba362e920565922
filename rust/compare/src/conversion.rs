//! What a conversion is lent (02's S-10): an input and an output, between guard bytes. And why it is refused: each reason looked at for
//! itself, by 02's words and apart from the simulator.

use crate::lent::Part;
use crate::old::Form;
use crate::wall;
use simulator::Answer;
use std::fmt;

#[derive(Clone)]
pub struct Conversion {
    /// The form of the input; the output is of the other.
    pub from: Form,
    pub input: Part,
    pub output: Part,
}

/// The reasons for refusal 22, by their places.
pub const INPUT_LENGTH: usize = 0;
pub const MARK: usize = 1;
pub const CART: usize = 2;
pub const OUTPUT_LENGTH: usize = 3;

/// Why a conversion is refused.
pub struct Faults {
    /// The reasons for 22 that hold.
    pub reasons: Vec<usize>,
    /// The carts with a title that the output has no room for: 23.
    pub longer: Vec<usize>,
}

impl Faults {
    /// The rows that hold.
    pub fn rows(&self) -> Vec<u32> {
        let rows = [(22, self.reasons.is_empty()), (23, self.longer.is_empty())];
        rows.into_iter().filter(|(_, is_free)| !is_free).map(|(row, _)| row).collect()
    }
}

impl Conversion {
    /// A conversion with an output of this length, whose bytes are not zero.
    pub fn new(from: Form, input: &[u8], output: usize) -> Conversion {
        let marked: Vec<u8> = (0..output).map(|at| wall::marked(at, input.len() as u64)).collect();
        Conversion { from, input: Part::new(input), output: Part::new(&marked) }
    }

    /// One with an output of its length.
    pub fn of(from: Form, input: &[u8]) -> Conversion {
        Conversion::new(from, input, from.other().length())
    }

    /// The conversion of what this one has left in its output.
    pub fn back(&self) -> Conversion {
        Conversion::of(self.from.other(), self.output.lent())
    }

    /// The conversion as the simulator has it.
    pub fn simulate(&mut self) -> Answer {
        simulate(self.from, self.input.lent(), self.output.lent_mut())
    }

    /// Every reason to refuse it. A byte of the mark that is not there is not another one, and the carts are those that are there whole.
    pub fn faults(&self) -> Faults {
        let (from, input) = (self.from, self.input.lent());
        let holds = |reason: &usize| match *reason {
            INPUT_LENGTH => input.len() != from.length(),
            MARK => input.iter().zip(from.mark()).any(|(one, other)| one != other),
            CART => !from.out_of_form(input).is_empty(),
            _ => self.output.len() != from.other().length(),
        };
        Faults { reasons: (INPUT_LENGTH..=OUTPUT_LENGTH).filter(holds).collect(), longer: from.longer(input) }
    }
}

/// The simulator's conversion.
pub fn simulate(from: Form, input: &[u8], output: &mut [u8]) -> Answer {
    match from {
        Form::Old => simulator::from_old(input, output),
        Form::Ours => simulator::to_old(input, output),
    }
}

impl fmt::Display for Conversion {
    fn fmt(&self, f: &mut fmt::Formatter<'_>) -> fmt::Result {
        let name = if self.from == Form::Old { "from_old" } else { "to_old" };
        let (input, output) = (self.input.lent(), self.output.len());
        write!(f, "{name} of {} bytes, output of {output} bytes, carts out of form: ", input.len())?;
        write!(f, "{:?}, with a longer title: {:?}", self.from.out_of_form(input), self.from.longer(input))
    }
}

#[cfg(test)]
mod tests {
    use super::*;
    use crate::old;

    /// The rows and the reasons of a conversion.
    fn found(conversion: &Conversion) -> (Vec<u32>, Vec<usize>) {
        let faults = conversion.faults();
        (faults.rows(), faults.reasons)
    }

    #[test]
    fn every_reason_is_found_for_itself() {
        let (copy, file) = (vec![0; 10_240], old::file_of(&[0; 10_240]));
        let changed = |bytes: &[u8], at: usize| {
            let mut bytes = bytes.to_vec();
            bytes[at] = 1;
            bytes
        };
        assert_eq!(found(&Conversion::of(Form::Old, &file)), (vec![], vec![]));
        assert_eq!(found(&Conversion::of(Form::Old, &file[..6_149])), (vec![22], vec![INPUT_LENGTH]));
        assert_eq!(found(&Conversion::of(Form::Old, &[])), (vec![22], vec![INPUT_LENGTH]));
        assert_eq!(found(&Conversion::of(Form::Old, &changed(&file, 5))), (vec![22], vec![MARK]));
        assert_eq!(found(&Conversion::of(Form::Old, &changed(&file, 6_149))), (vec![22], vec![CART]));
        assert_eq!(found(&Conversion::new(Form::Old, &file, 10_241)), (vec![22], vec![OUTPUT_LENGTH]));
        assert_eq!(found(&Conversion::of(Form::Ours, &copy)), (vec![], vec![]));
        assert_eq!(found(&Conversion::of(Form::Ours, &file)), (vec![22], vec![INPUT_LENGTH, CART]));
        assert_eq!(found(&Conversion::of(Form::Ours, &changed(&copy, 10_239))), (vec![22], vec![CART]));
        assert_eq!(found(&Conversion::new(Form::Ours, &copy, 6_149)), (vec![22], vec![OUTPUT_LENGTH]));
    }

    #[test]
    fn a_longer_title_is_found_beside_a_reason() {
        let mut copy = vec![0; 10_240];
        copy[..9].copy_from_slice(&[1, 33, 1, 0, 5, 0, 0, 0, 6]);
        copy[16..49].fill(b'x');
        assert_eq!(found(&Conversion::of(Form::Ours, &copy)), (vec![23], vec![]));
        assert_eq!(found(&Conversion::new(Form::Ours, &copy, 0)), (vec![22, 23], vec![OUTPUT_LENGTH]));
        copy[10_239] = 1;
        assert_eq!(found(&Conversion::of(Form::Ours, &copy)), (vec![22, 23], vec![CART]));
    }
}
