//! What a title search is lent (02's S-5): a copy and a title, between guard bytes.

use crate::call::hex;
use crate::lent::Part;
use simulator::Search;
use std::fmt;

#[derive(Clone)]
pub struct Sought {
    pub copy: Part,
    pub title: Part,
}

impl Sought {
    pub fn new(copy: &[u8], title: &[u8]) -> Sought {
        Sought { copy: Part::new(copy), title: Part::new(title) }
    }

    /// The search as the simulator has it.
    pub fn simulate(&self) -> Search {
        simulator::search(self.copy.lent(), self.title.lent())
    }
}

/// Whether two letters are the same in matching.
pub fn same_letter(one: &u8, other: &u8) -> bool {
    one == other
}

/// How many first letters of a cart are those of the title.
pub fn shared(cart: &[u8], title: &[u8]) -> usize {
    cart[16..].iter().zip(title).take_while(|(one, other)| same_letter(one, other)).count()
}

impl fmt::Display for Sought {
    fn fmt(&self, f: &mut fmt::Formatter<'_>) -> fmt::Result {
        let Sought { copy, title } = self;
        write!(f, "search in {} bytes for a title of {} bytes:", copy.len(), title.len())?;
        title.lent().chunks(80).take(4).try_for_each(|part| write!(f, "\n    {}", hex(part)))
    }
}
