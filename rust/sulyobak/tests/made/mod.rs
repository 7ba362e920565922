//! A system and operations for tests. Two studios; sessions 1 and 2 at studio 1, session 3 at studio 2.
use sulyobak::{Library, Operation, Title};

pub fn fresh() -> Library {
    Library::new(2, &[1, 1, 2]).expect("setup")
}

pub fn new(cart: u16) -> Operation {
    Operation::New { cart, title: Title::new("Top hour A").expect("a title"), audio: 501, milliseconds: 8_000 }
}

pub fn recut(cart: u16) -> Operation {
    Operation::Recut { cart, audio: 502, milliseconds: 9_000 }
}
