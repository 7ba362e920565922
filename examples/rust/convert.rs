//! Wall files of the thirty-two-character edition, which neighbouring stations still exchange.
//!
//! An old wall of three carts arrives: it is converted to one copy, a cart is printed, and converted back the file has the same bytes. A
//! file that was damaged on the way is refused by 22, and the cart is named. Then the station's own wall is to go to the neighbour: a title
//! of 33 letters has no room in an old file, so the conversion is refused by 23 and the cart is named. Once it is retitled, the file is
//! written (`examples/c/convert.c` does the same).
use std::error::Error;
use sulyobak::old::{copy_fault, file_fault, from_old, to_old, Fault};
use sulyobak::{sizes, Cart, Library, Operation, Refusal, Title};

const EDITOR: u32 = 1;
const JINGLE: u16 = 7;
const NEWS: u16 = 30;
const MARK: &[u8] = b"CART32";
const OLD_CART: usize = 48;

fn say<const BYTES: usize>(what: &str, answer: Result<[u8; BYTES], Refusal>, fault: Option<Fault>) {
    match answer {
        Ok(_) => println!("{what}: {BYTES} bytes"),
        Err(refusal) => println!("{what}: {refusal}"),
    }
    if let Some(fault) = fault {
        println!("    {fault}");
    }
}

// Where a cart begins in an old file.
fn old_place(cart: u16) -> usize {
    MARK.len() + OLD_CART * (usize::from(cart) - 1)
}

// The neighbour's wall file. The 48 bytes of a cart are the first 48 of a new.
fn receive() -> Result<Vec<u8>, Box<dyn Error>> {
    let mut file = vec![0; sizes::OLD_FILE];
    file[..MARK.len()].copy_from_slice(MARK);
    for (cart, text, audio, milliseconds) in
        [(JINGLE, "Top hour A", 501, 8_000), (NEWS, "News bed", 401, 60_000), (128, "Good night", 902, 12_000)]
    {
        let new = Operation::New { cart, title: Title::new(text)?, audio, milliseconds }.to_bytes();
        file[old_place(cart)..][..OLD_CART].copy_from_slice(&new[..OLD_CART]);
    }
    Ok(file)
}

// The neighbour's wall, converted and converted back; then with a letter damaged.
fn take_in() -> Result<(), Box<dyn Error>> {
    let mut file = receive()?;
    let copy = from_old(&file)?;
    say("the neighbour's wall", Ok(copy), None);
    let place = sizes::CART * (usize::from(NEWS) - 1);
    if let Some(cart) = Cart::from_bytes(copy[place..][..sizes::CART].try_into()?) {
        println!("    {cart}");
    }
    let again = to_old(&copy)?;
    say("converted back", Ok(again), None);
    if again[..] != file {
        return Err("the file has other bytes".into());
    }
    println!("    the same bytes");
    file[old_place(NEWS) + 16] = 200;
    say("with a letter damaged", from_old(&file), file_fault(&file));
    Ok(())
}

// The station's own wall: the head end's copy is the first of library memory.
fn hand_out() -> Result<(), Box<dyn Error>> {
    let mut library = Library::new(1, &[1])?;
    let title = Title::new("Top of the hour, Sunday, long cut")?;
    library.commit(EDITOR, &[Operation::New { cart: JINGLE, title, audio: 501, milliseconds: 8_000 }])?;
    let copy = &library.memory().library[..sizes::COPY];
    say("our wall", to_old(copy), copy_fault(copy));
    library.commit(EDITOR, &[Operation::Retitle { cart: JINGLE, title: Title::new("Top of the hour, Sunday, long")? }])?;
    let copy = &library.memory().library[..sizes::COPY];
    say("our wall, retitled", to_old(copy), copy_fault(copy));
    Ok(())
}

fn main() -> Result<(), Box<dyn Error>> {
    take_in()?;
    hand_out()
}
