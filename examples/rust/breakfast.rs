//! Breakfast at a local station, with the engine linked into Rust.
//!
//! Two versions of a jingle have long titles that differ in the last letter: a playlist imported by title and by cart number gets the
//! same carts. Then a producer re-cuts the sponsor's jingle and reads it in the same chair while the studio's copy is two edits
//! behind: the read waits, and is collected with the new cut. One chair is one session: a second session in the producer's chair has
//! edited nothing, so its read is answered at once with the old cut. Then the producer tries an edit of two steps before making it, is
//! told what is wrong with it, mends it and commits it. Then the presenter is told that the cart of that edit is taken: the studio's copy
//! still has it empty, so the presenter's read of it waits, and is collected with what is there. Then, ten seconds before the hour, the
//! presenter re-cuts the news bed and cannot wait for the studio: the read is forwarded, and the head end shows the new cut. A plain read
//! then waits until the studio's copy has all that the head end had shown. Then a van at the fair has a copy of its own, beyond a radio
//! link that loses, repeats and reorders messages: the van applies each transaction in its turn and once, so its presenter sees the carts
//! of one moment, and at last those of the head end. Last, the presenter is shown in the studio that take B is gone, and walks to the other
//! studio, whose copy still has it: the read there waits until that copy has all that the presenter was shown, and is collected.
use std::error::Error;
use sulyobak::{sizes, Cart, Forwarded, Library, Operation, Read, Received, Refusal, Request, Title, Van};

// Sessions, the studio that all of them sit in at first, and the one that the presenter walks to.
const MANAGER: u32 = 1;
const PRODUCER: u32 = 2;
const PRESENTER: u32 = 3;
const SECOND: u32 = 4; // in the producer's chair, by mistake
const STUDIO: u32 = 1;
const OTHER: u32 = 2;

// Carts.
const JINGLE_A: u16 = 11;
const JINGLE_B: u16 = 12;
const SPONSOR: u16 = 20;
const NEWS: u16 = 30;
const WEATHER: u16 = 31;

fn main() -> Result<(), Box<dyn Error>> {
    let mut wall = Library::new(2, &[1, 1, 1, 1])?;
    the_title_column(&mut wall)?;
    println!();
    the_sponsors_jingle(&mut wall)?;
    println!();
    the_weather_bed(&mut wall)?;
    println!();
    the_taken_cart(&mut wall)?;
    println!();
    ten_seconds_before_the_hour(&mut wall)?;
    println!();
    the_van(&mut wall)?;
    println!();
    the_other_studio(&mut wall)?;
    Ok(())
}

fn the_title_column(wall: &mut Library) -> Result<(), Box<dyn Error>> {
    println!("The title column");
    let take_a = Title::new("Good morning, good morning, it is breakfast time in town, take A")?;
    let take_b = Title::new("Good morning, good morning, it is breakfast time in town, take B")?;
    if let Err(error) = Title::new("Good morning, good morning, it is breakfast time in town, take A2") {
        println!("take A2: {error}");
    }

    let number = wall.commit(
        MANAGER,
        &[
            Operation::New { cart: JINGLE_A, title: take_a, audio: 101, milliseconds: 8_000 },
            Operation::New { cart: JINGLE_B, title: take_b, audio: 102, milliseconds: 8_000 },
            Operation::New { cart: SPONSOR, title: Title::new("Sponsor: Kovacs bakery")?, audio: 301, milliseconds: 15_000 },
        ],
    )?;
    println!("commit {number}: two jingles and the sponsor's");
    catch_up(wall, STUDIO)?;

    let first = wall.read(PRESENTER, &Request::Title(take_a))?;
    show("take A by title", &first);
    let second = wall.read(PRESENTER, &Request::Title(take_b))?;
    show("take B by title", &second);
    let both = wall.read(PRESENTER, &Request::carts(&[JINGLE_A, JINGLE_B])?)?;
    show("both by number", &both);
    Ok(())
}

fn the_sponsors_jingle(wall: &mut Library) -> Result<(), Box<dyn Error>> {
    println!("The sponsor's jingle");
    let news = Operation::New { cart: NEWS, title: Title::new("News bed")?, audio: 401, milliseconds: 60_000 };
    println!("commit {}: the manager's news bed", wall.commit(MANAGER, &[news])?);
    let recut = Operation::Recut { cart: SPONSOR, audio: 302, milliseconds: 14_000 };
    println!("commit {}: the producer re-cuts the sponsor's jingle", wall.commit(PRODUCER, &[recut])?);

    let request = Request::cart(SPONSOR);
    show("the producer, in the same chair", &wall.read(PRODUCER, &request)?);
    match wall.commit(PRODUCER, &[recut]) {
        Ok(number) => println!("commit {number}"),
        Err(refusal) => println!("another commit in that chair: {refusal}"),
    }
    show("a second session in that chair reads the old cut", &wall.read(SECOND, &request)?);
    catch_up(wall, STUDIO)?;
    show("the producer collects", &wall.collect(PRODUCER)?);
    catch_up(wall, STUDIO)?;
    show("the producer collects", &wall.collect(PRODUCER)?);
    Ok(())
}

fn the_weather_bed(wall: &mut Library) -> Result<(), Box<dyn Error>> {
    println!("The weather bed");
    let retitle = Operation::Retitle { cart: SPONSOR, title: Title::new("Sponsor: Kovacs bakery, winter")? };
    let title = Title::new("Weather bed")?;
    let weather = |cart| Operation::New { cart, title, audio: 402, milliseconds: 30_000 };
    match wall.preview(PRODUCER, &[retitle, weather(NEWS)]) {
        Ok(number) => println!("with cart {NEWS}: it would be commit {number}"),
        Err(refusal) => println!("with cart {NEWS}: it would be {refusal}"),
    }
    let mended = [retitle, weather(WEATHER)];
    println!("with cart {WEATHER}: it would be commit {}", wall.preview(PRODUCER, &mended)?);
    println!("commits: {}, as before", wall.control().commits);
    println!("commit {}: the producer's weather bed, and the sponsor's new title", wall.commit(PRODUCER, &mended)?);
    Ok(())
}

fn the_taken_cart(wall: &mut Library) -> Result<(), Box<dyn Error>> {
    println!("The taken cart");
    let request = Request::cart(WEATHER);
    show("the presenter looks for a free cart", &wall.read(PRESENTER, &request)?);
    let travel = Operation::New { cart: WEATHER, title: Title::new("Travel bed")?, audio: 403, milliseconds: 45_000 };
    match wall.commit(PRESENTER, &[travel]) {
        Ok(number) => println!("commit {number}"),
        Err(refusal) => println!("the presenter's travel bed there: {refusal}"),
    }
    show("the presenter reads the cart, which the studio's copy has empty", &wall.read(PRESENTER, &request)?);
    catch_up(wall, STUDIO)?;
    show("the presenter collects", &wall.collect(PRESENTER)?);
    Ok(())
}

fn ten_seconds_before_the_hour(wall: &mut Library) -> Result<(), Box<dyn Error>> {
    println!("Ten seconds before the hour");
    let recut = Operation::Recut { cart: NEWS, audio: 404, milliseconds: 58_000 };
    println!("commit {}: the presenter re-cuts the news bed", wall.commit(PRESENTER, &[recut])?);
    let retitle = Operation::Retitle { cart: NEWS, title: Title::new("News bed at the hour")? };
    println!("commit {}: the manager retitles it", wall.commit(MANAGER, &[retitle])?);

    let request = Request::cart(NEWS);
    let shown = wall.forward(PRESENTER, &request)?;
    show_forwarded("the presenter cannot wait", wall, &shown);
    show("a plain read waits for what the head end has shown", &wall.read(PRESENTER, &request)?);
    match wall.forward(PRESENTER, &request) {
        Ok(shown) => show_forwarded("the presenter forwards again", wall, &shown),
        Err(refusal) => println!("the presenter forwards again, with a read waiting: {refusal}"),
    }
    catch_up(wall, STUDIO)?;
    show("the presenter collects", &wall.collect(PRESENTER)?);
    catch_up(wall, STUDIO)?;
    show("the presenter collects", &wall.collect(PRESENTER)?);
    let shown = wall.forward(PRESENTER, &request)?;
    show_forwarded("the presenter forwards once more", wall, &shown);
    Ok(())
}

fn the_van(wall: &mut Library) -> Result<(), Box<dyn Error>> {
    println!("The van");
    let mut van = Van::new();
    bring(wall, &mut van, "the link brings the first edit", 1)?;
    bring(wall, &mut van, "the second is lost; the third comes", 3)?;
    bring(wall, &mut van, "the first comes once more", 1)?;
    bring(wall, &mut van, "the second is sent again", 2)?;
    show_van(wall, &van);
    println!("commit {}: meanwhile the manager withdraws take B", wall.commit(MANAGER, &[Operation::Withdraw { cart: JINGLE_B }])?);
    bring(wall, &mut van, "the third is sent again", 3)?;
    bring(wall, &mut van, "the fifth comes before the fourth", 5)?;
    bring(wall, &mut van, "the fourth comes", 4)?;
    bring(wall, &mut van, "the fifth is sent again", 5)?;
    bring(wall, &mut van, "the sixth comes", 6)?;
    bring(wall, &mut van, "the second comes once more", 2)?;
    bring(wall, &mut van, "the manager's comes", 7)?;
    show_van(wall, &van);
    let level = van.copy() == &wall.clone().into_parts().library[..sizes::COPY];
    println!("in the van and at the head end: {}", if level { "the same carts" } else { "DIFFERENT carts" });
    Ok(())
}

fn the_other_studio(wall: &mut Library) -> Result<(), Box<dyn Error>> {
    println!("The other studio");
    for _ in 0..6 {
        wall.send(OTHER)?;
        wall.refresh(OTHER)?;
    }
    println!("the other studio's copy has taken {} of {}", wall.control().applied[OTHER as usize - 1], wall.control().commits);
    catch_up(wall, STUDIO)?;
    let request = Request::cart(JINGLE_B);
    show("the presenter looks for take B in the studio", &wall.read(PRESENTER, &request)?);
    println!("the presenter walks to studio {}", wall.move_session(PRESENTER, OTHER)?);
    show("the presenter looks for take B, which the copy there still has", &wall.read(PRESENTER, &request)?);
    match wall.move_session(PRESENTER, STUDIO) {
        Ok(studio) => println!("the presenter walks to studio {studio}"),
        Err(refusal) => println!("the presenter walks back, with a read waiting: {refusal}"),
    }
    catch_up(wall, OTHER)?;
    show("the presenter collects", &wall.collect(PRESENTER)?);
    println!("the presenter walks back to studio {}", wall.move_session(PRESENTER, STUDIO)?);
    Ok(())
}

// The head end writes the message of a transaction, and the link brings it to the van.
fn bring(wall: &Library, van: &mut Van, what: &str, number: u32) -> Result<(), Refusal> {
    let message = wall.van_write(number)?;
    match van.receive(message.as_bytes()) {
        Ok(Received::Applied { number }) => println!("{what}: applied {number}"),
        Ok(Received::Held { number }) => println!("{what}: held {number}"),
        Err(refusal) => println!("{what}: {refusal}"),
    }
    Ok(())
}

fn show_van(wall: &Library, van: &Van) {
    println!("the van has applied {} of {}; its presenter looks at the news bed", van.applied(), wall.control().commits);
    show_carts(&[van.cart(NEWS)]);
}

// The line sends one transaction, and the studio's copy takes it.
fn catch_up(wall: &mut Library, studio: u32) -> Result<(), Refusal> {
    let sent = wall.send(studio)?;
    let applied = wall.refresh(studio)?;
    println!("sent {sent}, applied {applied} of {}", wall.control().commits);
    Ok(())
}

fn show(what: &str, read: &Read) {
    match read {
        Read::Waits { number } => println!("{what}: waits for {number}"),
        Read::Answered { state, found, carts } => {
            println!("{what}: state {state}, found {found}");
            show_carts(carts);
        }
    }
}

// The head end has answered where the state is not what the session's studio has applied.
fn show_forwarded(what: &str, wall: &Library, answer: &Forwarded) {
    let applied = wall.control().applied[STUDIO as usize - 1];
    let who = if answer.state == applied { "the studio" } else { "the head end" };
    println!("{what}: {who} answers, state {}, found {}; the studio's copy has taken {applied}", answer.state, answer.found);
    show_carts(&answer.carts);
}

fn show_carts(carts: &[Option<Cart>]) {
    for cart in carts {
        match cart {
            Some(cart) => println!("    {cart}"),
            None => println!("    empty"),
        }
    }
}
