//! A week at a busy station: more edits than the log has records.
//!
//! The editor re-cuts the traffic jingle again and again. Without retiring, the commit after the log's 512 records is refused by 7. The
//! oldest transaction can be retired once every studio has applied it; while the second studio is behind it is still needed (20). Then the
//! studios keep up and what they have is retired before each edit, so the log never fills again. A van that has slept cannot be written the
//! retired messages any more (21). The system is tested as after a restart at the end (`examples/c/retire.c` does the same).
use std::error::Error;
use sulyobak::{sizes, Library, Operation, Refusal, Request, Title};

const EDITOR: u32 = 1;
const STUDIOS: u32 = 2;
const JINGLE: u16 = 40;
const WEEK: u32 = 2_000;

fn say(what: &str, answer: Result<u32, Refusal>) {
    match answer {
        Ok(value) => println!("{what}: {value}"),
        Err(refusal) => println!("{what}: {refusal}"),
    }
}

fn show_log(library: &Library) {
    let control = library.control();
    let free = sizes::RECORDS as u32 - control.used;
    println!("    commits {}, retired {}, records used {}, free {free}", control.commits, control.retired, control.used);
}

// Each edit has its own audio: the number that its commit gets.
fn edit(library: &mut Library) -> Result<u32, Refusal> {
    let (audio, milliseconds) = (library.control().commits + 1, 9_000);
    let operation = match audio {
        1 => Operation::New { cart: JINGLE, title: Title::new("Traffic jingle").expect("a title"), audio, milliseconds },
        _ => Operation::Recut { cart: JINGLE, audio, milliseconds },
    };
    library.commit(EDITOR, &[operation])
}

// Sends and applies everything that a studio does not have yet.
fn catch_up(library: &mut Library, studio: u32) -> Result<(), Refusal> {
    while library.control().applied[studio as usize - 1] < library.control().commits {
        library.send(studio)?;
        library.refresh(studio)?;
    }
    Ok(())
}

// Retires all that every studio has. Returns the refusal that ends it.
fn retire_all(library: &mut Library) -> Refusal {
    loop {
        if let Err(refusal) = library.retire() {
            return refusal;
        }
    }
}

// The rest of the week: the studios keep up, and what they have is retired before each edit.
fn go_on(library: &mut Library) -> Result<(), Refusal> {
    while library.control().commits < WEEK {
        (1..=STUDIOS).try_for_each(|studio| catch_up(library, studio))?;
        match retire_all(library) {
            Refusal::NotRetirable => edit(library)?,
            refusal => return Err(refusal),
        };
    }
    Ok(())
}

fn main() -> Result<(), Box<dyn Error>> {
    let mut library = Library::new(STUDIOS, &[1])?;
    while library.control().used < sizes::RECORDS as u32 {
        edit(&mut library)?;
    }
    say("an edit more than the log holds", edit(&mut library));
    show_log(&library);

    catch_up(&mut library, 1)?;
    say("retire, with studio 2 behind", library.retire());
    catch_up(&mut library, 2)?;
    say("retire, once both studios have it", library.retire());
    say("the edit, in the record that is free again", edit(&mut library));
    show_log(&library);

    go_on(&mut library)?;
    println!("the week is over");
    show_log(&library);
    say("message 1 for the van", library.van_write(1).map(|message| message.number()));
    say("load", library.memory().load());
    for cart in library.forward(EDITOR, &Request::cart(JINGLE))?.carts.into_iter().flatten() {
        println!("cart {} has audio {}", cart.number, cart.audio);
    }
    Ok(())
}
