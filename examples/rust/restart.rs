//! Saves a system to a file and takes it up again, as a program does that is stopped and started.
//!
//! The file is written anew beside the old one, synced, renamed over it, and the folder is synced: whenever the machine stops, the file
//! holds the old system whole or the new one whole. It has the version, the 31 words of control and the three memories, numbers
//! little-endian (`examples/c/restart.c` writes the same). Version and length are tested, and all the rest by `Library::load`, before
//! anything is taken over. A read that waited before the stop is collected after the start. Then come files that are damaged, and files
//! that are torn, as by a program that writes each part in its place and is stopped in between: what load tells of each, and what it
//! cannot.
//!
//! Usage: `restart FILE`
use std::error::Error;
use std::fs::{self, File};
use std::io::Write;
use std::ops::Range;
use std::path::Path;
use sulyobak::{sizes, Control, Library, Operation, Parts, Read, Request, Title, VERSION};

const EDITOR: u32 = 1;
const STUDIO: u32 = 1;
const JINGLE: u16 = 7;

// The oldest version whose control and memory are laid out as this version's (docs/FORMAT.md): files from it on are taken over.
const OLDEST: u32 = 9;

// Where each part of the file begins.
const CONTROL: usize = 4;
const LIBRARY: usize = CONTROL + std::mem::size_of::<Control>();
const LOG: usize = LIBRARY + sizes::LIBRARY;
const SESSIONS: usize = LOG + sizes::LOG;
const END: usize = SESSIONS + sizes::SESSIONS;

fn to_bytes(library: &Library) -> Vec<u8> {
    let Parts { library, log, sessions, control } = library.clone().into_parts();
    let Control { studios, session_studios, used, commits, sent, applied, retired, oldest, free_first, free_last } = control;
    let words = [VERSION, studios].into_iter().chain(session_studios).chain([used, commits]).chain(sent).chain(applied);
    let words = words.chain([retired, oldest, free_first, free_last]);
    let mut bytes: Vec<u8> = words.flat_map(u32::to_le_bytes).collect();
    for memory in [library, log, sessions] {
        bytes.extend_from_slice(&memory);
    }
    bytes
}

// Writes bytes to a new file, syncs it, renames it over the old one, and syncs the folder.
fn write_whole(path: &Path, bytes: &[u8]) -> std::io::Result<()> {
    let mut fresh = path.as_os_str().to_owned();
    fresh.push(".new");
    let mut file = File::create(&fresh)?;
    file.write_all(bytes)?;
    file.sync_all()?;
    fs::rename(&fresh, path)?;
    let folder = path.parent().filter(|folder| !folder.as_os_str().is_empty()).unwrap_or(Path::new("."));
    File::open(folder)?.sync_all()
}

fn save(library: &Library, path: &Path) -> std::io::Result<()> {
    write_whole(path, &to_bytes(library))
}

// The library that the file holds, or why there is none.
fn load(path: &Path) -> Result<Library, Box<dyn Error>> {
    let bytes = fs::read(path)?;
    if !(OLDEST..=VERSION).any(|version| bytes.starts_with(&version.to_le_bytes())) {
        return Err("the file is of another version".into());
    }
    if bytes.len() != END {
        return Err("the file has another length".into());
    }
    let mut words = bytes[CONTROL..LIBRARY].chunks_exact(4).map(|word| u32::from_le_bytes([word[0], word[1], word[2], word[3]]));
    let mut word = || words.next().unwrap_or_default();
    let control = Control {
        studios: word(),
        session_studios: std::array::from_fn(|_| word()),
        used: word(),
        commits: word(),
        sent: std::array::from_fn(|_| word()),
        applied: std::array::from_fn(|_| word()),
        retired: word(),
        oldest: word(),
        free_first: word(),
        free_last: word(),
    };
    let (library, log, sessions) = (bytes[LIBRARY..LOG].into(), bytes[LOG..SESSIONS].into(), bytes[SESSIONS..].into());
    Ok(Library::load(Parts { library, log, sessions, control })?)
}

// The work before the stop: a jingle is committed, and its editor's read waits.
fn work() -> Result<Library, Box<dyn Error>> {
    let mut library = Library::new(1, &[1])?;
    let title = Title::new("Top hour A")?;
    library.commit(EDITOR, &[Operation::New { cart: JINGLE, title, audio: 501, milliseconds: 8_000 }])?;
    library.read(EDITOR, &Request::cart(JINGLE))?;
    Ok(library)
}

// The work after the start: the transaction is sent and applied, the waiting read is collected, the editor re-cuts the jingle, and the
// transaction that the studio has is retired.
fn work_on(library: &mut Library) -> Result<(), Box<dyn Error>> {
    library.send(STUDIO)?;
    library.refresh(STUDIO)?;
    if let Read::Answered { state, carts, .. } = library.collect(EDITOR)? {
        for cart in carts.into_iter().flatten() {
            println!("collected at state {state}: {cart}");
        }
    }
    let number = library.commit(EDITOR, &[Operation::Recut { cart: JINGLE, audio: 502, milliseconds: 9_000 }])?;
    println!("committed after the restart: {number}");
    println!("retired: {}", library.retire()?);
    Ok(())
}

// Saves the library with its bytes changed, and sees that it is not loaded.
fn try_damaged(library: &Library, path: &Path, what: &str, change: impl Fn(&mut Vec<u8>)) -> Result<(), Box<dyn Error>> {
    let mut bytes = to_bytes(library);
    change(&mut bytes);
    write_whole(path, &bytes)?;
    match load(path) {
        Ok(_) => Err("a damaged or torn file was loaded".into()),
        Err(error) => {
            println!("{what}: not loaded: {error}");
            Ok(())
        }
    }
}

// Files that are damaged, or have parts of before the restart and of after it.
fn try_files(before: &Library, after: &Library, path: &Path) -> Result<(), Box<dyn Error>> {
    let letter = LIBRARY + sizes::CART * (usize::from(JINGLE) - 1) + 16;
    try_damaged(after, path, "a byte of a cart damaged", |bytes| bytes[LIBRARY] = 9)?;
    try_damaged(after, path, "a letter of a title damaged", |bytes| bytes[letter] = b'H')?;
    let put_version = |bytes: &mut Vec<u8>, version: u32| bytes[..CONTROL].copy_from_slice(&version.to_le_bytes());
    try_damaged(after, path, "a later version", |bytes| put_version(bytes, VERSION + 1))?;
    try_damaged(after, path, "a version of another layout", |bytes| put_version(bytes, OLDEST - 1))?;
    try_damaged(after, path, "the last byte missing", |bytes| bytes.truncate(END - 1))?;

    let (then, now) = (to_bytes(before), to_bytes(after));
    let put = |bytes: &mut Vec<u8>, part: Range<usize>, from: &[u8]| bytes[part.clone()].copy_from_slice(&from[part]);
    try_damaged(after, path, "library of before, log and control of after", |bytes| put(bytes, LIBRARY..LOG, &then))?;
    try_damaged(before, path, "library of after, log and control of before", |bytes| put(bytes, LIBRARY..LOG, &now))?;
    try_damaged(after, path, "log of before, library and control of after", |bytes| put(bytes, LOG..SESSIONS, &then))?;

    // What load cannot tell: sessions of before could be those of after. Their reads then go by the numbers of before.
    let mut bytes = now.clone();
    put(&mut bytes, SESSIONS..END, &then);
    write_whole(path, &bytes)?;
    load(path)?;
    let [older, number] = [&bytes, &now].map(|bytes| u16::from_le_bytes([bytes[SESSIONS + 2], bytes[SESSIONS + 3]]));
    println!("sessions of before, the rest of after: loaded (it cannot be told): session {EDITOR} has number {older}, not {number}");
    Ok(())
}

fn main() -> Result<(), Box<dyn Error>> {
    let word = std::env::args_os().nth(1).ok_or("usage: restart FILE")?;
    let path = Path::new(&word);
    let before = work()?;
    save(&before, path)?;
    println!("saved: commits {}, applied {}", before.control().commits, before.control().applied[0]);

    let mut after = load(path)?;
    if after != before {
        return Err("what was loaded is not what was saved".into());
    }
    println!("loaded: {after:?}");
    work_on(&mut after)?;

    try_files(&before, &after, path)?;
    save(&after, path)?;
    let again = load(path)?;
    println!("saved and loaded again: commits {}, applied {}", again.control().commits, again.control().applied[0]);
    Ok(())
}
