//! An edit that is previewed and then committed.
use sulyobak::{sizes, Library, Operation, Refusal};

/// Previews, sees that nothing changed, then commits the same, and sees what a refusal leaves: the answer of both.
pub fn tried(library: &mut Library, session: u32, operations: &[u8]) -> Result<u32, Refusal> {
    let before = library.clone();
    let previewed = library.memory().preview_bytes(session, operations);
    assert_eq!(*library, before, "a preview changes nothing");
    assert_eq!(library.memory().commit_bytes(session, operations), previewed, "commit answers what the preview said");
    if let Err(refusal) = previewed {
        assert_eq!(*library, left(before, session, refusal), "what {refusal:?} leaves");
    }
    previewed
}

// What a refused commit leaves: all as it was. Of 8 alone the session's number, bytes 2 and 3 of its 80, is commits then (02's S-3).
fn left(before: Library, session: u32, refusal: Refusal) -> Library {
    let mut parts = before.into_parts();
    if refusal == Refusal::WrongState {
        let number = sizes::CART * (session as usize - 1) + 2;
        let commits = u16::try_from(parts.control.commits).expect("at most 65,535 commits");
        parts.sessions[number..number + 2].copy_from_slice(&commits.to_le_bytes());
    }
    Library::from_parts(parts).expect("memory of the layout")
}

pub fn bytes_of(operations: &[Operation]) -> Vec<u8> {
    operations.iter().flat_map(Operation::to_bytes).collect()
}
