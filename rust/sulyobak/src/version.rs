use crate::answer::Refusal;
use std::sync::OnceLock;
use sulyobak_sys::VERSION;

// Whether the linked engine is of this crate's version. It is asked once.
pub(crate) fn check() -> Result<(), Refusal> {
    static LINKED: OnceLock<u32> = OnceLock::new();
    // SAFETY: the function takes nothing and touches no memory.
    compare(*LINKED.get_or_init(|| unsafe { sulyobak_sys::sulyobak_version() }))
}

fn compare(linked: u32) -> Result<(), Refusal> {
    if linked == VERSION {
        Ok(())
    } else {
        Err(Refusal::Version(linked))
    }
}

#[cfg(test)]
mod tests {
    use super::{check, compare, VERSION};

    #[test]
    fn another_version_is_told() {
        assert_eq!(check(), Ok(()));
        let error = compare(VERSION + 1).unwrap_err();
        assert_eq!(error.to_string(), "the linked libsulyobak.a is of another version than this crate: 10, not 9");
    }
}
