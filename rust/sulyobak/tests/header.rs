//! The C headers and this crate say the same: version, sizes, and the sentence of each refusal.
use sulyobak::{sizes, Refusal, VERSION};

const HEADER: &str = include_str!("../../../include/sulyobak.h");
const HELPERS: &str = include_str!("../../../include/sulyobak_util.h");

// The number that the header defines a name as.
fn defined(name: &str) -> usize {
    let found = HEADER.lines().find_map(|line| {
        let mut words = line.split_whitespace();
        let is_it = words.next() == Some("#define") && words.next() == Some(name);
        words.next().filter(|_| is_it)
    });
    found.and_then(|word| word.parse().ok()).unwrap_or_else(|| panic!("the header does not define {name} as a number"))
}

#[test]
fn version_and_sizes() {
    let pairs = [
        ("SULYOBAK_VERSION", VERSION as usize),
        ("SULYOBAK_LIBRARY_SIZE", sizes::LIBRARY),
        ("SULYOBAK_LOG_SIZE", sizes::LOG),
        ("SULYOBAK_SESSIONS_SIZE", sizes::SESSIONS),
        ("SULYOBAK_CART_SIZE", sizes::CART),
        ("SULYOBAK_OPERATION_SIZE", sizes::CART),
        ("SULYOBAK_REQUEST_SIZE", sizes::CART),
        ("SULYOBAK_COPY_SIZE", sizes::COPY),
        ("SULYOBAK_OUTPUT_MOST", sizes::OUTPUT_MOST),
        ("SULYOBAK_MESSAGE_HEAD", sizes::MESSAGE_HEAD),
        ("SULYOBAK_MESSAGE_MOST", sizes::MESSAGE_MOST),
        ("SULYOBAK_OLD_FILE_SIZE", sizes::OLD_FILE),
        ("SULYOBAK_STUDIOS", sizes::STUDIOS),
        ("SULYOBAK_SESSIONS", sizes::SESSION_COUNT),
        ("SULYOBAK_CARTS", sizes::CARTS),
        ("SULYOBAK_TITLE_MOST", sizes::TITLE),
        ("SULYOBAK_OLD_TITLE_MOST", sizes::OLD_TITLE),
        ("SULYOBAK_OPERATIONS", sizes::OPERATIONS),
        ("SULYOBAK_NUMBERS", sizes::NUMBERS),
        ("SULYOBAK_RECORDS", sizes::RECORDS),
        ("SULYOBAK_COMMITS", sizes::COMMITS),
        ("SULYOBAK_WINDOW", sizes::WINDOW),
    ];
    for (name, value) in pairs {
        assert_eq!(defined(name), value, "{name}");
    }
}

#[test]
fn sentences() {
    for number in 1..=21 {
        let sentence = Refusal::from_number(number).sentence();
        assert!(HELPERS.contains(&format!("return \"{sentence}\";")), "{number}: {sentence}");
    }
    for refusal in [Refusal::NotConvertible, Refusal::LongTitle] {
        let sentence = refusal.sentence();
        assert!(HELPERS.contains(&format!("return \"{sentence}\";")), "{refusal:?}: {sentence}");
    }
}
