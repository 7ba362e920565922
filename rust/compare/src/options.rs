//! The command line.

pub const USAGE: &str = "compare [--seed N] [--calls N] [--threads N] [--simulator]
compare --gate [--simulator]      fixed seeds, the run of the gate
compare --list SEED [--simulator] one list again
compare --self-check              every wrong engine must be caught
--simulator plays the simulator against itself, without the real engine.
--trace names every list, and with --list every call, search, receive and conversion, before it is played.";

#[derive(Debug, PartialEq, Eq)]
pub enum Mode {
    Run,
    SelfCheck,
    List(u64),
}

#[derive(Debug, PartialEq, Eq)]
pub struct Options {
    pub mode: Mode,
    pub seed: u64,
    pub calls: u64,
    pub threads: u64,
    /// The simulator stands in for the real engine.
    pub simulator: bool,
    /// Lists, or one list's calls, are named before they are played.
    pub trace: bool,
}

pub const GATE_SEED: u64 = 20_240_000;
pub const GATE_CALLS: u64 = 600_000;

pub fn parse(mut words: impl Iterator<Item = String>) -> Result<Options, String> {
    let mut options = Options { mode: Mode::Run, seed: 1, calls: GATE_CALLS, threads: 2, simulator: false, trace: false };
    while let Some(word) = words.next() {
        match word.as_str() {
            "--seed" => options.seed = number(&word, words.next())?,
            "--calls" => options.calls = number(&word, words.next())?,
            "--threads" => options.threads = number(&word, words.next())?.clamp(1, 64),
            "--list" => options.mode = Mode::List(number(&word, words.next())?),
            "--self-check" => options.mode = Mode::SelfCheck,
            "--trace" => options.trace = true,
            "--simulator" => options.simulator = true,
            "--gate" => {
                options.seed = GATE_SEED;
                options.calls = GATE_CALLS;
            }
            _ => return Err(format!("unknown word {word}")),
        }
    }
    Ok(options)
}

fn number(name: &str, word: Option<String>) -> Result<u64, String> {
    word.and_then(|word| word.parse().ok()).ok_or(format!("{name} takes a number"))
}

#[cfg(test)]
mod tests {
    use super::*;

    fn parsed(words: &str) -> Result<Options, String> {
        parse(words.split_whitespace().map(str::to_string))
    }

    #[test]
    fn words_are_taken_apart() {
        let options = parsed("--seed 7 --calls 9").unwrap();
        assert_eq!((options.seed, options.calls, options.mode), (7, 9, Mode::Run));
        assert_eq!(parsed("--list 5").unwrap().mode, Mode::List(5));
        let gate = parsed("--gate").unwrap();
        assert!(gate.seed == GATE_SEED && gate.calls >= 300_000);
        assert!(parsed("--seed").is_err() && parsed("--calls x").is_err() && parsed("x").is_err());
    }
}
