//! Compares an engine with the simulator by another hand. See README.md.

mod arguments;
mod asides;
mod boundaries;
mod call;
mod chains;
mod chaos;
mod conversion;
mod conversion_sweep;
mod conversions;
mod converted;
mod coverage;
mod damage;
mod delivery;
mod differ;
mod direct;
mod engine;
mod faults;
mod forwards;
mod guided;
mod kept;
mod keys;
mod left;
mod lent;
mod letters;
mod lists;
mod loads;
mod log;
mod made;
mod make;
mod message;
mod moves;
mod old;
mod older;
mod one_copy;
mod options;
mod places;
mod played;
mod player;
mod random;
mod receives;
mod report;
mod required;
mod retires;
mod rows;
mod run;
mod runs;
mod searches;
mod self_check;
mod single;
mod sought;
mod spaces;
mod sweep;
mod taken;
mod tears;
mod told;
mod torn;
mod unmoved;
mod van_sweep;
mod van_writes;
mod vans;
mod walks;
mod wall;
mod watch;
mod written;
mod wrong;

use engine::{Engine, Linked, Simulated};
use options::{Mode, Options};
use std::process::ExitCode;

/// Makes an engine for one thread.
type Make = fn() -> Box<dyn Engine>;

fn main() -> ExitCode {
    let options = match options::parse(std::env::args().skip(1)) {
        Ok(options) => options,
        Err(words) => {
            eprintln!("{words}\n{}", options::USAGE);
            return ExitCode::from(2);
        }
    };
    if options.mode == Mode::SelfCheck {
        return exit(self_check::run() == 0);
    }
    watch::start(options.trace, options.trace && matches!(options.mode, Mode::List(_)));
    let make: Make = if options.simulator { || Box::new(Simulated) } else { || Box::new(Linked) };
    match options.mode {
        Mode::List(seed) => exit(one_list(make, seed)),
        _ => exit(compare(make, &options)),
    }
}

fn exit(passed: bool) -> ExitCode {
    if passed { ExitCode::SUCCESS } else { ExitCode::FAILURE }
}

fn one_list(make: Make, seed: u64) -> bool {
    match run::play_lists(&mut *make(), (seed, 1), 1) {
        Ok((coverage, calls)) => {
            println!("list {seed} ({}): {}, no mismatch", lists::kind(seed), report::counts(&coverage, calls))
        }
        Err(found) => {
            run::print_mismatch(&found);
            return false;
        }
    }
    true
}

fn compare(make: Make, options: &Options) -> bool {
    match run::play_on_threads(make, options.seed, options.calls, options.threads) {
        Ok((coverage, calls)) => {
            let missing = report::print(&coverage);
            println!("{} compared, no mismatch", report::counts(&coverage, calls));
            missing == 0
        }
        Err(found) => {
            run::print_mismatch(&found);
            false
        }
    }
}
