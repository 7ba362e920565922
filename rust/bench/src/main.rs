//! Times the engine against the simulator and against a vectorised floor: `./bench` at the root of the repository builds
//! and runs it. docs/BENCHMARK.md tells what is measured.

mod agree;
mod bars;
mod call;
mod clock;
mod conversions;
mod floor;
mod growth;
mod lanes;
mod measure;
mod memory;
mod plain;
mod scans;
mod search;
mod searches;
mod stages;
mod states;
mod tables;
mod titles;
mod undo;
mod units;
mod van;
mod wall;

use bars::Bars;
use clock::{Entry, Race};
use conversions::Conversions;
use growth::Point;
use measure::{Both, Layout, Measured};
use scans::Scan;
use stages::Stages;
use states::State;
use titles::Row;
use van::Van;
use wall::Wall;

fn rounds() -> u32 {
    match std::env::args().nth(1).map(|word| word.parse()) {
        None => 600,
        Some(Ok(rounds)) => rounds,
        Some(Err(_)) => {
            eprintln!("usage: bench [ROUNDS]");
            std::process::exit(2);
        }
    }
}

/// Everything that is timed, in one race.
struct Entered {
    states: [Measured; 4],
    full: [(&'static str, Layout); 3],
    setup: (Both, Entry),
    stages: Stages,
    growth: [(&'static str, Vec<Point>); 3],
    titles: Vec<Row>,
    van: Van,
    conversions: Conversions,
    scans: Vec<Scan>,
}

impl Entered {
    fn enter(race: &mut Race, states: &[State; 4]) -> Entered {
        let [_, typical, full, _] = states.each_ref().map(|state| &state.wall);
        let layouts = [
            ("full, 512 commits of 1", Wall::full(512, 1)),
            ("full, 64 commits of 8", Wall::full(512, 8)),
            ("full, 64 of 8, shuffled", Wall::full(512, 8).shuffled()),
        ];
        Entered {
            states: states.each_ref().map(|state| Measured::enter(race, state)),
            full: layouts.map(|(name, wall)| (name, Layout::enter(race, &measure::share(&wall)))),
            setup: measure::setup(race, full),
            stages: Stages::enter(race, full),
            growth: [
                ("refresh of 1 operation, by transactions of the log applied before", growth::refresh(race, full)),
                ("commit of 1 operation, by transactions in the log", growth::commit(race)),
                ("read, by numbers asked", growth::numbers(race, full)),
            ],
            titles: titles::enter(race),
            van: Van::enter(race, full),
            conversions: Conversions::enter(race),
            scans: scans::enter(race, typical, full).into_iter().chain(searches::enter(race)).collect(),
        }
    }

    fn print(&self, race: &Race, states: &[State; 4]) {
        let mut bars = Bars::new();
        println!();
        println!("Layout test                   engine   tests/s    floor  x floor  simulator  x engine");
        for (state, measured) in states.iter().zip(&self.states) {
            tables::layout(race, state.name, &measured.layout);
        }
        for (name, layout) in &self.full {
            let ratio = tables::layout(race, name, layout);
            bars.layout.see(ratio, name.to_string());
        }
        for (state, measured) in states.iter().zip(&self.states) {
            tables::calls(race, state, measured, &mut bars);
        }
        tables::setup(race, &self.setup, &mut bars);
        tables::stages(race, &self.stages);
        for (name, points) in &self.growth {
            tables::points(race, name, points);
        }
        tables::titles(race, &self.titles, &mut bars);
        tables::van(race, &self.van, &mut bars);
        tables::conversions(race, &self.conversions, &mut bars);
        tables::scans(race, &self.scans);
        bars.print();
    }
}

fn main() {
    let rounds = rounds();
    let states = [states::empty(), states::typical(), states::full(), states::shuffled()];
    let tried: u32 = states.iter().map(|state| agree::on_layout(&state.wall)).sum();
    println!("Engine and floor agree on the layout of {tried} memories and controls, damaged ones included,");
    println!("and with the simulator on a part of them; engine and simulator agree on every call below.");
    println!("Times are the best of {rounds} batches of about 0.1 ms, in ns, all in turn. State is put back after");
    println!("each accepted call; the time of that is measured apart and subtracted.");
    let mut race = Race::default();
    let entered = Entered::enter(&mut race, &states);
    race.run(rounds);
    entered.print(&race, &states);
}
