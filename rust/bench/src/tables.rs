//! The tables that are printed.

use crate::bars::{Bar, Bars};
use crate::clock::{Entry, Race};
use crate::conversions::Conversions;
use crate::growth::Point;
use crate::measure::{Both, Layout, Measured};
use crate::scans::Scan;
use crate::stages::Stages;
use crate::states::{FULL, Kind, State};
use crate::titles::Row;
use crate::van::Van;

/// Prints a line, and returns the engine's time as a multiple of the floor's.
pub fn layout(race: &Race, name: &str, layout: &Layout) -> f64 {
    let engine = layout.both.engine.time(race);
    let simulator = layout.both.simulator.time(race);
    let floor = race.best(layout.floor);
    println!(
        "  {name:<26} {engine:>7.0} {:>9.0} {floor:>8.0} {:>8.2} {simulator:>10.0} {:>9.1}",
        1e9 / engine,
        engine / floor,
        simulator / engine
    );
    engine / floor
}

pub fn calls(race: &Race, state: &State, measured: &Measured, bars: &mut Bars) {
    println!("\nCalls, {}: {}", state.name, state.what);
    println!("                            engine   calls/s  x layout  beyond  simulator  x engine");
    let layout = measured.layout.both.engine.time(race);
    for ((name, kind, _), both) in state.calls.iter().zip(&measured.calls) {
        let (engine, simulator) = (both.engine.time(race), both.simulator.time(race));
        println!(
            "  {name:<24} {engine:>7.0} {:>9.0} {:>9.3} {:>7.0} {simulator:>10.0} {:>9.1}",
            1e9 / engine,
            engine / layout,
            engine - layout,
            simulator / engine
        );
        bars.see(*kind, state.name, engine / layout, name);
    }
}

pub fn setup(race: &Race, (setup, clear): &(Both, Entry), bars: &mut Bars) {
    let clear = race.best(*clear);
    let (engine, simulator) = (setup.engine.time(race), setup.simulator.time(race));
    let each = 1e9 / engine;
    println!("\nSetup: engine {engine:.0} ({each:.0} calls/s), simulator {simulator:.0}, memset and links {clear:.0}");
    bars.setup.see(engine / clear, "any memory".to_string());
}

pub fn stages(race: &Race, stages: &Stages) {
    println!("\nWhere the layout test's time goes, full: 504 commits of 1");
    println!("                                                  engine   floor");
    for stage in stages.times(race) {
        let floor = stage.floor.map_or(String::new(), |floor| format!("{floor:.0}"));
        println!("  {:<46} {:>7.0} {floor:>7}", stage.name, stage.engine);
    }
}

/// A point's columns, and its call as a multiple of the test that it is held to.
fn columns(race: &Race, point: &Point) -> (String, f64) {
    let (test, call) = (point.test.time(race), point.call.time(race));
    let ratio = call / test;
    (format!("{:>8} {test:>8.0} {call:>7.0} {:>7.0} {ratio:>9.3}", point.at, call - test), ratio)
}

pub fn points(race: &Race, name: &str, points: &[Point]) {
    println!("\nGrowth, full memory: {name}");
    println!("             layout    call  beyond  x layout");
    for point in points {
        println!("  {}", columns(race, point).0);
    }
}

pub fn titles(race: &Race, rows: &[Row], bars: &mut Bars) {
    println!("\nRead by title, full memory, by the titles of the 128 carts in each copy; letters: as S-5 counts them");
    println!("                                                 found  letters   layout    read  beyond  x layout");
    for Row { name, found, point } in rows {
        let (columns, ratio) = columns(race, point);
        println!("  {name:<46} {found:>5} {columns}");
        bars.see(Kind::Title, FULL, ratio, &format!("read, title: {name}"));
    }
}

pub fn van(race: &Race, van: &Van, bars: &mut Bars) {
    println!("\nVan, full memory: the last transaction's message");
    println!("                                number   layout   write  beyond  x layout");
    held(race, &van.written, &mut bars.van_write);
    println!("\nVan, full copy: a message of 8 operations that is applied");
    println!("                                number  is_copy receive  beyond x is_copy");
    held(race, &van.received, &mut bars.van_receive);
}

pub fn conversions(race: &Race, conversions: &Conversions, bars: &mut Bars) {
    for (title, rows, bar) in [
        ("From an old file to one copy", &conversions.from_old, &mut bars.from_old),
        ("From one copy to an old file", &conversions.to_old, &mut bars.to_old),
    ] {
        println!("\n{title}, by the wall");
        println!("                                  held  is_copy convert  beyond x is_copy");
        held(race, rows, bar);
    }
}

fn held(race: &Race, rows: &[(&str, Point)], bar: &mut Bar) {
    for (name, point) in rows {
        let (columns, ratio) = columns(race, point);
        println!("  {name:<27} {columns}");
        bar.see(ratio, name.to_string());
    }
}

pub fn scans(race: &Race, scans: &[Scan]) {
    println!("\nScans of the lower crate           engine    floor  x floor     Rust   x Rust");
    for scan in scans {
        let [engine, floor, plain] = [scan.engine, scan.floor, scan.plain].map(|entry| race.best(entry));
        println!("  {:<30} {engine:>8.0} {floor:>8.0} {:>8.2} {plain:>8.0} {:>8.2}", scan.name, engine / floor, engine / plain);
    }
}
