//! Where the time of the engine's layout test goes. The engine stops at the first part that is not of the layout, having
//! read that part whole; so memory is damaged at the end of each part in turn, and the times are subtracted.

use crate::clock::{Entry, Race};
use crate::floor;
use crate::measure::{self, Timing};
use crate::wall::Wall;
use simulator::{COPY, UNIT};

pub struct Stages {
    ends: Vec<Timing>,
    floors: [Entry; 3],
}

pub struct Stage {
    pub name: &'static str,
    pub engine: f64,
    pub floor: Option<f64>,
}

impl Stages {
    pub fn enter(race: &mut Race, wall: &Wall) -> Stages {
        // Records are taken in order, from the middle of the log on, so the last one used stands before the first free one.
        let first_free = wall.control.free_first as usize - 1;
        let last_free = wall.control.free_last as usize - 1;
        let damages: [&dyn Fn(&mut Wall); 6] = [
            &|wall| wall.control.applied[3] = u32::MAX,
            &|wall| wall.memory.library[6 * COPY - UNIT] = 9,
            &|wall| wall.memory.log[UNIT * (first_free - 1)] = 9,
            &|wall| wall.memory.log[UNIT * last_free] = 9,
            &|wall| wall.memory.sessions[15 * UNIT + 4] = 9,
            &|_| (),
        ];
        let ends = damages.iter().map(|damage| {
            let mut damaged = wall.clone();
            damage(&mut damaged);
            measure::layout(race, &measure::share(&damaged))
        });
        let ends = ends.collect();
        let shared = measure::share(wall);
        let floors = [
            measure::floor(race, |m, c| floor::is_library(&m.library, c), &shared),
            measure::floor(race, |m, c| floor::is_log(&m.log, c), &shared),
            measure::floor(race, |m, c| floor::are_sessions(&m.sessions, c), &shared),
        ];
        Stages { ends, floors }
    }

    pub fn times(&self, race: &Race) -> Vec<Stage> {
        let end = |i: usize| self.ends[i].time(race);
        let between = |from, to| end(to) - end(from);
        let floor = |i: usize| Some(race.best(self.floors[i]));
        let stage = |name, engine, floor| Stage { name, engine, floor };
        vec![
            stage("control with its counts, and the call itself", end(0), None),
            stage("library: 768 carts", between(0, 1), floor(0)),
            stage("log", between(1, 3), floor(1)),
            stage("  of it the chain of 504 transactions", between(1, 2), None),
            stage("  of it the chain of 8 free records", between(2, 3), None),
            stage("sessions", between(3, 4), floor(2)),
            stage("what comes after them", between(4, 5), None),
        ]
    }
}
