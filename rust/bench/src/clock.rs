//! Times: the best of many short batches. All that is timed runs in turn, so that a slow stretch of the machine falls on all.

use std::time::Instant;

struct Timed {
    run: Box<dyn FnMut()>,
    times: u32,
    best: f64,
}

impl Timed {
    /// The first run is not counted: it brings memory into the cache.
    fn batch(&mut self) {
        (self.run)();
        let began = Instant::now();
        for _ in 0..self.times {
            (self.run)();
        }
        let each = began.elapsed().as_secs_f64() * 1e9 / f64::from(self.times);
        self.best = self.best.min(each);
    }
}

/// One of those that run in a race.
#[derive(Clone, Copy)]
pub struct Entry(usize);

#[derive(Default)]
pub struct Race {
    all: Vec<Timed>,
}

/// A batch lasts about this long, in nanoseconds: short enough to fall between two interruptions.
const BATCH: f64 = 100_000.0;

impl Race {
    pub fn add(&mut self, run: impl FnMut() + 'static) -> Entry {
        self.all.push(Timed { run: Box::new(run), times: 1, best: f64::MAX });
        Entry(self.all.len() - 1)
    }

    pub fn run(&mut self, rounds: u32) {
        for timed in &mut self.all {
            for _ in 0..3 {
                timed.batch();
            }
            timed.times = (BATCH / timed.best).clamp(1.0, 10_000.0) as u32;
            timed.best = f64::MAX; // a batch of one is mostly the clock's own time
        }
        for _ in 0..rounds.max(1) {
            for timed in &mut self.all {
                timed.batch();
            }
        }
    }

    /// The best time of one run, in nanoseconds.
    pub fn best(&self, entry: Entry) -> f64 {
        self.all[entry.0].best
    }
}
