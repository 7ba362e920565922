//! The bars: ratios that the engine must not pass, and whether it does.

use crate::states::{FULL, Kind};

pub struct Bar {
    what: &'static str,
    most: f64,
    /// The one state that it covers; without a name, every state.
    only: Option<&'static str>,
    /// The worst ratio seen, and where.
    worst: f64,
    at: String,
}

impl Bar {
    fn new(what: &'static str, most: f64) -> Bar {
        Bar { what, most, only: None, worst: 0.0, at: String::new() }
    }

    fn only_on(self, state: &'static str) -> Bar {
        Bar { only: Some(state), ..self }
    }

    fn covers(&self, state: &str) -> bool {
        self.only.is_none_or(|only| only == state)
    }

    pub fn see(&mut self, ratio: f64, at: String) {
        if ratio > self.worst {
            self.worst = ratio;
            self.at = at;
        }
    }

    fn print(&self) {
        let verdict = if self.worst <= self.most { "met" } else { "MISSED" };
        let Bar { what, most, worst, at, .. } = self;
        println!("  {verdict:<7} {worst:>5.2}  at most {most:.1}  {what} ({at})");
    }
}

pub struct Bars {
    pub layout: Bar,
    calls: [(Kind, Bar); 9],
    pub setup: Bar,
    pub van_write: Bar,
    pub van_receive: Bar,
    pub from_old: Bar,
    pub to_old: Bar,
}

impl Bars {
    pub fn new() -> Bars {
        Bars {
            layout: Bar::new("layout test / floor, full memory", 1.5),
            calls: [
                (Kind::Other, Bar::new("send, read, collect / layout test", 1.1)),
                (Kind::Write, Bar::new("commit, refresh / layout test", 1.3)),
                (Kind::Preview, Bar::new("preview / layout test, full memory", 1.1).only_on(FULL)),
                (Kind::Title, Bar::new("read, collect by title / layout test", 1.3)),
                (Kind::Forward, Bar::new("forward by numbers / layout test", 1.1)),
                (Kind::ForwardTitle, Bar::new("forward by title / layout test", 1.3)),
                (Kind::Move, Bar::new("move / layout test", 1.1)),
                (Kind::Load, Bar::new("load / layout test, full memory", 3.0).only_on(FULL)),
                (Kind::Retire, Bar::new("retire / layout test", 1.3)),
            ],
            setup: Bar::new("setup / memset of 103,680 bytes and 512 links", 1.5),
            van_write: Bar::new("van_write / layout test, full memory", 1.4),
            van_receive: Bar::new("van_receive of 8 operations / form test of its copy", 1.5),
            from_old: Bar::new("from_old / form test of its copy", 3.0),
            to_old: Bar::new("to_old / form test of its copy", 3.0),
        }
    }

    /// A call's ratio on a state, for the bars of its kind that cover the state.
    pub fn see(&mut self, kind: Kind, state: &str, ratio: f64, at: &str) {
        for (_, bar) in self.calls.iter_mut().filter(|(its_kind, bar)| *its_kind == kind && bar.covers(state)) {
            bar.see(ratio, format!("{at}; {state}"));
        }
    }

    pub fn print(&self) {
        println!("\nBars");
        self.layout.print();
        for (_, bar) in &self.calls {
            bar.print();
        }
        for bar in [&self.setup, &self.van_write, &self.van_receive, &self.from_old, &self.to_old] {
            bar.print();
        }
    }
}
