//! Wrong engines: the simulator with one mistake each. The comparison is
//! worth something only if it catches every one of them.

mod bounds;
mod chains;
mod commits;
mod conversions;
mod forwards;
mod layouts;
mod loads;
mod mistake;
mod moves;
mod previews;
mod raises;
mod reads;
mod receives;
mod records;
mod retires;
mod searches;
mod setups;
mod spaces;
mod studios;
mod taken;
mod van_writes;

use crate::call::Call;
use crate::conversion::Conversion;
use crate::delivery::Delivery;
use crate::engine::Engine;
use crate::lent::Lent;
use crate::sought::Sought;
use mistake::Notes;
pub use mistake::{Alone, Mistake};
use simulator::{Answer, Control, Search, VanAnswer};

pub fn all() -> Vec<Mistake> {
    let groups = [
        commits::MISTAKES,
        taken::MISTAKES,
        previews::MISTAKES,
        spaces::MISTAKES,
        studios::MISTAKES,
        reads::MISTAKES,
        forwards::MISTAKES,
        moves::MISTAKES,
        raises::MISTAKES,
        loads::MISTAKES,
        retires::MISTAKES,
        records::MISTAKES,
        layouts::MISTAKES,
        chains::MISTAKES,
        setups::MISTAKES,
        bounds::MISTAKES,
        searches::MISTAKES,
        van_writes::MISTAKES,
        receives::MISTAKES,
        conversions::MISTAKES,
    ];
    groups.concat()
}

pub struct Wrong {
    mistake: Mistake,
    notes: Notes,
}

impl Wrong {
    pub fn new(mistake: &Mistake) -> Wrong {
        Wrong { mistake: *mistake, notes: Notes::default() }
    }
}

impl Engine for Wrong {
    fn play(&mut self, call: &Call, control: Control, lent: &mut Lent) -> Answer {
        (self.mistake.play)(&mut self.notes, call, control, lent)
    }

    fn search(&mut self, sought: &mut Sought) -> Search {
        (self.mistake.search)(sought)
    }

    fn receive(&mut self, delivery: &mut Delivery) -> VanAnswer {
        (self.mistake.receive)(delivery)
    }

    fn convert(&mut self, conversion: &mut Conversion) -> Answer {
        (self.mistake.convert)(conversion)
    }
}
