//! What is played on: the simulator, the linked engine, or a wrong one.

use crate::call::Call;
use crate::conversion::Conversion;
use crate::delivery::Delivery;
use crate::lent::Lent;
use crate::old::Form;
use crate::sought::Sought;
use simulator::{Answer, Control, Search, VanAnswer};

pub trait Engine {
    /// Plays a call. Its input and output are already lent.
    fn play(&mut self, call: &Call, control: Control, lent: &mut Lent) -> Answer;

    /// Searches a copy for a title.
    fn search(&mut self, sought: &mut Sought) -> Search;

    /// Receives a message in a van.
    fn receive(&mut self, delivery: &mut Delivery) -> VanAnswer;

    /// Converts an old file to a copy, or a copy to an old file.
    fn convert(&mut self, conversion: &mut Conversion) -> Answer;
}

/// Plays a call by one of the two crates that have a function for each.
macro_rules! play {
    ($by:ident, $call:ident, $control:ident, $lent:ident) => {{
        let Lent { library, log, sessions, input, output } = $lent;
        let (library, log, sessions) = (library.lent_mut(), log.lent_mut(), sessions.lent_mut());
        let (input, output) = (input.lent(), output.lent_mut());
        match *$call {
            Call::Setup { studios, .. } => $by::setup(library, log, sessions, studios, input),
            Call::Commit { session, .. } => $by::commit(library, log, sessions, $control, session, input),
            Call::Preview { session, .. } => $by::preview(library, log, sessions, $control, session, input),
            Call::Send { studio } => $by::send(library, log, sessions, $control, studio),
            Call::Refresh { studio } => $by::refresh(library, log, sessions, $control, studio),
            Call::Read { session, .. } => $by::read(library, log, sessions, $control, session, input, output),
            Call::Collect { session, .. } => $by::collect(library, log, sessions, $control, session, output),
            Call::Forward { session, .. } => $by::forward(library, log, sessions, $control, session, input, output),
            Call::VanWrite { number, .. } => $by::van_write(library, log, sessions, $control, number, output),
            Call::Move { session, studio } => $by::move_session(library, log, sessions, $control, session, studio),
            Call::Load => $by::load(library, log, sessions, $control),
            Call::Retire => $by::retire(library, log, sessions, $control),
        }
    }};
}

pub fn simulate(call: &Call, control: Control, lent: &mut Lent) -> Answer {
    play!(simulator, call, control, lent)
}

/// The simulator as an engine.
pub struct Simulated;

impl Engine for Simulated {
    fn play(&mut self, call: &Call, control: Control, lent: &mut Lent) -> Answer {
        simulate(call, control, lent)
    }

    fn search(&mut self, sought: &mut Sought) -> Search {
        sought.simulate()
    }

    fn receive(&mut self, delivery: &mut Delivery) -> VanAnswer {
        delivery.simulate()
    }

    fn convert(&mut self, conversion: &mut Conversion) -> Answer {
        conversion.simulate()
    }
}

/// The engine of libsulyobak.a, and the search of libcarts_c.a.
pub struct Linked;

impl Engine for Linked {
    fn play(&mut self, call: &Call, control: Control, lent: &mut Lent) -> Answer {
        play!(linked, call, control, lent)
    }

    fn search(&mut self, sought: &mut Sought) -> Search {
        linked::carts::search(sought.copy.lent(), sought.title.lent())
    }

    fn receive(&mut self, delivery: &mut Delivery) -> VanAnswer {
        linked::van_receive(delivery.copy.lent_mut(), delivery.applied, delivery.message.lent())
    }

    fn convert(&mut self, conversion: &mut Conversion) -> Answer {
        let Conversion { from, input, output } = conversion;
        match from {
            Form::Old => linked::from_old(input.lent(), output.lent_mut()),
            Form::Ours => linked::to_old(input.lent(), output.lent_mut()),
        }
    }
}
