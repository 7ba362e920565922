//! A list as it is played: what it begins with, its calls, and what is said of the whole of it.

use crate::call::Call;
use crate::one_copy::History;
use crate::player::{Mismatch, Player};
use crate::unmoved::System;
use crate::wall::Wall;
use simulator::Answer;

pub struct Played {
    pub history: History,
    calls: Vec<Call>,
    start: System,
}

impl Played {
    /// Before the setup that is accepted.
    pub fn fresh() -> Played {
        Played { history: History::new(), calls: Vec::new(), start: System::zeros() }
    }

    /// After the load that is accepted.
    pub fn over(wall: &Wall) -> Played {
        Played { history: History::loaded(&wall.control, &wall.played), calls: Vec::new(), start: System::of(wall) }
    }

    /// The setup with which a fresh system begins.
    pub fn set_up(&mut self, player: &mut Player<'_>, wall: &mut Wall, call: Call) -> Result<(), Mismatch> {
        player.play(wall, &call)?;
        self.calls.push(call);
        Ok(())
    }

    pub fn play(&mut self, player: &mut Player<'_>, wall: &mut Wall, call: Call) -> Result<Answer, Mismatch> {
        let answer = player.play_in(&mut self.history, wall, &call)?;
        self.calls.push(call);
        Ok(answer)
    }

    /// What is said of the whole list.
    pub fn end(&self, player: &mut Player<'_>) -> Result<(), Mismatch> {
        player.check_order(&self.history)?;
        player.check_unmoved(&self.start, &self.calls)
    }
}
