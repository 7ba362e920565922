//! Puts lent bytes back after an accepted call: the 80-byte units that the call changed, kept from before it.

use simulator::UNIT;

#[derive(Default)]
pub struct Undo {
    changed: Vec<(usize, usize, [u8; UNIT])>,
}

impl Undo {
    /// Between the parts that were lent, before and after the call.
    pub fn between(before: &[&mut [u8]], after: &[&mut [u8]]) -> Undo {
        let mut undo = Undo::default();
        for (part, (old, new)) in before.iter().zip(after).enumerate() {
            let units = old.as_chunks::<UNIT>().0.iter().zip(new.as_chunks::<UNIT>().0);
            for (place, (old, _)) in units.enumerate().filter(|(_, (old, new))| old != new) {
                undo.changed.push((part, place, *old));
            }
        }
        undo
    }

    pub fn is_needed(&self) -> bool {
        !self.changed.is_empty()
    }

    pub fn run(&self, parts: &mut [&mut [u8]]) {
        for (part, place, unit) in &self.changed {
            parts[*part][UNIT * place..UNIT * (place + 1)].copy_from_slice(unit);
        }
    }
}
