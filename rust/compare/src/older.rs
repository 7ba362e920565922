//! Memory from before 02's S-2. In a list from a fresh system some titles change places with spaced ones, in every copy,
//! record, request and message alike, and in the history: an engine without row 16 would have left them so.

use crate::lent::Lent;
use crate::make::{Maker, put_title};
use crate::one_copy::History;
use crate::random::Random;
use crate::rows::{title, title_spaced};
use crate::wall::Wall;
use crate::written::Written;
use simulator::{COPY, UNIT};
use std::collections::BTreeMap;

/// The subject under which such lists are counted.
pub const NAME: &str = "list with spaced titles from before S-2";

/// Titles by the ones that they change places with.
struct Exchange(BTreeMap<Vec<u8>, Vec<u8>>);

impl Exchange {
    fn new(random: &mut Random, maker: &Maker) -> Exchange {
        let some: Vec<&Vec<u8>> = maker.titles.iter().filter(|_| random.percent(60)).collect();
        let pairs = some.into_iter().zip(&maker.spaced);
        Exchange(pairs.flat_map(|(one, other)| [(one.clone(), other.clone()), (other.clone(), one.clone())]).collect())
    }

    /// For a cart, a record or an operation.
    fn unit(&self, unit: &mut [u8]) {
        if let Some(other) = self.0.get(title(unit)) {
            put_title(unit, other);
        }
    }

    /// For a request, handed in or stored in a session.
    fn request(&self, request: &mut [u8]) {
        if request[0] == 2 {
            self.unit(request);
        }
    }
}

/// Exchanges titles of a list, and of the messages that it has written; says whether the head end and a studio then have the same cart
/// with a spaced title.
pub fn exchange_titles(random: &mut Random, maker: &Maker, wall: &mut Wall, history: &mut History, written: &mut Written) -> bool {
    let exchange = Exchange::new(random, maker);
    let Lent { library, log, sessions, .. } = &mut wall.played;
    for part in [library, log] {
        part.lent_mut().chunks_exact_mut(UNIT).for_each(|unit| exchange.unit(unit));
    }
    sessions.lent_mut().chunks_exact_mut(UNIT).for_each(|unit| exchange.request(unit));
    // The titles are others, the states that the sessions were shown are not.
    let walks = wall.walks;
    wall.mirror();
    wall.walks = walks;
    history.change(|unit| exchange.unit(unit), |request| exchange.request(request));
    written.change(|unit| exchange.unit(unit));

    let mut copies = wall.played.library.lent().chunks_exact(COPY);
    let head_end = copies.next().unwrap_or_default();
    copies.any(|copy| head_end.chunks_exact(UNIT).zip(copy.chunks_exact(UNIT)).any(|(cart, other)| cart == other && title_spaced(cart)))
}
