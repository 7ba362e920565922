//! Load, of request S-8: whether every copy is what the log makes, and whether every
//! logged operation met its cart. Each library is made again, from the sixth copy (S-9).

use crate::calls::Ended;
use crate::cart::Copy;
use crate::control::Outcome;
use crate::operation::{Operation, act_all};
use crate::system::System;

/// S-8: "a copy differs from its L, or a logged operation met its cart in the wrong
/// state". Studios above S are not in the system.
pub fn load(system: &System) -> Ended {
    let commits = system.commits();
    let head_end_differs = system.head_end != library(system, commits);
    let studio_differs = system.studios.iter().any(|studio| studio.copy != library(system, studio.applied));
    if head_end_differs || studio_differs || !all_met(&system.sixth, &logged(system, commits)) {
        return Err(19);
    }
    Ok(Outcome::Done(commits))
}

/// L(n), which S-9 has worked out "from the sixth" copy. It is the sixth copy itself where
/// n is retired.
fn library(system: &System, n: u32) -> Copy {
    made(&system.sixth, &logged(system, n))
}

/// The operations of the log up to transaction n, which is at least retired.
fn logged(system: &System, n: u32) -> Vec<Operation> {
    let count = usize::try_from(n - system.retired).expect("at most 512");
    let transactions = &system.log.transactions[..count];
    transactions.iter().flat_map(|transaction| transaction.operations.clone()).collect()
}

/// Whether each operation met its cart in what those before it make.
fn all_met(sixth: &Copy, operations: &[Operation]) -> bool {
    (0..operations.len()).all(|place| operations[place].meets(&made(sixth, &operations[..place])))
}

/// What operations make from the sixth copy, one after the other.
fn made(sixth: &Copy, operations: &[Operation]) -> Copy {
    let mut copy = sixth.clone();
    act_all(operations, &mut copy);
    copy
}
