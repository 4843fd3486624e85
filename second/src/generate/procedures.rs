//! Tables of procedures with evidence (request [3]), made one after the other: each may call those before it.

use super::derive::Maker;
use super::parts::{self, Callable, Pool};
use super::prng::Prng;
use crate::layout::syntax::*;
use crate::layout::words::MOST_PROCEDURES;
use crate::naive::modified::{modified_by, used_by};

/// A table of one to sixteen procedures, mostly few; the pool then has them to call. Some of the slips may be used.
pub fn table(rng: &mut Prng, pool: &mut Pool, slips: &mut usize) -> Option<Vec<Procedure>> {
    let count = if rng.once_in(12) { MOST_PROCEDURES as usize } else { 1 + rng.below(3) };
    let mut procedures = Vec::new();
    for _ in 0..count {
        let procedure = (0..6).find_map(|_| procedure(rng, pool, &procedures, slips))?;
        add(pool, &mut procedures, procedure);
    }
    Some(procedures)
}

/// The procedure becomes the last of the table, and callable.
pub fn add(pool: &mut Pool, procedures: &mut Vec<Procedure>, procedure: Procedure) {
    let modified = modified_by(&procedure.command, procedures);
    pool.callable.push(Callable { number: procedures.len() as u32, modified });
    procedures.push(procedure);
}

/// A procedure without a contract: empty sets, and rule 10.
pub fn without_contract(command: Command) -> Procedure {
    Procedure { command, pre: Set::new(), post: Set::new(), evidence: *flow_of(FlowRule::F10) }
}

fn procedure(rng: &mut Prng, pool: &Pool, procedures: &[Procedure], slips: &mut usize) -> Option<Procedure> {
    let size = rng.below(3);
    let command = parts::random_command(rng, pool, size, &[]);
    let post = if rng.once_in(2) { all_used(&command, procedures) } else { parts::set(rng, pool) };
    let mut maker = Maker { rng, pool: pool.clone(), procedures, fuel: 150, slips: *slips };
    let (pre, evidence) = maker.flow(&command, &post, 2)?;
    *slips = maker.slips;
    Some(Procedure { command, pre, post, evidence: *evidence })
}

/// true ⇒ each identifier that a command uses: a contract that callers can do much with.
fn all_used(command: &Command, procedures: &[Procedure]) -> Set {
    let used = used_by(command, procedures);
    let scalars = used.all_scalars().into_iter().map(|x| member(always(), Arith::Scalar(x)));
    let arrays = used.all_arrays().into_iter().map(|h| member(always(), Array::Identifier(h)));
    scalars.chain(arrays).collect()
}
