//! Request [2] at the limits: chains of "true and" as deep as may be, and antecedents and assertions that are nearly all true, up to
//! the size of a file.

use crate::generate::parts::{self, Pool};
use crate::generate::plain::truths::{chain, nested, with_other};
use crate::generate::prng::Prng;
use crate::layout::settings::Settings;
use crate::layout::syntax::*;
use crate::layout::words::{bytes_of, MOST_BYTES};
use crate::layout::write::file_words;

/// Two antecedents or assertions that differ by true alone, or nearly so.
pub fn chains(rng: &mut Prng, most: Settings) -> Vec<u8> {
    let pool = Pool::new(rng);
    let b = if rng.once_in(3) { always() } else { parts::boolean(rng, &pool, 1) };
    let mut long = match rng.below(3) {
        0 => trues(rng, &b),
        _ => {
            let nested = nested(rng);
            let deep = most.depth as usize - 7;
            let length = if rng.once_in(3) { rng.below(deep - 1) } else { deep + rng.below(6) };
            chain(rng, b.clone(), length, nested)
        }
    };
    if rng.once_in(4) {
        long = with_other(rng, &long);
    }
    let (phi, phi2) = if rng.once_in(2) { (long, b) } else { (b, long) };
    let e = parts::expression(rng, &pool, 1);
    let words = compared(rng, phi, phi2, e);
    if words.len() * 4 > MOST_BYTES {
        return chains(rng, most);
    }
    bytes_of(&words)
}

/// The boolean among up to thousands of trues, not deep.
fn trues(rng: &mut Prng, b: &Bool) -> Bool {
    let mut all = vec![always(); *rng.pick(&[1, 2, 30, 1_000, 2_000, 4_000])];
    let at = rng.below(all.len());
    all[at] = b.clone();
    while all.len() > 1 {
        let pairs = all.chunks(2).map(|pair| match pair {
            [left, right] => and(left.clone(), right.clone()),
            _ => pair[0].clone(),
        });
        all = pairs.collect();
    }
    all.remove(0)
}

/// A file in which the two are compared, by one of the rules for that.
fn compared(rng: &mut Prng, phi: Bool, phi2: Bool, e: Expression) -> Vec<u32> {
    let [p, q] = [&phi, &phi2].map(|phi| vec![Member { phi: phi.clone(), e: e.clone() }]);
    let by_set = |rule| flow_of(FlowRule::F7 { m: q.clone(), set: implication_of(rule), flow: flow_of(FlowRule::F1) });
    let by_before = |rule| flow_of(FlowRule::F11 { before: before_of(rule) });
    let to_true = vec![Member { phi: always(), e: e.clone() }];
    match rng.below(8) {
        0 => file_words(&skip(), &p, &q, &flow_of(FlowRule::F1)),
        1 => file_words(&skip(), &p, &q, &flow_of(FlowRule::F10)),
        2 => file_words(&skip(), &p, &q, &by_set(ImplicationRule::S13)),
        3 => file_words(&skip(), &p, &q, &by_before(BeforeRule::B22)),
        4 => file_words(&skip(), &p, &q, &by_before(BeforeRule::B27)),
        5 => file_words(&skip(), &p, &q, &by_before(BeforeRule::B29)),
        6 => file_words(&command(Form::Assert(phi2)), &p, &to_true, &flow_of(FlowRule::F5)),
        _ => file_words(&command(Form::Assert(phi2)), &p, &to_true, &by_before(BeforeRule::B26)),
    }
}
