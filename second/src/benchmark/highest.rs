//! Files that make a straightforward checker slow under the highest settings of request [6], all of them accepted there: implications over 16
//! comparisons, depth 256, sets of 128 members.

use super::worst::*;
use crate::layout::settings::HIGHEST;
use crate::layout::syntax::*;
use crate::layout::words::{bytes_of, take_apart, words_of};

const SHARED: Kind =
    Kind { name: "shared-16", tries: "an antecedent over 16 comparisons judged at every leaf of a tree of ifs", make: shared, most: 1_000 };
const FALSES: Kind = Kind { name: "falses-16", tries: "the same, with falses for most of the antecedent", make: shared_falses, most: 1_000 };
const MEMBERS: Kind =
    Kind { name: "members-16", tries: "a set whose antecedents, each over 16 comparisons, imply false", make: members, most: 128 };
const CHAIN: Kind = Kind { name: "chain-16", tries: "a chain of implications over 16 comparisons", make: chain, most: 250 };

/// As the kinds of `worst`, for the highest settings.
pub const KINDS: [Kind; 8] = [
    SHARED,
    FALSES,
    MEMBERS,
    CHAIN,
    Kind { name: "sets-128", tries: "a set of 128 and its reverse compared at every while of a nest", make: sets, most: 128 },
    Kind { name: "replace-128", tries: "a right side put into every member of a set of 128", make: replace, most: 128 },
    Kind { name: "deep-256", tries: "expressions as deep as may be", make: deep, most: 128 },
    Kind { name: "plain-sets-128", tries: "a set of 128 and its reverse, each antecedent in a chain of trues", make: plain_sets, most: 128 },
];

/// Those over 16 comparisons, in nothing else beyond the old settings.
pub const OVER_SIXTEEN: [Kind; 4] = [SHARED, FALSES, Kind { most: 64, ..MEMBERS }, Kind { most: 105, ..CHAIN }];

/// Such a file over 10 comparisons: where one is with a constant from 10, that is 10 less. As many words and as many implications stay.
pub fn over_ten(bytes: &[u8]) -> Vec<u8> {
    let mut words = words_of(bytes).expect("a file");
    for place in 2..words.len() {
        let [compared, left, right] = [place - 2, place - 1, place].map(|at| take_apart(at, words[at]));
        // x < n
        if (compared.kind, left.kind, right.kind) == (8, 2, 1) && right.payload >= 10 {
            words[place] -= 10;
        }
    }
    bytes_of(&words)
}

/// Files of as many words, refused for one implication over 16 comparisons: it fails where none of them holds, which is tried first, or where
/// all of them do, which is tried last.
pub fn failing() -> [Vec<u8>; 2] {
    let none = not(joined(or, Bool::Truth(false)));
    let all = joined(and, not(Bool::Truth(false)));
    [none, all].map(|phi| bytes_of(&members_of(1, &or(phi, falses(1_000)))))
}

/// The files that take much stack.
pub fn deepest() -> Vec<Vec<u8>> {
    deepest_to(HIGHEST.depth as u32)
}

fn sixteen() -> u32 {
    HIGHEST.comparisons as u32
}

fn shared(ifs: u32) -> Vec<u32> {
    shared_by(never(sixteen(), 2 * ifs), ifs)
}

/// So many falses: each word is a step of a truth table.
fn falses(count: u32) -> Bool {
    tree(0, count, &|_| Bool::Truth(false), &or)
}

fn shared_falses(ifs: u32) -> Vec<u32> {
    shared_by(or(joined(and, Bool::Truth(false)), falses(8 * ifs)), ifs)
}

/// 16 comparisons and this, joined in as few words as can be.
fn joined(join: fn(Bool, Bool) -> Bool, last: Bool) -> Bool {
    (0..sixteen()).fold(last, |b, i| join(compare(Comparison::Less, Arith::Scalar(0), number(i)), b))
}

fn members(count: u32) -> Vec<u32> {
    members_of(count, &joined(and, Bool::Truth(false)))
}

fn chain(length: u32) -> Vec<u32> {
    chain_of(length, &joined(or, always()))
}

/// As many whiles as the file has room for beside the two sets.
fn sets(count: u32) -> Vec<u32> {
    sets_of(count, 13, 250)
}

fn replace(count: u32) -> Vec<u32> {
    replace_by(count, sum(27, 3))
}

fn deep(count: u32) -> Vec<u32> {
    deep_to(HIGHEST.depth as u32, count)
}

fn plain_sets(count: u32) -> Vec<u32> {
    plain_sets_of(count, 13)
}
