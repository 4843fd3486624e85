//! Files of any size that make a straightforward checker slow, all of them accepted: how the cost of a check grows. Each kind
//! has a parameter that its size and its cost grow with.

use crate::layout::syntax::*;
use crate::layout::words::{bytes_of, take_apart, words_of, MOST_PROCEDURES};
use crate::layout::write::{self, file_words, file_words_with};

/// A kind of files: its name, what it tries, and the file of a parameter.
pub struct Kind {
    pub name: &'static str,
    pub tries: &'static str,
    pub(super) make: fn(u32) -> Vec<u32>,
    pub(super) most: u32,
}

pub const KINDS: [Kind; 11] = [
    Kind { name: "shared", tries: "an antecedent judged at every leaf of a tree of ifs", make: shared, most: 1_000 },
    Kind { name: "members", tries: "a set whose antecedents each imply false", make: members, most: 64 },
    Kind { name: "chain", tries: "a chain of implications", make: chain, most: 115 },
    Kind { name: "sets", tries: "a set and its reverse compared at every while of a nest", make: sets, most: 64 },
    Kind { name: "modified", tries: "what a long command modifies, asked at every leaf", make: modified, most: 2_000 },
    Kind { name: "replace", tries: "a long right side put into every member", make: replace, most: 64 },
    Kind { name: "deep", tries: "expressions as deep as may be", make: deep, most: 64 },
    Kind { name: "calls", tries: "what 16 procedures modify that each call the one below twice, asked at every leaf", make: calls, most: 2_000 },
    Kind { name: "plain", tries: "an assertion among trues, compared at every leaf of a tree of ifs", make: plain, most: 1_000 },
    Kind { name: "plain-sets", tries: "a set and its reverse, each antecedent in a chain of trues", make: plain_sets, most: 64 },
    Kind { name: "chains", tries: "antecedents each in a chain of trues of its own", make: chains, most: 1_000 },
];

impl Kind {
    /// The largest file of this kind with at most so many words.
    pub fn file(&self, words: usize) -> Vec<u8> {
        let fits = |n: u32| (self.make)(n).len() <= words;
        let (mut low, mut high) = (1, self.most);
        while low < high {
            let middle = (low + high).div_ceil(2);
            if fits(middle) {
                low = middle;
            } else {
                high = middle - 1;
            }
        }
        bytes_of(&(self.make)(low))
    }
}

/// Request [5]: a file that is read, with `assert true` for each assignment of two words. Its size and its evidence stay.
pub fn without_assignments(bytes: &[u8]) -> Vec<u8> {
    let mut words = words_of(bytes).expect("a file");
    let mut new = Vec::new();
    write::command(&command(Form::Assert(always())), &mut new);
    for place in 1..words.len() {
        let [kind, right] = [place - 1, place].map(|at| take_apart(at, words[at]).kind);
        // x := n, x := y, h := g, h := zero everywhere
        if matches!((kind, right), (27, 1 | 2) | (28, 16 | 17)) {
            words[place - 1..=place].copy_from_slice(&new);
        }
    }
    bytes_of(&words)
}

pub(super) fn number(n: u32) -> Arith {
    Arith::Constant(i64::from(n))
}

/// A balanced tree over leaves from..to.
pub(super) fn tree<T>(from: u32, to: u32, leaf: &dyn Fn(u32) -> T, join: &dyn Fn(T, T) -> T) -> T {
    if to - from <= 1 {
        return leaf(from);
    }
    let middle = (from + to) / 2;
    join(tree(from, middle, leaf, join), tree(middle, to, leaf, join))
}

/// The comparisons of the document's most in an implication.
const TEN: u32 = 10;

/// Never true: ors of c ∧ ¬c, over so many comparisons c.
pub(super) fn never(comparisons: u32, pairs: u32) -> Bool {
    let pair = |i: u32| {
        let c = compare(Comparison::Less, Arith::Scalar(0), number(i % comparisons));
        and(c.clone(), not(c))
    };
    tree(0, pairs, &pair, &or)
}

/// x + (x + (.. + n)), of 2 × length + 1 words.
pub(super) fn sum(length: u32, n: u32) -> Arith {
    (0..length).fold(number(n), |e, _| operate(Operator::Plus, Arith::Scalar(0), e))
}

/// Half of the file is the antecedent, half are ifs.
fn shared(ifs: u32) -> Vec<u32> {
    shared_by(never(TEN, 2 * ifs), ifs)
}

/// An antecedent that is never true; rules 7, 6 and 15 at an if, 8, 10 and 14 at a leaf.
pub(super) fn shared_by(phi: Bool, ifs: u32) -> Vec<u32> {
    let nothing = |_| skip();
    let choose = |a, b| if_else(always(), a, b);
    let leaf = |_| {
        let set = implication_of(ImplicationRule::S14);
        *flow_of(FlowRule::F8 { m: Set::new(), flow: flow_of(FlowRule::F10), set })
    };
    let node = |a, b| {
        let (then, otherwise) = (Box::new(a), Box::new(b));
        let (s, t, phi0, before) = (Set::new(), Set::new(), always(), before_of(BeforeRule::B29));
        let rule = FlowRule::F6 { s, t, phi0, then, otherwise, before };
        let test = Member { phi: always(), e: Expression::Bool(always()) };
        *flow_of(FlowRule::F7 { m: vec![test], set: implication_of(ImplicationRule::S15), flow: flow_of(rule) })
    };
    let c = tree(0, ifs + 1, &nothing, &choose);
    let evidence = tree(0, ifs + 1, &leaf, &node);
    file_words(&c, &[], &[member(phi, Arith::Scalar(0))], &evidence)
}

fn members(count: u32) -> Vec<u32> {
    members_of(count, &never(TEN, 14))
}

/// Rule 14: each antecedent implies false.
pub(super) fn members_of(count: u32, phi: &Bool) -> Vec<u32> {
    let post: Set = (0..count).map(|_| member(phi.clone(), Arith::Scalar(0))).collect();
    let set = implication_of(ImplicationRule::S14);
    let evidence = flow_of(FlowRule::F8 { m: Set::new(), flow: flow_of(FlowRule::F10), set });
    file_words(&skip(), &[], &post, &evidence)
}

fn chain(length: u32) -> Vec<u32> {
    chain_of(length, &or(never(TEN, 7), always()))
}

/// Rule 28, again and again, then 29.
pub(super) fn chain_of(length: u32, phi1: &Bool) -> Vec<u32> {
    let mut evidence = before_of(BeforeRule::B28 { phi1: always(), inner: before_of(BeforeRule::B29) });
    for _ in 0..length {
        evidence = before_of(BeforeRule::B28 { phi1: phi1.clone(), inner: evidence });
    }
    let set = [member(always(), number(5))];
    file_words(&skip(), &set, &set, &flow_of(FlowRule::F11 { before: evidence }))
}

fn sets(count: u32) -> Vec<u32> {
    sets_of(count, 28, 120)
}

/// Rule 13 of flow at each while of a nest: P has the members of Q, each a sum of this length, in reverse.
pub(super) fn sets_of(count: u32, length: u32, whiles: u32) -> Vec<u32> {
    let mut p: Set = (1..count).map(|n| member(always(), sum(length, n))).collect();
    p.push(Member { phi: always(), e: Expression::Bool(always()) });
    let q: Set = p.iter().rev().cloned().collect();
    let mut c = skip();
    let mut evidence = flow_of(FlowRule::F1);
    for _ in 0..whiles {
        c = command(Form::While(always(), Box::new(c)));
        evidence = flow_of(FlowRule::F13 { body: evidence });
    }
    file_words(&c, &p, &q, &evidence)
}

/// Rule 9 over the whole command, down to rule 10.
fn modified(leaves: u32) -> Vec<u32> {
    let assign = |_| command(Form::AssignScalar(1, Arith::Scalar(2)));
    let set = vec![member(always(), Arith::Scalar(0))];
    let leaf = |_| *flow_of(FlowRule::F10);
    let node = |a, b| {
        let (s, s2, t, t2) = (set.clone(), set.clone(), set.clone(), set.clone());
        *flow_of(FlowRule::F9 { s, s2, t, t2, first: Box::new(a), second: Box::new(b) })
    };
    let c = tree(0, 3 * leaves, &assign, &sequence);
    file_words(&c, &set, &set, &tree(0, leaves, &leaf, &node))
}

fn replace(count: u32) -> Vec<u32> {
    replace_by(count, sum(56, 3))
}

/// Rule 3: P has what Q's members become, in reverse.
pub(super) fn replace_by(count: u32, right: Arith) -> Vec<u32> {
    let with = |e: Arith, n| member(always(), operate(Operator::Plus, e, number(n)));
    let p: Set = (0..count).rev().map(|n| with(right.clone(), n)).collect();
    let q: Set = (0..count).map(|n| with(Arith::Scalar(1), n)).collect();
    file_words(&command(Form::AssignScalar(1, right)), &p, &q, &flow_of(FlowRule::F3))
}

fn deep(count: u32) -> Vec<u32> {
    deep_to(128, count)
}

/// Rule 1: members of this depth in both parts.
pub(super) fn deep_to(depth: u32, count: u32) -> Vec<u32> {
    let nots = (0..depth - 2).fold(always(), |e, _| not(e));
    let one = Member { phi: nots.clone(), e: Expression::Bool(nots) };
    let set: Set = (0..count).map(|_| one.clone()).collect();
    file_words(&skip(), &set, &set, &flow_of(FlowRule::F1))
}

/// The nest by rules 2 and 31; over a call of its last procedure rule 9, down to rule 10.
fn calls(leaves: u32) -> Vec<u32> {
    let set = vec![member(always(), Arith::Scalar(0))];
    let leaf = |_| *flow_of(FlowRule::F10);
    let node = |a, b| {
        let (s, s2, t, t2) = (set.clone(), set.clone(), set.clone(), set.clone());
        *flow_of(FlowRule::F9 { s, s2, t, t2, first: Box::new(a), second: Box::new(b) })
    };
    let procedures = nest_of_calls(&set);
    let last = procedures.len() as u32 - 1;
    file_words_with(&procedures, &call(last), &set, &set, &tree(0, leaves, &leaf, &node))
}

/// Sixteen procedures that keep a set: the first assigns a scalar that is not in it, each other calls the one below twice.
fn nest_of_calls(set: &Set) -> Vec<Procedure> {
    let body = |p: u32| match p {
        0 => command(Form::AssignScalar(1, Arith::Scalar(2))),
        _ => sequence(call(p - 1), call(p - 1)),
    };
    let evidence = |p: u32| match p {
        0 => *flow_of(FlowRule::F10),
        _ => *flow_of(FlowRule::F2 { m: set.clone(), first: flow_of(FlowRule::F31), second: flow_of(FlowRule::F31) }),
    };
    let one = |p: u32| Procedure { command: body(p), pre: set.clone(), post: set.clone(), evidence: evidence(p) };
    (0..MOST_PROCEDURES).map(one).collect()
}

/// `true ∧ (true ∧ ..)` around a boolean, or `(.. ∧ true) ∧ true`.
fn chain_of_trues(length: u32, b: Bool, right: bool) -> Bool {
    (0..length).fold(b, |b, _| if right { and(always(), b) } else { and(b, always()) })
}

/// The boolean in the middle of so many chains of 40 trues, nested to the right and to the left by turns.
fn among_trues(chains: u32, b: &Bool) -> Bool {
    let leaf = |i: u32| if i == chains / 2 { b.clone() } else { chain_of_trues(39, always(), i % 2 == 0) };
    tree(0, chains + 1, &leaf, &and)
}

/// Request [2]. About half of the file is the assertion φ' among trues, half are ifs with test true: rules 28 and 20 at an if, where φ
/// is tidied, and rules 28 and 22 at a leaf, where φ is the assertion alone.
fn plain(ifs: u32) -> Vec<u32> {
    let alone = compare(Comparison::Less, Arith::Scalar(0), number(1));
    let leaf = |_| *before_of(BeforeRule::B28 { phi1: alone.clone(), inner: before_of(BeforeRule::B22) });
    let node = |a, b| {
        let (then, otherwise) = (Box::new(a), Box::new(b));
        let inner = before_of(BeforeRule::B20 { phi1: always(), phi2: always(), then, otherwise });
        *before_of(BeforeRule::B28 { phi1: or(always(), not(always())), inner })
    };
    let c = tree(0, ifs + 1, &|_| skip(), &|a, b| if_else(always(), a, b));
    let before = Box::new(tree(0, ifs + 1, &leaf, &node));
    let set = |phi: Bool| vec![member(phi, Arith::Scalar(1))];
    let q = set(among_trues(ifs.div_ceil(5), &alone));
    file_words(&c, &set(always()), &q, &flow_of(FlowRule::F11 { before }))
}

/// Request [2], rule 1: the antecedents alone tell the members apart, each in a chain of trues; P is the reverse of Q, nested to the other
/// side.
fn plain_sets(count: u32) -> Vec<u32> {
    plain_sets_of(count, 29)
}

/// The same with chains of this length.
pub(super) fn plain_sets_of(count: u32, length: u32) -> Vec<u32> {
    let one = |n: u32, right| {
        let phi = compare(Comparison::Less, Arith::Scalar(0), number(n));
        member(chain_of_trues(length, phi, right), Arith::Scalar(1))
    };
    let p: Set = (0..count).rev().map(|n| one(n, n % 2 == 0)).collect();
    let q: Set = (0..count).map(|n| one(n, n % 2 == 1)).collect();
    file_words(&skip(), &p, &q, &flow_of(FlowRule::F1))
}

/// Request [2], rules 2 and 1: each antecedent is one boolean in a chain of trues of its own, nested to the right, to the left or by turns.
fn chains(steps: u32) -> Vec<u32> {
    let set = |i: u32| {
        let phi = compare(Comparison::Less, Arith::Scalar(0), number(1));
        let chain = (0..80 - 2 * (i % 7)).fold(phi, |b, n| chain_of_trues(1, b, (i + n * (i % 3)) % 2 == 0));
        vec![member(chain, Arith::Scalar(1))]
    };
    let c = tree(0, steps, &|_| skip(), &sequence);
    file_words(&c, &set(0), &set(steps), &from_set_to_set(0, steps, &set))
}

/// Evidence that goes from a set to another by the sets between them, over so many skips.
fn from_set_to_set(from: u32, to: u32, set: &dyn Fn(u32) -> Set) -> Box<Flow> {
    if to - from <= 1 {
        return flow_of(FlowRule::F1);
    }
    let middle = (from + to) / 2;
    let (first, second) = (from_set_to_set(from, middle, set), from_set_to_set(middle, to, set));
    flow_of(FlowRule::F2 { m: set(middle), first, second })
}

/// Files that take much stack: evidence as deep as may be, and under it a rule that walks an expression as deep as may be.
pub fn deepest() -> Vec<Vec<u8>> {
    deepest_to(128)
}

/// The same where this is the most depth.
pub fn deepest_to(depth: u32) -> Vec<Vec<u8>> {
    let most = depth - 3;
    let nots = (0..most).fold(Bool::Truth(true), |e, _| not(e));
    let left = (0..most).fold(always(), |e, _| and(e, always()));
    let right = (0..most).fold(always(), |e, _| or(always(), e));
    let mut files: Vec<Vec<u8>> = [&nots, &left, &right].map(|phi| implied_below(depth, phi)).into();
    let x = || Arith::Scalar(1);
    let plus_left = (0..most).fold(x(), |e, _| operate(Operator::Plus, e, x()));
    let plus_right = (0..most).fold(x(), |e, _| operate(Operator::Plus, x(), e));
    let update = |e: Array| Array::Update(Box::new(e), Box::new(x()), Box::new(x()));
    let updates = (0..most).fold(Array::Identifier(0), |e, _| update(e));
    let select = |e: Arith| Arith::Select(Box::new(Array::Identifier(0)), Box::new(e));
    let selects = (0..most).fold(x(), |e, _| select(e));
    files.extend([plus_left, plus_right, selects].map(|e| replaced_below(depth, Expression::Arith(e))));
    files.push(replaced_below(depth, Expression::Array(updates)));
    files.extend([nots, left, right].map(|e| replaced_below(depth, Expression::Bool(e))));
    let never = || Bool::Truth(false);
    let ways: [fn(Bool, Bool) -> Bool; 5] = [|e, _| not(e), or, |e, f| or(f, e), and, |e, f| and(f, e)];
    for way in ways {
        let deep = |last| (0..most).fold(last, |e, _| way(e, never()));
        files.push(compared_below(depth, deep(and(always(), never())), deep(never())));
    }
    files
}

/// Rule 13 of flow again and again, then rule 1: antecedents that are equal once a "true and" is dropped below.
fn compared_below(depth: u32, phi: Bool, psi: Bool) -> Vec<u8> {
    let test = Member { phi: always(), e: Expression::Bool(always()) };
    let [p, q] = [phi, psi].map(|phi| [test.clone(), member(phi, number(5))]);
    let mut c = skip();
    let mut evidence = flow_of(FlowRule::F1);
    for _ in 0..depth - 3 {
        c = command(Form::While(always(), Box::new(c)));
        evidence = flow_of(FlowRule::F13 { body: evidence });
    }
    bytes_of(&file_words(&c, &p, &q, &evidence))
}

/// Rule 28 again and again, then rule 21, whose condition has the antecedent of Q.
fn implied_below(depth: u32, phi: &Bool) -> Vec<u8> {
    let mut evidence = before_of(BeforeRule::B21 { phi0: always(), body: before_of(BeforeRule::B22) });
    for _ in 0..depth - 8 {
        evidence = before_of(BeforeRule::B28 { phi1: always(), inner: evidence });
    }
    let c = command(Form::While(Bool::Truth(false), Box::new(skip())));
    let p = [member(always(), number(5))];
    let q = [member(phi.clone(), number(5))];
    bytes_of(&file_words(&c, &p, &q, &flow_of(FlowRule::F11 { before: evidence })))
}

/// Rule 13 of flow again and again, then rule 3 for x := x.
fn replaced_below(depth: u32, e: Expression) -> Vec<u8> {
    let test = Member { phi: always(), e: Expression::Bool(always()) };
    let set = [test, Member { phi: always(), e }];
    let mut c = command(Form::AssignScalar(1, Arith::Scalar(1)));
    let mut evidence = flow_of(FlowRule::F3);
    for _ in 0..depth - 3 {
        c = command(Form::While(always(), Box::new(c)));
        evidence = flow_of(FlowRule::F13 { body: evidence });
    }
    bytes_of(&file_words(&c, &set, &set, &evidence))
}
