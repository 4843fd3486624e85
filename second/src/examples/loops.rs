//! Certificates with loops, arrays and an assert, good and faulty: the trees from which the texts and files of
//! `examples/` are made.

use super::example::*;
use crate::generate::prove::without_doubles;
use crate::layout::syntax::*;
use crate::naive::replace::{self, Replacement};
use crate::naive::sets::under;
use crate::view::show::Names;

fn x(name: u32) -> Arith {
    Arith::Scalar(name)
}

fn number(value: i64) -> Arith {
    Arith::Constant(value)
}

fn array(name: u32) -> Array {
    Array::Identifier(name)
}

fn select(name: u32, index: Arith) -> Arith {
    Arith::Select(Box::new(array(name)), Box::new(index))
}

/// h[i] := a.
fn put(h: u32, index: Arith, value: Arith) -> Command {
    command(Form::AssignArray(h, Array::Update(Box::new(array(h)), Box::new(index), Box::new(value))))
}

fn plus(a: Arith, b: Arith) -> Arith {
    operate(Operator::Plus, a, b)
}

fn at_most(a: Arith, b: Arith) -> Bool {
    compare(Comparison::LessOrEqual, a, b)
}

/// What rules 3 and 4 ask for before an assignment.
fn before_assignment(c: &Command, q: &Set) -> Set {
    without_doubles(&match &c.form {
        Form::AssignScalar(x, a) => replace::in_set(q, Replacement::Scalar(*x, a)),
        Form::AssignArray(h, a) => replace::in_set(q, Replacement::Array(*h, a)),
        _ => q.clone(),
    })
}

/// What rule 6 asks for before an if, with true for φ0: each set under the test or its denial, and the test.
fn before_if(test: &Bool, s: &Set, t: &Set) -> Set {
    [under(s, test), under(t, &not(test.clone())), agree![test.clone()]].concat()
}

/// (P, a scalar assignment, Q): P grows by these members to what rule 3 asks for.
fn assignment(c: &Command, p: &Set, new: &Set, q: &Set) -> Box<Flow> {
    flow_of(FlowRule::F7 { m: before_assignment(c, q), set: grow(p, new), flow: flow_of(FlowRule::F3) })
}

/// (I, a while, Q), Q some members of I, from evidence of (I, the body, I).
fn loop_evidence(i: &Set, body: Box<Flow>) -> Box<Flow> {
    let kept = flow_of(FlowRule::F13 { body });
    flow_of(FlowRule::F8 { m: i.clone(), flow: kept, set: implication_of(ImplicationRule::S13) })
}

// lookup

const INDEX: u32 = 0;
const FOUND: u32 = 1;
const TABLE: u32 = 0;
const LOOKUP: Names = Names { scalars: &["i", "out"], arrays: &["table"] };

fn range(most: i64) -> Bool {
    and(at_most(number(0), x(INDEX)), at_most(x(INDEX), number(most)))
}

/// The program takes indexes up to 63, the contract up to `most`.
fn lookup_with(name: &'static str, about: &'static str, most: i64) -> Example {
    let read = agree![select(TABLE, x(INDEX))];
    let asked = under(&read, &range(63));
    let program = sequence(command(Form::Assert(range(63))), assign(FOUND, select(TABLE, x(INDEX))));
    let run = by_sequence(read, flow_of(FlowRule::F5), flow_of(FlowRule::F3));
    let evidence = flow_of(FlowRule::F7 { m: asked, set: implication_of(ImplicationRule::S18), flow: run });
    let pre = vec![member(range(most), select(TABLE, x(INDEX)))];
    Example { name, about, names: LOOKUP, procedures: Vec::new(), program, pre, post: agree![x(FOUND)], evidence }
}

fn lookup() -> Example {
    let about = "An assert of a range before a lookup. `out` derives from table[i] where i is in the range;\n\
        where it is not, no run ends, and nothing is demanded.\nAccepted.";
    lookup_with("lookup", about, 63)
}

fn lookup_narrow() -> Example {
    let about = "FAULTY: lookup with a contract that demands table[i] only up to index 31.\n\
        Refused 8 at [1.1]: the program's range does not imply the contract's.";
    lookup_with("lookup-narrow", about, 31)
}

/// A letter is passed on if the guard's table has a 1 at its sender's number, and that number is in the range.
fn lookup_guarded() -> Example {
    let about = "A range and a lookup in one test: a letter is passed on if its sender is in the table of permitted ones.\n\
        `out` derives from `in` where the sender is permitted, and from whether it is; of the sender's number and of the\n\
        table nothing else is told. A number outside the range settles the test.\nAccepted.";
    let (letter, out) = (1, 2);
    let test = and(range(63), compare(Comparison::Equal, select(TABLE, x(INDEX)), number(1)));
    let (s, t) = (agree![x(letter)], agree![number(0)]);
    let pre = vec![member(test.clone(), x(letter)), member(always(), test.clone())];
    let m = before_if(&test, &s, &t);
    let set = grow(&pre, &m[..2]);
    let (then, otherwise) = (flow_of(FlowRule::F3), flow_of(FlowRule::F3));
    let flow = flow_of(FlowRule::F6 { s, t, phi0: always(), then, otherwise, before: before_of(BeforeRule::B29) });
    Example {
        name: "lookup-guarded",
        about,
        names: Names { scalars: &["from", "in", "out"], arrays: &["permitted"] },
        procedures: Vec::new(),
        program: if_else(test, assign(out, x(letter)), assign(out, number(0))),
        pre,
        post: agree![x(out)],
        evidence: flow_of(FlowRule::F7 { m, set, flow }),
    }
}

// message

const OPEN: u32 = 0;
const IN: u32 = 0;
const OUT: u32 = 1;
const MESSAGE: Names = Names { scalars: &["open"], arrays: &["in", "out"] };

/// `second` is the index of `in` that the program puts in out[1]; for the contract and the evidence it is 1.
fn message_with(name: &'static str, about: &'static str, second: i64) -> Example {
    let put_at = |to: i64, from: i64| put(OUT, number(to), select(IN, number(from)));
    let post = agree![array(OUT)];
    let m = before_assignment(&put_at(1, 1), &post);
    let s = before_assignment(&put_at(0, 0), &m);
    let pre = before_if(&flag(OPEN), &s, &post);
    let evidence = flow_of(FlowRule::F6 {
        s,
        t: post.clone(),
        phi0: always(),
        then: by_sequence(m, flow_of(FlowRule::F4), flow_of(FlowRule::F4)),
        otherwise: flow_of(FlowRule::F1),
        before: before_of(BeforeRule::B29),
    });
    let program = if_else(flag(OPEN), sequence(put_at(0, 0), put_at(1, second)), skip());
    Example { name, about, names: MESSAGE, procedures: Vec::new(), program, pre, post, evidence }
}

fn message() -> Example {
    let about = "A message of two values, copied from `in` to `out` if `open` is 1. out{0 : in[0]} is `out` with in[0]\n\
        at index 0.\nAccepted.";
    message_with("message", about, 1)
}

fn message_crossed() -> Example {
    let about = "FAULTY: message for a program that puts in[2], not in[1], in out[1].\n\
        Refused 8 at [1.1.2]: the assignment needs in[2], the evidence has in[1].";
    message_with("message-crossed", about, 2)
}

// scrub

fn scrub() -> Example {
    let (out, n, q, work) = (0, 1, 2, 0);
    let clear = command(Form::For(q, n, Box::new(put(work, x(q), number(0)))));
    Example {
        name: "scrub",
        about: "A result is taken from a buffer, then the buffer is cleared by a for. `out` derives from work[0] alone.\n\
            Accepted.",
        names: Names { scalars: &["out", "n", "q"], arrays: &["work"] },
        procedures: Vec::new(),
        program: sequence(assign(out, select(work, number(0))), clear),
        pre: agree![select(work, number(0))],
        post: agree![x(out)],
        evidence: by_sequence(agree![x(out)], flow_of(FlowRule::F3), flow_of(FlowRule::F10)),
    }
}

// wage and total: a sum by a for

const SUM: u32 = 0;
const BOUND: u32 = 1;
const Q: u32 = 2;
const GRADE: u32 = 3;
const LIST: u32 = 0;
const WAGE: Names = Names { scalars: &["sum", "hours", "q", "grade"], arrays: &["rate"] };
const TOTAL: Names = Names { scalars: &["sum", "n", "q"], arrays: &["line"] };

fn next() -> Arith {
    plus(x(Q), number(1))
}

fn test(q: Arith) -> Bool {
    at_most(q, x(BOUND))
}

/// (P, the for, {true ⇒ sum}), I what its while keeps: P grows by `first` to I with 1 for q, and `round` is evidence of
/// (I, the body, I with q + 1 for q).
fn for_evidence(p: &Set, first: &Set, i: &Set, body: &Command, round: Box<Flow>) -> Box<Flow> {
    let start = assignment(&assign(Q, number(1)), p, first, i);
    let after = before_assignment(&assign(Q, next()), i);
    let all = by_sequence(i.clone(), start, loop_evidence(i, by_sequence(after, round, flow_of(FlowRule::F3))));
    flow_of(FlowRule::F14 { d: meaning_of_for(Q, BOUND, body), flow: all })
}

/// `bound`: whether P and what the loop keeps speak of `hours`.
fn wage_with(name: &'static str, about: &'static str, bound: bool) -> Example {
    let rate = || select(LIST, x(GRADE));
    let only_with_bound = |set: Set| if bound { set } else { Set::new() };
    let pre = [only_with_bound(agree![x(BOUND)]), agree![rate(), x(SUM)]].concat();
    let i = [only_with_bound(agree![test(x(Q)), x(BOUND)]), agree![x(Q), number(1), rate(), x(SUM)]].concat();
    let body = assign(SUM, plus(x(SUM), rate()));
    let first = [agree![number(1)], only_with_bound(agree![test(number(1))])].concat();
    let new = [agree![next()], only_with_bound(agree![test(next())]), agree![plus(x(SUM), rate())]].concat();
    let round = assignment(&body, &i, &new, &before_assignment(&assign(Q, next()), &i));
    let evidence = for_evidence(&pre, &first, &i, &body, round);
    let program = command(Form::For(Q, BOUND, Box::new(body)));
    Example { name, about, names: WAGE, procedures: Vec::new(), program, pre, post: agree![x(SUM)], evidence }
}

fn wage() -> Example {
    let about = "A wage by a for: the rate of a grade is added to `sum` for each hour. `sum` derives from itself, the hours\n\
        and that one rate.\nAccepted.";
    wage_with("wage", about, true)
}

fn wage_without_hours() -> Example {
    let about = "FAULTY: wage without `hours` in P and in what the loop keeps.\n\
        Refused 8 at [1.1.2.1]: true ⇒ B does not stand in P; how often the loop was gone through can be seen in `sum`.";
    wage_with("wage-without-hours", about, false)
}

/// The if of one round: the sum by cases, all that the loop keeps besides by rule 10.
fn total_round(i: &Set, is_first: fn(Arith) -> Bool, sums: [Set; 2]) -> Box<Flow> {
    let [s, t] = sums;
    let cases = before_if(&is_first(x(Q)), &s, &t);
    let mut rest = before_assignment(&assign(Q, next()), i);
    rest.retain(|member| member.e != x(SUM).into());
    let new = [agree![next(), test(next()), is_first(next())], s.clone(), t.clone(), cases[..2].to_vec()].concat();
    let m = [cases.clone(), rest.clone()].concat();
    let (then, otherwise) = (flow_of(FlowRule::F3), flow_of(FlowRule::F3));
    let first = flow_of(FlowRule::F6 { s, t, phi0: always(), then, otherwise, before: before_of(BeforeRule::B29) });
    let second = flow_of(FlowRule::F10);
    let both = flow_of(FlowRule::F9 { s: cases, s2: agree![x(SUM)], t: rest.clone(), t2: rest, first, second });
    flow_of(FlowRule::F7 { m, set: grow(i, &new), flow: both })
}

fn total() -> Example {
    let about = "A total of two lines by a for, by cases: q changes, and no rule takes line[q] apart. `sum` derives from itself,\n\
        n and the two lines.\nAccepted.";
    let is_first = |q: Arith| compare(Comparison::Equal, q, number(1));
    let sums = [1, 2].map(|k| plus(x(SUM), select(LIST, number(k))));
    let lines = agree![select(LIST, number(1)), select(LIST, number(2))];
    let pre = [agree![x(BOUND), x(SUM)], lines.clone()].concat();
    let i = [agree![test(x(Q)), x(BOUND), x(Q), number(1), is_first(x(Q)), x(SUM)], lines].concat();
    let [then, otherwise] = sums.clone().map(|sum| assign(SUM, sum));
    let body = if_else(is_first(x(Q)), then, otherwise);
    let round = total_round(&i, is_first, sums.map(|sum| agree![sum]));
    let first = agree![number(1), test(number(1)), is_first(number(1))];
    let evidence = for_evidence(&pre, &first, &i, &body, round);
    let program = command(Form::For(Q, BOUND, Box::new(body)));
    Example { name: "total", about, names: TOTAL, procedures: Vec::new(), program, pre, post: agree![x(SUM)], evidence }
}

// retry

const TRIES: u32 = 0;
const SENT: u32 = 1;
const PUT: u32 = 2;
const READY: u32 = 3;
const RETRY: Names = Names { scalars: &["tries", "in", "out", "rdy"], arrays: &[] };

fn left(tries: Arith) -> Bool {
    compare(Comparison::Less, number(0), tries)
}

/// (S, the while, {true ⇒ out}).
fn retry_flow(s: &Set) -> Box<Flow> {
    let fewer = || operate(Operator::Minus, x(TRIES), number(1));
    let i = agree![left(x(TRIES)), number(0), x(TRIES), number(1), x(SENT), x(PUT)];
    let after = before_assignment(&assign(TRIES, fewer()), &i);
    let first = assignment(&assign(PUT, x(SENT)), &i, &agree![fewer(), left(fewer())], &after);
    let rest = by_sequence(after.clone(), flow_of(FlowRule::F10), flow_of(FlowRule::F3));
    let body = by_sequence(after, first, rest);
    let set = grow(s, &agree![number(0), number(1), left(x(TRIES))]);
    flow_of(FlowRule::F7 { m: i.clone(), set, flow: loop_evidence(&i, body) })
}

/// `phi` is the antecedent before the loop; `before` is evidence that it is a precondition of rdy = 1.
fn retry_with(name: &'static str, about: &'static str, phi: Bool, before: Box<Before>) -> Example {
    let (s, s2) = (agree![x(TRIES), x(SENT), x(PUT)], agree![x(PUT)]);
    let (pre, post) = (under(&s, &phi), under(&s2, &flag(READY)));
    let under_true = retry_flow(&s);
    let evidence = flow_of(FlowRule::F12 { s, s2, phi, phi2: flag(READY), flow: under_true, before });
    let fewer = assign(TRIES, operate(Operator::Minus, x(TRIES), number(1)));
    let body = sequence(assign(PUT, x(SENT)), sequence(assign(READY, number(1)), fewer));
    let program = command(Form::While(left(x(TRIES)), Box::new(body)));
    Example { name, about, names: RETRY, procedures: Vec::new(), program, pre, post, evidence }
}

fn retry() -> Example {
    let about = "A value is sent as often as tries are left. Where rdy is 1 at the end, `out` derives from tries, `in` and `out`,\n\
        and that only where rdy was 1 before or a try was left.\nAccepted.";
    let evidence = before_of(BeforeRule::B21 { phi0: always(), body: before_of(BeforeRule::B29) });
    retry_with("retry", about, or(flag(READY), left(x(TRIES))), evidence)
}

fn retry_before() -> Example {
    let about = "FAULTY: retry with rdy = 1 as the antecedent before the loop too.\n\
        Refused 8 at [1.2]: the loop modifies rdy.";
    retry_with("retry-before", about, flag(READY), before_of(BeforeRule::B27))
}

pub fn examples() -> Vec<Example> {
    vec![
        lookup(),
        lookup_narrow(),
        lookup_guarded(),
        message(),
        message_crossed(),
        scrub(),
        wage(),
        wage_without_hours(),
        total(),
        retry(),
        retry_before(),
    ]
}
