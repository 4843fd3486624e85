//! Programs of about a million steps, for the benchmark of the runner.

use crate::layout::syntax::*;
use crate::layout::words::bytes_of;
use crate::layout::write::file_words_with;

/// The scalars that a run starts with: 1 to 3 are bounds of loops.
pub const SCALARS: [i64; 4] = [0, 249_999, 140_000, 450];

pub struct Program {
    pub name: &'static str,
    pub does: &'static str,
    make: fn() -> Command,
    bodies: fn() -> Vec<Command>,
}

pub const PROGRAMS: [Program; 7] = [
    Program { name: "loop", does: "a tight `for` with an if and a sum", make: tight, bodies: Vec::new },
    Program { name: "arithmetic", does: "a while over sums, differences and products", make: arithmetic, bodies: Vec::new },
    Program { name: "nest", does: "a `for` in a `for`", make: nest, bodies: Vec::new },
    Program { name: "elements", does: "an array's elements counted up, one by one", make: elements, bodies: Vec::new },
    Program { name: "mailbox", does: "steps of the mailbox guard", make: mailbox, bodies: Vec::new },
    Program { name: "calls", does: "a `for` over a procedure that calls another", make: calls, bodies: called },
    Program { name: "guarded", does: "an array looked up where the index is in the range", make: guarded, bodies: Vec::new },
];

impl Program {
    pub fn file(&self) -> Vec<u8> {
        let evidence = flow_of(FlowRule::F10);
        let procedure =
            |command| Procedure { command, pre: Set::new(), post: Set::new(), evidence: *flow_of(FlowRule::F10) };
        let procedures: Vec<Procedure> = (self.bodies)().into_iter().map(procedure).collect();
        bytes_of(&file_words_with(&procedures, &(self.make)(), &[], &[], &evidence))
    }
}

fn scalar(x: u32) -> Arith {
    Arith::Scalar(x)
}

fn set(x: u32, a: Arith) -> Command {
    command(Form::AssignScalar(x, a))
}

fn plus(a: Arith, b: Arith) -> Arith {
    operate(Operator::Plus, a, b)
}

fn repeat(q: u32, m: u32, body: Command) -> Command {
    command(Form::For(q, m, Box::new(body)))
}

/// for 0 up to 1: if 0 ≤ 1 then 4 := 4 + 0 else skip
fn tight() -> Command {
    let test = compare(Comparison::LessOrEqual, scalar(0), scalar(1));
    repeat(0, 1, if_else(test, set(4, plus(scalar(4), scalar(0))), skip()))
}

/// while 0 < 1 and not 5 < 0: (0 := 0 + 1; 4 := 0 × 3 − (4 + 7); 5 := 4 × 4)
fn arithmetic() -> Command {
    let less = |a, b| compare(Comparison::Less, a, b);
    let test = and(less(scalar(0), scalar(1)), not(less(scalar(5), number(0))));
    let product = operate(Operator::Times, scalar(0), number(3));
    let next = operate(Operator::Minus, product, plus(scalar(4), number(7)));
    let square = set(5, operate(Operator::Times, scalar(4), scalar(4)));
    let body = sequence(set(0, plus(scalar(0), number(1))), sequence(set(4, next), square));
    command(Form::While(test, Box::new(body)))
}

fn number(n: i64) -> Arith {
    Arith::Constant(n)
}

/// for 4 up to 3: for 5 up to 3: 6 := 6 + 5
fn nest() -> Command {
    repeat(4, 3, repeat(5, 3, set(6, plus(scalar(6), scalar(5)))))
}

/// for 4 up to 2: (array 0 at 5 counted up; 5 := the next index up to 63)
fn elements() -> Command {
    let array = || Box::new(Array::Identifier(0));
    let index = || Box::new(scalar(5));
    let more = plus(Arith::Select(array(), index()), number(1));
    let count = command(Form::AssignArray(0, Array::Update(array(), index(), Box::new(more))));
    repeat(4, 2, sequence(count, next_index(63)))
}

/// if 5 < last then 5 := 5 + 1 else 5 := 0
fn next_index(last: i64) -> Command {
    let test = compare(Comparison::Less, scalar(5), number(last));
    if_else(test, set(5, plus(scalar(5), number(1))), set(5, number(0)))
}

/// for 4 up to 2: (if (0 ≤ 5 and 5 ≤ 63) and array 0 at 5 = 0 then 6 := 6 + 1 else skip; 5 := the next index up to 127).
/// Half the time the range settles the test (request [1]).
fn guarded() -> Command {
    let at_most = |a, b| compare(Comparison::LessOrEqual, a, b);
    let range = and(at_most(number(0), scalar(5)), at_most(scalar(5), number(63)));
    let found = Arith::Select(Box::new(Array::Identifier(0)), Box::new(scalar(5)));
    let test = and(range, compare(Comparison::Equal, found, number(0)));
    let count = if_else(test, set(6, plus(scalar(6), number(1))), skip());
    repeat(4, 2, sequence(count, next_index(127)))
}

/// for 4 up to 2: call procedure 1
fn calls() -> Command {
    repeat(4, 2, call(1))
}

/// 5 := 5 + 4; (call procedure 0; 6 := 6 + 1)
fn called() -> Vec<Command> {
    let count = set(6, plus(scalar(6), number(1)));
    vec![set(5, plus(scalar(5), scalar(4))), sequence(call(0), count)]
}

/// while true: a message comes in (10 full, 11 what it says), then the guard of paper 000 passes it on if there is room (12, 13)
fn mailbox() -> Command {
    let is = |x, n| compare(Comparison::Equal, scalar(x), number(n));
    let take = sequence(set(14, scalar(11)), set(10, number(0)));
    let give = sequence(set(13, scalar(14)), set(12, number(1)));
    let guard = if_else(and(is(10, 1), not(is(12, 1))), sequence(take, give), skip());
    let come = sequence(set(10, number(1)), set(11, plus(scalar(11), number(1))));
    let read = if_else(is(12, 1), set(12, number(0)), skip());
    command(Form::While(Bool::Truth(true), Box::new(sequence(come, sequence(guard, read)))))
}
