//! Document 01, "Layout", as trees. Two trees of one sort are equal exactly
//! when their words are, so "compared by words" is `==` here; a command's
//! place in the file is no part of its words and is left out of `==`.

#[derive(Clone, Copy, PartialEq, Eq, Debug)]
pub enum Operator {
    Plus,
    Minus,
    Times,
}

#[derive(Clone, Copy, PartialEq, Eq, Debug)]
pub enum Comparison {
    Equal,
    Less,
    LessOrEqual,
}

#[derive(Clone, PartialEq, Eq, Debug)]
pub enum Arith {
    Constant(i64),
    Scalar(u32),
    Operate(Operator, Box<Arith>, Box<Arith>),
    Select(Box<Array>, Box<Arith>),
}

#[derive(Clone, PartialEq, Eq, Debug)]
pub enum Bool {
    Compare(Comparison, Box<Arith>, Box<Arith>),
    Truth(bool),
    And(Box<Bool>, Box<Bool>),
    Or(Box<Bool>, Box<Bool>),
    Not(Box<Bool>),
}

#[derive(Clone, PartialEq, Eq, Debug)]
pub enum Array {
    Identifier(u32),
    Zero,
    Update(Box<Array>, Box<Arith>, Box<Arith>),
}

#[derive(Clone, PartialEq, Eq, Debug)]
pub enum Expression {
    Arith(Arith),
    Bool(Bool),
    Array(Array),
}

impl From<Arith> for Expression {
    fn from(a: Arith) -> Expression {
        Expression::Arith(a)
    }
}

impl From<Bool> for Expression {
    fn from(b: Bool) -> Expression {
        Expression::Bool(b)
    }
}

impl From<Array> for Expression {
    fn from(h: Array) -> Expression {
        Expression::Array(h)
    }
}

#[derive(Clone, Debug)]
pub struct Command {
    pub place: usize,
    pub form: Form,
}

impl PartialEq for Command {
    fn eq(&self, other: &Command) -> bool {
        self.form == other.form
    }
}

#[derive(Clone, PartialEq, Debug)]
pub enum Form {
    Skip,
    Sequence(Box<Command>, Box<Command>),
    Assert(Bool),
    AssignScalar(u32, Arith),
    AssignArray(u32, Array),
    If(Bool, Box<Command>, Box<Command>),
    While(Bool, Box<Command>),
    /// q, m, body.
    For(u32, u32, Box<Command>),
    /// Request [3]: a call of the procedure of this number; any payload is read.
    Call(u32),
}

/// One member: antecedent ⇒ consequent.
#[derive(Clone, PartialEq, Eq, Debug)]
pub struct Member {
    pub phi: Bool,
    pub e: Expression,
}

/// A written set: its members in order, perhaps one twice.
pub type Set = Vec<Member>;

/// Kind 33. Primes of the document are written `2`: S' is `s2`.
#[derive(Clone, Debug)]
pub struct Flow {
    pub place: usize,
    pub rule: FlowRule,
}

#[derive(Clone, Debug)]
pub enum FlowRule {
    F1,
    F2 { m: Set, first: Box<Flow>, second: Box<Flow> },
    F3,
    F4,
    F5,
    F6 { s: Set, t: Set, phi0: Bool, then: Box<Flow>, otherwise: Box<Flow>, before: Box<Before> },
    F7 { m: Set, set: Box<Implication>, flow: Box<Flow> },
    F8 { m: Set, flow: Box<Flow>, set: Box<Implication> },
    F9 { s: Set, s2: Set, t: Set, t2: Set, first: Box<Flow>, second: Box<Flow> },
    F10,
    F11 { before: Box<Before> },
    F12 { s: Set, s2: Set, phi: Bool, phi2: Bool, flow: Box<Flow>, before: Box<Before> },
    F13 { body: Box<Flow> },
    F14 { d: Command, flow: Box<Flow> },
    F31,
}

/// Kind 34: implication between sets.
#[derive(Clone, Debug)]
pub struct Implication {
    pub place: usize,
    pub rule: ImplicationRule,
}

#[derive(Clone, Debug)]
pub enum ImplicationRule {
    S13,
    S14,
    S15,
    S16 { s: Set, s2: Set, t: Set, t2: Set, first: Box<Implication>, second: Box<Implication> },
    S17 { s: Set, s2: Set, t: Set, first: Box<Implication>, second: Box<Implication> },
    S18,
    S19,
}

/// Kind 35: necessary precondition.
#[derive(Clone, Debug)]
pub struct Before {
    pub place: usize,
    pub rule: BeforeRule,
}

#[derive(Clone, Debug)]
pub enum BeforeRule {
    B20 { phi1: Bool, phi2: Bool, then: Box<Before>, otherwise: Box<Before> },
    B21 { phi0: Bool, body: Box<Before> },
    B22,
    B23 { phi1: Bool, first: Box<Before>, second: Box<Before> },
    B24,
    B25,
    B26,
    B27,
    B28 { phi1: Bool, inner: Box<Before> },
    B29,
    B30 { d: Command, inner: Box<Before> },
    B32 { inner: Box<Before> },
}

/// Request [3]: a procedure of the table, its body and its contract with evidence.
#[derive(Clone, Debug)]
pub struct Procedure {
    pub command: Command,
    pub pre: Set,
    pub post: Set,
    pub evidence: Flow,
}

/// A file that refusals 1 to 6 spare. The command, the sets and the evidence are the main program's.
#[derive(Clone, Debug)]
pub struct File {
    /// In table order: procedure p is at p. None in a file without a table.
    pub procedures: Vec<Procedure>,
    pub command: Command,
    pub pre: Set,
    pub post: Set,
    pub evidence: Flow,
    /// Word places of the two sets, start and one past the end.
    pub pre_words: (usize, usize),
    pub post_words: (usize, usize),
}

// Short ways to write trees.

pub fn and(a: Bool, b: Bool) -> Bool {
    Bool::And(Box::new(a), Box::new(b))
}

pub fn or(a: Bool, b: Bool) -> Bool {
    Bool::Or(Box::new(a), Box::new(b))
}

pub fn not(a: Bool) -> Bool {
    Bool::Not(Box::new(a))
}

pub fn compare(c: Comparison, a: Arith, b: Arith) -> Bool {
    Bool::Compare(c, Box::new(a), Box::new(b))
}

pub fn operate(o: Operator, a: Arith, b: Arith) -> Arith {
    Arith::Operate(o, Box::new(a), Box::new(b))
}

/// A command that stands in no file (yet): place 0.
pub fn command(form: Form) -> Command {
    Command { place: 0, form }
}

pub fn sequence(a: Command, b: Command) -> Command {
    command(Form::Sequence(Box::new(a), Box::new(b)))
}

pub fn skip() -> Command {
    command(Form::Skip)
}

pub fn if_else(test: Bool, then: Command, otherwise: Command) -> Command {
    command(Form::If(test, Box::new(then), Box::new(otherwise)))
}

pub fn call(procedure: u32) -> Command {
    command(Form::Call(procedure))
}

pub fn always() -> Bool {
    Bool::Truth(true)
}

pub fn member(phi: Bool, e: impl Into<Expression>) -> Member {
    Member { phi, e: e.into() }
}

/// Evidence that stands in no file (yet): place 0.
pub fn flow_of(rule: FlowRule) -> Box<Flow> {
    Box::new(Flow { place: 0, rule })
}

pub fn implication_of(rule: ImplicationRule) -> Box<Implication> {
    Box::new(Implication { place: 0, rule })
}

pub fn before_of(rule: BeforeRule) -> Box<Before> {
    Box::new(Before { place: 0, rule })
}

/// "Language": `for` over q up to m means
/// `q := 1; while q ≤ m do (C; q := q + 1)`.
pub fn meaning_of_for(q: u32, m: u32, body: &Command) -> Command {
    let start = command(Form::AssignScalar(q, Arith::Constant(1)));
    let test = compare(Comparison::LessOrEqual, Arith::Scalar(q), Arith::Scalar(m));
    let next = operate(Operator::Plus, Arith::Scalar(q), Arith::Constant(1));
    let increment = command(Form::AssignScalar(q, next));
    let round = sequence(body.clone(), increment);
    sequence(start, command(Form::While(test, Box::new(round))))
}
