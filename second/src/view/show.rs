//! Expressions, members and commands in paper 000's notation, with names for the identifiers.

use crate::layout::syntax::*;

/// Names by number; an identifier without one is x7 or a7.
pub struct Names {
    pub scalars: &'static [&'static str],
    pub arrays: &'static [&'static str],
}

/// x0 to x31 and a0 to a31.
pub const NUMBERED: Names = Names { scalars: &[], arrays: &[] };

impl Names {
    pub fn scalar(&self, x: u32) -> String {
        self.scalars.get(x as usize).map_or(format!("x{x}"), |name| name.to_string())
    }

    pub fn array(&self, h: u32) -> String {
        self.arrays.get(h as usize).map_or(format!("a{h}"), |name| name.to_string())
    }

    pub fn arith(&self, a: &Arith) -> String {
        match a {
            Arith::Constant(c) => c.to_string(),
            Arith::Scalar(x) => self.scalar(*x),
            Arith::Operate(o, left, right) => {
                let sign = ["+", "-", "×"][*o as usize];
                format!("({} {sign} {})", self.arith(left), self.arith(right))
            }
            Arith::Select(h, index) => format!("{}[{}]", self.array_of(h), self.arith(index)),
        }
    }

    pub fn array_of(&self, h: &Array) -> String {
        match h {
            Array::Identifier(name) => self.array(*name),
            Array::Zero => "Z".to_string(),
            Array::Update(h, index, value) => {
                format!("{}{{{} : {}}}", self.array_of(h), self.arith(index), self.arith(value))
            }
        }
    }

    pub fn boolean(&self, b: &Bool) -> String {
        match b {
            Bool::Compare(c, left, right) => {
                let sign = ["=", "<", "≤"][*c as usize];
                format!("{} {sign} {}", self.arith(left), self.arith(right))
            }
            Bool::Truth(t) => t.to_string(),
            Bool::And(left, right) => format!("{} ∧ {}", self.operand(left), self.operand(right)),
            Bool::Or(left, right) => format!("{} ∨ {}", self.operand(left), self.operand(right)),
            Bool::Not(inner) => format!("¬({})", self.boolean(inner)),
        }
    }

    /// An operand of and, or: in brackets where it is one of these itself.
    fn operand(&self, b: &Bool) -> String {
        match b {
            Bool::And(..) | Bool::Or(..) => format!("({})", self.boolean(b)),
            _ => self.boolean(b),
        }
    }

    pub fn expression(&self, e: &Expression) -> String {
        match e {
            Expression::Arith(a) => self.arith(a),
            Expression::Bool(b) => format!("({})", self.boolean(b)),
            Expression::Array(h) => self.array_of(h),
        }
    }

    pub fn member(&self, member: &Member) -> String {
        format!("{} ⇒ {}", self.boolean(&member.phi), self.expression(&member.e))
    }

    /// A command on one line.
    pub fn command(&self, c: &Command) -> String {
        match &c.form {
            Form::Sequence(a, b) => format!("{}; {}", self.command(a), self.command(b)),
            Form::If(_, then, otherwise) => {
                format!("{} ({}) else ({})", self.head(c), self.command(then), self.command(otherwise))
            }
            Form::While(_, body) | Form::For(_, _, body) => format!("{} ({})", self.head(c), self.command(body)),
            _ => self.head(c),
        }
    }

    /// A command up to its parts, if it has some; h[i] := a is short for h := h{i : a}.
    pub fn head(&self, c: &Command) -> String {
        match &c.form {
            Form::Skip => "skip".to_string(),
            Form::Sequence(..) => "sequence of".to_string(),
            Form::Assert(b) => format!("assert({})", self.boolean(b)),
            Form::AssignScalar(x, a) => format!("{} := {}", self.scalar(*x), self.arith(a)),
            Form::AssignArray(h, a) => match a {
                Array::Update(old, index, value) if **old == Array::Identifier(*h) => {
                    format!("{}[{}] := {}", self.array(*h), self.arith(index), self.arith(value))
                }
                _ => format!("{} := {}", self.array(*h), self.array_of(a)),
            },
            Form::If(b, ..) => format!("if {} then", self.boolean(b)),
            Form::While(b, _) => format!("while {} do", self.boolean(b)),
            Form::For(q, m, _) => format!("for {} ← 1 to {} do", self.scalar(*q), self.scalar(*m)),
            Form::Call(p) => format!("call procedure {p}"),
        }
    }

    /// A command on lines, one for each of its commands; the parts of an if or a loop are indented by two.
    pub fn lines(&self, c: &Command) -> Vec<String> {
        let part = |c: &Command| self.lines(c).into_iter().map(|line| format!("  {line}")).collect();
        match &c.form {
            Form::Sequence(a, b) => [self.lines(a), self.lines(b)].concat(),
            Form::If(_, then, otherwise) => {
                [vec![self.head(c)], part(then), vec!["else".to_string()], part(otherwise)].concat()
            }
            Form::While(_, body) | Form::For(_, _, body) => [vec![self.head(c)], part(body)].concat(),
            _ => vec![self.head(c)],
        }
    }
}
