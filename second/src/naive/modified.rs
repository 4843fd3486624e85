//! Document 01, "Language": "A command modifies the scalars and arrays it
//! assigns, an array even if at one place; a `for` also modifies q."
//! Request [3]: "A call modifies what its body modifies." And the
//! identifiers that stand in an expression.

use crate::layout::syntax::*;

#[derive(Clone, PartialEq, Eq, Debug)]
pub struct Identifiers {
    scalars: [bool; 32],
    arrays: [bool; 32],
}

impl Identifiers {
    pub fn none() -> Identifiers {
        Identifiers { scalars: [false; 32], arrays: [false; 32] }
    }

    pub fn add_scalar(&mut self, x: u32) {
        self.scalars[x as usize] = true;
    }

    pub fn add_array(&mut self, h: u32) {
        self.arrays[h as usize] = true;
    }

    pub fn has_scalar(&self, x: u32) -> bool {
        self.scalars[x as usize]
    }

    pub fn has_array(&self, h: u32) -> bool {
        self.arrays[h as usize]
    }

    pub fn add_all(&mut self, other: &Identifiers) {
        for i in 0..32 {
            self.scalars[i] |= other.scalars[i];
            self.arrays[i] |= other.arrays[i];
        }
    }

    pub fn is_empty(&self) -> bool {
        *self == Identifiers::none()
    }

    pub fn meets(&self, other: &Identifiers) -> bool {
        (0..32).any(|i| self.scalars[i] && other.scalars[i] || self.arrays[i] && other.arrays[i])
    }

    pub fn all_scalars(&self) -> Vec<u32> {
        (0..32).filter(|x| self.has_scalar(*x)).collect()
    }

    pub fn all_arrays(&self) -> Vec<u32> {
        (0..32).filter(|h| self.has_array(*h)).collect()
    }
}

/// What a command modifies: itself, or in a body that it reaches through any number of calls.
pub fn modified_by(command: &Command, procedures: &[Procedure]) -> Identifiers {
    let mut found = Identifiers::none();
    for part in reached(command, procedures) {
        add_assigned(part, &mut found);
    }
    found
}

/// The command and the bodies that it reaches through calls, each once.
pub fn reached<'a>(command: &'a Command, procedures: &'a [Procedure]) -> Vec<&'a Command> {
    let mut all = vec![command];
    let mut called = vec![false; procedures.len()];
    let mut next = 0;
    while next < all.len() {
        for p in calls_in(all[next]) {
            if !called[p as usize] {
                called[p as usize] = true;
                all.push(&procedures[p as usize].command);
            }
        }
        next += 1;
    }
    all
}

/// The procedures that a command calls itself.
pub fn calls_in(command: &Command) -> Vec<u32> {
    match &command.form {
        Form::Skip | Form::Assert(_) | Form::AssignScalar(..) | Form::AssignArray(..) => Vec::new(),
        Form::Sequence(a, b) | Form::If(_, a, b) => [calls_in(a), calls_in(b)].concat(),
        Form::While(_, body) | Form::For(_, _, body) => calls_in(body),
        Form::Call(p) => vec![*p],
    }
}

/// What a command assigns itself.
fn add_assigned(command: &Command, found: &mut Identifiers) {
    match &command.form {
        Form::Skip | Form::Assert(_) | Form::Call(_) => {}
        Form::AssignScalar(x, _) => found.add_scalar(*x),
        Form::AssignArray(h, _) => found.add_array(*h),
        Form::Sequence(a, b) | Form::If(_, a, b) => {
            add_assigned(a, found);
            add_assigned(b, found);
        }
        Form::While(_, body) => add_assigned(body, found),
        Form::For(q, _, body) => {
            found.add_scalar(*q);
            add_assigned(body, found);
        }
    }
}

pub fn in_arith(a: &Arith, found: &mut Identifiers) {
    match a {
        Arith::Constant(_) => {}
        Arith::Scalar(x) => found.add_scalar(*x),
        Arith::Operate(_, left, right) => {
            in_arith(left, found);
            in_arith(right, found);
        }
        Arith::Select(array, index) => {
            in_array(array, found);
            in_arith(index, found);
        }
    }
}

pub fn in_bool(b: &Bool, found: &mut Identifiers) {
    match b {
        Bool::Truth(_) => {}
        Bool::Compare(_, left, right) => {
            in_arith(left, found);
            in_arith(right, found);
        }
        Bool::And(left, right) | Bool::Or(left, right) => {
            in_bool(left, found);
            in_bool(right, found);
        }
        Bool::Not(inner) => in_bool(inner, found),
    }
}

pub fn in_array(h: &Array, found: &mut Identifiers) {
    match h {
        Array::Identifier(name) => found.add_array(*name),
        Array::Zero => {}
        Array::Update(array, index, value) => {
            in_array(array, found);
            in_arith(index, found);
            in_arith(value, found);
        }
    }
}

pub fn in_expression(e: &Expression, found: &mut Identifiers) {
    match e {
        Expression::Arith(a) => in_arith(a, found),
        Expression::Bool(b) => in_bool(b, found),
        Expression::Array(h) => in_array(h, found),
    }
}

pub fn in_set(set: &[Member], found: &mut Identifiers) {
    for member in set {
        in_bool(&member.phi, found);
        in_expression(&member.e, found);
    }
}

pub fn of_bool(b: &Bool) -> Identifiers {
    let mut found = Identifiers::none();
    in_bool(b, &mut found);
    found
}

pub fn of_expression(e: &Expression) -> Identifiers {
    let mut found = Identifiers::none();
    in_expression(e, &mut found);
    found
}

pub fn of_set(set: &[Member]) -> Identifiers {
    let mut found = Identifiers::none();
    in_set(set, &mut found);
    found
}

/// Every identifier that a command reads or assigns, itself or in a body that it reaches.
pub fn used_by(command: &Command, procedures: &[Procedure]) -> Identifiers {
    let mut found = Identifiers::none();
    for part in reached(command, procedures) {
        in_command(part, &mut found);
    }
    found
}

fn in_command(command: &Command, found: &mut Identifiers) {
    match &command.form {
        Form::Skip | Form::Call(_) => {}
        Form::Assert(b) => in_bool(b, found),
        Form::AssignScalar(x, a) => {
            found.add_scalar(*x);
            in_arith(a, found);
        }
        Form::AssignArray(h, array) => {
            found.add_array(*h);
            in_array(array, found);
        }
        Form::Sequence(a, b) => {
            in_command(a, found);
            in_command(b, found);
        }
        Form::If(test, a, b) => {
            in_bool(test, found);
            in_command(a, found);
            in_command(b, found);
        }
        Form::While(test, body) => {
            in_bool(test, found);
            in_command(body, found);
        }
        Form::For(q, m, body) => {
            found.add_scalar(*q);
            found.add_scalar(*m);
            in_command(body, found);
        }
    }
}
