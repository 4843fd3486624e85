//! Document 01, "Runner": the command is run on a lent store of 64-bit
//! values, within a budget of steps. Request [3]: a call is one step, before
//! those of its body. Request [1]: a left side may settle an and or an or.

use super::read::read;
use crate::layout::settings::Settings;
use crate::layout::syntax::*;
use crate::layout::words::Refusal;

pub const SCALARS: usize = 32;
pub const ARRAYS: usize = 32;
pub const INDEXES: usize = 64;
pub const ARRAY_VALUES: usize = ARRAYS * INDEXES;
pub const MOST_BUDGET: u64 = 1_000_000;

#[derive(Clone, Copy, PartialEq, Eq, Debug)]
pub enum End {
    Ended,
    Refused(Refusal),
}

#[derive(Clone, Copy, PartialEq, Eq, Debug)]
pub struct Outcome {
    pub end: End,
    /// The steps finished.
    pub steps: u64,
}

impl Outcome {
    /// What C gets: steps × 2^32 + 0, or + number × 65,536 + place.
    pub fn packed(&self) -> u64 {
        let code = match self.end {
            End::Ended => 0,
            End::Refused(r) => u64::from(r.number) << 16 | r.place as u64,
        };
        self.steps << 32 | code
    }

    pub fn end_text(&self) -> String {
        match self.end {
            End::Ended => "ended".to_string(),
            End::Refused(r) => format!("refused {} {}", r.number, r.place),
        }
    }
}

/// "It reads as 1 to 7, then 10, 11, and runs the command without judging
/// the evidence." `scalars` and `arrays` are the lent store. Request [6]: 19
/// goes before all of these.
pub fn run(bytes: &[u8], budget: u64, scalars: &mut [i64], arrays: &mut [i64], settings: Settings) -> Outcome {
    let refused = |number, place| Outcome {
        end: End::Refused(Refusal { number, place }),
        steps: 0,
    };
    let file = match read(bytes, settings) {
        Err(r) => return refused(r.number, r.place),
        Ok(file) => file,
    };
    if budget > MOST_BUDGET {
        return refused(10, 0);
    }
    if scalars.len() != SCALARS || arrays.len() != ARRAY_VALUES {
        return refused(11, 0);
    }
    let mut runner = Runner { procedures: &file.procedures, scalars, arrays, budget, steps: 0 };
    match runner.command(&file.command) {
        Ok(()) => Outcome { end: End::Ended, steps: runner.steps },
        Err(refusal) => Outcome { end: End::Refused(refusal), steps: runner.steps },
    }
}

struct Runner<'a> {
    procedures: &'a [Procedure],
    scalars: &'a mut [i64],
    arrays: &'a mut [i64],
    budget: u64,
    steps: u64,
}

/// A value, or the number of the refusal that it meets (14 or 15).
type Valued<T> = Result<T, u32>;

impl Runner<'_> {
    /// Refusal 13, tried first at a step.
    fn due(&self, place: usize) -> Result<(), Refusal> {
        if self.steps >= self.budget {
            return Err(Refusal { number: 13, place });
        }
        Ok(())
    }

    fn test(&mut self, b: &Bool, place: usize) -> Result<bool, Refusal> {
        self.due(place)?;
        let value = self.boolean(b).map_err(|number| Refusal { number, place })?;
        self.steps += 1;
        Ok(value)
    }

    fn assign_scalar(&mut self, x: u32, a: &Arith, place: usize) -> Result<(), Refusal> {
        self.due(place)?;
        let value = self.arith(a).map_err(|number| Refusal { number, place })?;
        self.scalars[x as usize] = value;
        self.steps += 1;
        Ok(())
    }

    fn command(&mut self, c: &Command) -> Result<(), Refusal> {
        let place = c.place;
        match &c.form {
            Form::Skip => {
                self.due(place)?;
                self.steps += 1;
                Ok(())
            }
            Form::Call(p) => {
                self.due(place)?;
                self.steps += 1;
                let procedures = self.procedures;
                self.command(&procedures[*p as usize].command)
            }
            Form::Sequence(a, b) => {
                self.command(a)?;
                self.command(b)
            }
            Form::Assert(b) => {
                self.due(place)?;
                let value = self.boolean(b).map_err(|number| Refusal { number, place })?;
                if !value {
                    return Err(Refusal { number: 12, place });
                }
                self.steps += 1;
                Ok(())
            }
            Form::AssignScalar(x, a) => self.assign_scalar(*x, a, place),
            Form::AssignArray(h, right) => {
                self.due(place)?;
                let values = self.array(right).map_err(|number| Refusal { number, place })?;
                let start = *h as usize * INDEXES;
                self.arrays[start..start + INDEXES].copy_from_slice(&values);
                self.steps += 1;
                Ok(())
            }
            Form::If(b, then, otherwise) => {
                if self.test(b, place)? {
                    self.command(then)
                } else {
                    self.command(otherwise)
                }
            }
            Form::While(b, body) => {
                while self.test(b, place)? {
                    self.command(body)?;
                }
                Ok(())
            }
            Form::For(q, m, body) => {
                let test = compare(Comparison::LessOrEqual, Arith::Scalar(*q), Arith::Scalar(*m));
                let next = operate(Operator::Plus, Arith::Scalar(*q), Arith::Constant(1));
                self.assign_scalar(*q, &Arith::Constant(1), place)?;
                while self.test(&test, place)? {
                    self.command(body)?;
                    self.assign_scalar(*q, &next, place)?;
                }
                Ok(())
            }
        }
    }

    /// "Operands go left first"; refusal 14.
    fn arith(&self, a: &Arith) -> Valued<i64> {
        match a {
            Arith::Constant(c) => Ok(*c),
            Arith::Scalar(x) => Ok(self.scalars[*x as usize]),
            Arith::Operate(operator, left, right) => {
                let left = self.arith(left)?;
                let right = self.arith(right)?;
                let value = match operator {
                    Operator::Plus => left.checked_add(right),
                    Operator::Minus => left.checked_sub(right),
                    Operator::Times => left.checked_mul(right),
                };
                value.ok_or(14)
            }
            Arith::Select(array, index) => {
                let array = self.array(array)?;
                let index = self.index(index)?;
                Ok(array[index])
            }
        }
    }

    /// "An index is tested as soon as it is worked out": refusal 15.
    fn index(&self, a: &Arith) -> Valued<usize> {
        let value = self.arith(a)?;
        if (0..INDEXES as i64).contains(&value) {
            Ok(value as usize)
        } else {
            Err(15)
        }
    }

    fn array(&self, h: &Array) -> Valued<Vec<i64>> {
        match h {
            Array::Identifier(name) => {
                let start = *name as usize * INDEXES;
                Ok(self.arrays[start..start + INDEXES].to_vec())
            }
            Array::Zero => Ok(vec![0; INDEXES]),
            Array::Update(array, index, value) => {
                let mut array = self.array(array)?;
                let index = self.index(index)?;
                array[index] = self.arith(value)?;
                Ok(array)
            }
        }
    }

    /// Request [1]: "A false left side of and, or a true left side of or, shall
    /// settle the test, and the right side is not worked out."
    fn boolean(&self, b: &Bool) -> Valued<bool> {
        match b {
            Bool::Truth(t) => Ok(*t),
            Bool::Compare(comparison, left, right) => {
                let left = self.arith(left)?;
                let right = self.arith(right)?;
                Ok(match comparison {
                    Comparison::Equal => left == right,
                    Comparison::Less => left < right,
                    Comparison::LessOrEqual => left <= right,
                })
            }
            Bool::And(left, right) => Ok(self.boolean(left)? && self.boolean(right)?),
            Bool::Or(left, right) => Ok(self.boolean(left)? || self.boolean(right)?),
            Bool::Not(inner) => Ok(!self.boolean(inner)?),
        }
    }
}
