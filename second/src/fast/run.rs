//! The runner: the command's words interpreted in place.

use super::layout::*;
use super::read::{read, File};
use super::settings::{Limits, Settings};
use super::{refusal, Parts, Refused, Work};

struct Runner<'a> {
    parts: &'a Parts,
    scalars: &'a mut [i64; SCALARS],
    values: &'a mut [i64; ARRAY_VALUES],
    /// The steps that may still be taken.
    left: u64,
}

/// A value, or the number of the refusal that it meets (14 or 15), as wide as the value.
type Valued<T> = Result<T, u64>;

fn refuse<T>(value: Valued<T>, place: usize) -> Result<T, Refused> {
    value.map_err(|number| refusal(number as u32, place))
}

/// Steps × 2^32 + 0 if the run ended, else + number × 65,536 + place.
pub fn run(
    bytes: &[u8],
    budget: u64,
    scalars: &mut [i64],
    values: &mut [i64],
    settings: Settings,
    work: &mut Work,
) -> u64 {
    let parts = &mut work.parts;
    let file = match settings.limits().and_then(|limits| read_within(bytes, budget, limits, parts)) {
        Ok(file) => file,
        Err(refused) => return refused,
    };
    let (Ok(scalars), Ok(values)) = (scalars.try_into(), values.try_into()) else {
        return refusal(11, 0);
    };
    let mut runner = Runner { parts, scalars, values, left: budget };
    let code = runner.command(file.main.command).err().unwrap_or(0);
    (budget - runner.left) << 32 | code
}

/// Refusals 1 to 7, 16 and 10.
fn read_within(bytes: &[u8], budget: u64, limits: Limits, parts: &mut Parts) -> Result<File, Refused> {
    let file = read(bytes, limits, parts)?;
    if budget > MOST_BUDGET {
        return Err(refusal(10, 0));
    }
    Ok(file)
}

impl Runner<'_> {
    /// Refusal 13, tried first at a step.
    #[inline(always)]
    fn due(&self, place: usize) -> Result<(), Refused> {
        if self.left == 0 {
            return Err(refusal(13, place));
        }
        Ok(())
    }

    #[inline(always)]
    fn test(&mut self, part: usize, place: usize) -> Result<bool, Refused> {
        self.due(place)?;
        let value = refuse(self.boolean(part), place)?;
        self.left -= 1;
        Ok(value == 1)
    }

    fn command(&mut self, at: usize) -> Result<(), Refused> {
        let parts = self.parts;
        match parts.kind(at) {
            SKIP => {
                self.due(at)?;
                self.left -= 1;
                Ok(())
            }
            SEQUENCE => {
                self.command(at + 1)?;
                self.command(parts.end(at + 1))
            }
            ASSERT => self.assert(at),
            ASSIGN => {
                self.due(at)?;
                let value = refuse(self.arithmetic(at + 1), at)?;
                self.scalars[parts.payload(at) as usize % SCALARS] = value;
                self.left -= 1;
                Ok(())
            }
            ASSIGN_ARRAY => self.assign_array(at),
            IF => {
                let then = parts.end(at + 1);
                let chosen = if self.test(at + 1, at)? { then } else { parts.end(then) };
                self.command(chosen)
            }
            WHILE => {
                let body = parts.end(at + 1);
                while self.test(at + 1, at)? {
                    self.command(body)?;
                }
                Ok(())
            }
            CALL => {
                self.due(at)?;
                self.left -= 1;
                self.command(parts.called(at).command)
            }
            _ => self.run_for(at, parts.payload(at) as usize),
        }
    }

    /// Refusal 12, tried last at a step.
    fn assert(&mut self, at: usize) -> Result<(), Refused> {
        self.due(at)?;
        if refuse(self.boolean(at + 1), at)? == 0 {
            return Err(refusal(12, at));
        }
        self.left -= 1;
        Ok(())
    }

    fn run_for(&mut self, at: usize, payload: usize) -> Result<(), Refused> {
        let (q, m) = (payload % SCALARS, payload / SCALARS);
        self.due(at)?;
        self.left -= 1;
        self.scalars[q] = 1;
        loop {
            self.due(at)?;
            self.left -= 1;
            if self.scalars[q] > self.scalars[m] {
                return Ok(());
            }
            self.command(at + 1)?;
            self.due(at)?;
            self.scalars[q] = self.scalars[q].checked_add(1).ok_or(refusal(14, at))?;
            self.left -= 1;
        }
    }

    /// Scalars and constants, most of all operands, take no call.
    #[inline(always)]
    fn arithmetic(&self, at: usize) -> Valued<i64> {
        let word = self.parts.words[at];
        match kind(word) {
            CONSTANT => Ok(constant_of(payload(word))),
            SCALAR => Ok(self.scalars[payload(word) as usize % SCALARS]),
            OPERATOR => self.operation(at, payload(word)),
            _ => self.select(at + 1),
        }
    }

    #[inline(never)]
    fn operation(&self, at: usize, operator: u32) -> Valued<i64> {
        let a = self.arithmetic(at + 1)?;
        let b = self.arithmetic(self.parts.end(at + 1))?;
        match operator {
            0 => a.checked_add(b),
            1 => a.checked_sub(b),
            _ => a.checked_mul(b),
        }
        .ok_or(14)
    }

    fn index(&self, at: usize) -> Valued<usize> {
        let value = self.arithmetic(at)?;
        if (0..INDEXES as i64).contains(&value) {
            Ok(value as usize)
        } else {
            Err(15)
        }
    }

    #[inline(never)]
    fn select(&self, array: usize) -> Valued<i64> {
        let index = self.parts.end(array);
        if self.parts.kind(array) == ARRAY {
            return Ok(self.values[INDEXES * self.parts.payload(array) as usize + self.index(index)?]);
        }
        let mut values = [0; INDEXES];
        self.array(array, &mut values)?;
        Ok(values[self.index(index)?])
    }

    fn array(&self, at: usize, out: &mut [i64; INDEXES]) -> Valued<()> {
        match self.parts.kind(at) {
            ARRAY => {
                let start = INDEXES * self.parts.payload(at) as usize;
                out.copy_from_slice(&self.values[start..start + INDEXES]);
            }
            ZERO => *out = [0; INDEXES],
            _ => {
                self.array(at + 1, out)?;
                let (index, value) = self.update(at)?;
                out[index] = value;
            }
        }
        Ok(())
    }

    /// The index and the value of an update.
    fn update(&self, at: usize) -> Valued<(usize, i64)> {
        let index = self.parts.end(at + 1);
        Ok((self.index(index)?, self.arithmetic(self.parts.end(index))?))
    }

    fn assign_array(&mut self, at: usize) -> Result<(), Refused> {
        self.due(at)?;
        refuse(self.put_array(self.parts.payload(at), at + 1), at)?;
        self.left -= 1;
        Ok(())
    }

    fn put_array(&mut self, name: u32, right: usize) -> Valued<()> {
        let start = INDEXES * name as usize;
        // an array with one place changed is changed where it stands
        if self.parts.kind(right) == UPDATE && self.parts.words[right + 1] == word(ARRAY, name) {
            let (index, value) = self.update(right)?;
            self.values[start + index] = value;
            return Ok(());
        }
        let mut values = [0; INDEXES];
        self.array(right, &mut values)?;
        self.values[start..start + INDEXES].copy_from_slice(&values);
        Ok(())
    }

    /// 1 for true, 0 for false.
    fn boolean(&self, at: usize) -> Valued<u64> {
        let word = self.parts.words[at];
        match kind(word) {
            COMPARISON => {
                let a = self.arithmetic(at + 1)?;
                let b = self.arithmetic(self.parts.end(at + 1))?;
                Ok(u64::from(match payload(word) {
                    0 => a == b,
                    1 => a < b,
                    _ => a <= b,
                }))
            }
            TRUTH => Ok(u64::from(payload(word))),
            NOT => Ok(1 ^ self.boolean(at + 1)?),
            // a false left side settles an and, a true one an or
            AND if self.boolean(at + 1)? == 0 => Ok(0),
            OR if self.boolean(at + 1)? == 1 => Ok(1),
            _ => self.boolean(self.parts.end(at + 1)),
        }
    }
}
