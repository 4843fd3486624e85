//! A tiny big integer: sign and magnitude, base 2^32, low digit first.
//! Only what "Language" needs: +, −, × and comparison.

use std::cmp::Ordering;

/// No leading zero digits; zero is not negative.
#[derive(Clone, PartialEq, Eq, Debug)]
pub struct Big {
    negative: bool,
    digits: Vec<u32>,
}

fn compare_digits(a: &[u32], b: &[u32]) -> Ordering {
    if a.len() != b.len() {
        return a.len().cmp(&b.len());
    }
    for i in (0..a.len()).rev() {
        if a[i] != b[i] {
            return a[i].cmp(&b[i]);
        }
    }
    Ordering::Equal
}

fn add_digits(a: &[u32], b: &[u32]) -> Vec<u32> {
    let mut out = Vec::new();
    let mut carry = 0u64;
    for i in 0..a.len().max(b.len()) {
        let x = u64::from(a.get(i).copied().unwrap_or(0));
        let y = u64::from(b.get(i).copied().unwrap_or(0));
        let sum = x + y + carry;
        out.push(sum as u32);
        carry = sum >> 32;
    }
    out.push(carry as u32);
    out
}

/// a − b, where a is at least b.
fn subtract_digits(a: &[u32], b: &[u32]) -> Vec<u32> {
    let mut out = Vec::new();
    let mut borrow = 0i64;
    for i in 0..a.len() {
        let x = i64::from(a[i]);
        let y = i64::from(b.get(i).copied().unwrap_or(0));
        let mut difference = x - y - borrow;
        borrow = 0;
        if difference < 0 {
            difference += 1 << 32;
            borrow = 1;
        }
        out.push(difference as u32);
    }
    out
}

fn multiply_digits(a: &[u32], b: &[u32]) -> Vec<u32> {
    let mut out = vec![0u32; a.len() + b.len()];
    for i in 0..a.len() {
        let mut carry = 0u64;
        for j in 0..b.len() {
            let sum = u64::from(out[i + j]) + u64::from(a[i]) * u64::from(b[j]) + carry;
            out[i + j] = sum as u32;
            carry = sum >> 32;
        }
        out[i + b.len()] = carry as u32;
    }
    out
}

impl Big {
    fn made(negative: bool, mut digits: Vec<u32>) -> Big {
        while digits.last() == Some(&0) {
            digits.pop();
        }
        let negative = negative && !digits.is_empty();
        Big { negative, digits }
    }

    pub fn from(value: i64) -> Big {
        let magnitude = value.unsigned_abs();
        Big::made(value < 0, vec![magnitude as u32, (magnitude >> 32) as u32])
    }

    pub fn negated(&self) -> Big {
        Big::made(!self.negative, self.digits.clone())
    }

    pub fn plus(&self, other: &Big) -> Big {
        if self.negative == other.negative {
            return Big::made(self.negative, add_digits(&self.digits, &other.digits));
        }
        match compare_digits(&self.digits, &other.digits) {
            Ordering::Less => Big::made(other.negative, subtract_digits(&other.digits, &self.digits)),
            _ => Big::made(self.negative, subtract_digits(&self.digits, &other.digits)),
        }
    }

    pub fn minus(&self, other: &Big) -> Big {
        self.plus(&other.negated())
    }

    pub fn times(&self, other: &Big) -> Big {
        Big::made(self.negative != other.negative, multiply_digits(&self.digits, &other.digits))
    }

    /// The digits in use, to bound a run that squares for ever.
    pub fn size(&self) -> usize {
        self.digits.len()
    }

    pub fn is_zero(&self) -> bool {
        self.digits.is_empty()
    }
}

impl Ord for Big {
    fn cmp(&self, other: &Big) -> Ordering {
        match (self.negative, other.negative) {
            (true, false) => Ordering::Less,
            (false, true) => Ordering::Greater,
            (false, false) => compare_digits(&self.digits, &other.digits),
            (true, true) => compare_digits(&other.digits, &self.digits),
        }
    }
}

impl PartialOrd for Big {
    fn partial_cmp(&self, other: &Big) -> Option<Ordering> {
        Some(self.cmp(other))
    }
}

#[cfg(test)]
mod tests {
    use super::*;

    /// The value, if it fits.
    fn value(b: &Big) -> i128 {
        let mut out = 0i128;
        for d in b.digits.iter().rev() {
            out = out * (1 << 32) + i128::from(*d);
        }
        if b.negative {
            -out
        } else {
            out
        }
    }

    #[test]
    fn agrees_with_i128() {
        let some = [0, 1, -1, 2, -2, 7, 1 << 32, -(1 << 32), (1 << 32) - 1, i64::MAX, i64::MIN, i64::MIN + 1];
        for a in some {
            for b in some {
                let (x, y) = (Big::from(a), Big::from(b));
                let (a, b) = (i128::from(a), i128::from(b));
                assert_eq!(value(&x), a);
                assert_eq!(value(&x.plus(&y)), a + b);
                assert_eq!(value(&x.minus(&y)), a - b);
                assert_eq!(x.cmp(&y), a.cmp(&b));
                assert_eq!(x == y, a == b);
                if let Some(product) = a.checked_mul(b) {
                    assert_eq!(value(&x.times(&y)), product);
                }
            }
        }
        let top = Big::from(i64::MIN);
        let fourth = top.times(&top).times(&top).times(&top);
        assert_eq!(fourth.minus(&fourth), Big::from(0));
        assert!(fourth > top.times(&top));
        assert!(fourth.negated() < top);
    }
}
