//! Natural numbers of any size: sum, difference, product and order.

use std::cmp::Ordering;

/// Digits of 32 bits, lowest first, without zeros at the top.
#[derive(Clone, Debug, PartialEq, Eq)]
pub struct Natural {
    digits: Vec<u32>,
}

impl From<u64> for Natural {
    fn from(value: u64) -> Natural {
        Natural::trimmed(vec![value as u32, (value >> 32) as u32])
    }
}

impl Natural {
    fn trimmed(mut digits: Vec<u32>) -> Natural {
        while digits.last() == Some(&0) {
            digits.pop();
        }
        Natural { digits }
    }

    fn digit(&self, index: usize) -> u64 {
        self.digits.get(index).copied().unwrap_or(0).into()
    }

    pub fn plus(&self, other: &Natural) -> Natural {
        let mut digits = Vec::new();
        let mut carry = 0;
        for index in 0..=self.digits.len().max(other.digits.len()) {
            let sum = self.digit(index) + other.digit(index) + carry;
            digits.push(sum as u32);
            carry = sum >> 32;
        }
        Natural::trimmed(digits)
    }

    /// The difference; `other` must not be the larger.
    pub fn minus(&self, other: &Natural) -> Natural {
        let mut digits = Vec::new();
        let mut borrow = 0;
        for index in 0..self.digits.len().max(other.digits.len()) {
            let rest = (1 << 32) + self.digit(index) - other.digit(index) - borrow;
            digits.push(rest as u32);
            borrow = 1 - (rest >> 32);
        }
        assert_eq!(borrow, 0, "the larger number comes first");
        Natural::trimmed(digits)
    }

    pub fn times(&self, other: &Natural) -> Natural {
        let mut digits = vec![0u32; self.digits.len() + other.digits.len()];
        for (i, &a) in self.digits.iter().enumerate() {
            let mut carry = 0;
            for (j, &b) in other.digits.iter().enumerate() {
                let sum = u64::from(a) * u64::from(b) + u64::from(digits[i + j]) + carry;
                digits[i + j] = sum as u32;
                carry = sum >> 32;
            }
            digits[i + other.digits.len()] = carry as u32;
        }
        Natural::trimmed(digits)
    }

    pub fn compare(&self, other: &Natural) -> Ordering {
        let by_length = self.digits.len().cmp(&other.digits.len());
        by_length.then_with(|| self.digits.iter().rev().cmp(other.digits.iter().rev()))
    }
}

#[cfg(test)]
mod tests {
    use super::*;

    #[test]
    fn sums_and_products_agree_with_machine_numbers() {
        let samples = [
            0,
            1,
            2,
            255,
            0xFFFF_FFFF,
            0x1_0000_0000,
            u64::MAX - 1,
            u64::MAX,
        ];
        let natural = |value: u128| {
            let high = Natural::from((value >> 64) as u64);
            let scale = Natural::from(u64::MAX).plus(&Natural::from(1));
            high.times(&scale).plus(&Natural::from(value as u64))
        };
        for a in samples {
            for b in samples {
                let (x, y) = (Natural::from(a), Natural::from(b));
                let (a, b) = (u128::from(a), u128::from(b));
                assert_eq!(x.plus(&y), natural(a + b));
                assert_eq!(x.times(&y), natural(a * b));
                assert_eq!(x.compare(&y), a.cmp(&b));
                assert_eq!(x.times(&y).plus(&x).minus(&x), natural(a * b));
            }
        }
    }
}
