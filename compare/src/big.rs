//! A signed whole number of any size, with just what the exact scheme and the optimum need.

/// Two's complement, least significant limb first. Never empty, and without a limb that only repeats the sign.
#[derive(Clone, Debug, PartialEq, Eq)]
pub struct Big(Vec<u64>);

impl Big {
    pub fn new(value: i64) -> Big {
        Big(vec![value as u64])
    }

    pub fn wide(value: i128) -> Big {
        let mut wide = Big(vec![value as u64, (value >> 64) as u64]);
        wide.trim();
        wide
    }

    pub fn is_negative(&self) -> bool {
        self.0[self.0.len() - 1] >> 63 == 1
    }

    fn sign_limb(&self) -> u64 {
        if self.is_negative() { u64::MAX } else { 0 }
    }

    /// Adds other × factor. The factor's magnitude is at most 2^62, so that no partial sum leaves an i128.
    pub fn add_product(&mut self, other: &Big, factor: i64) {
        assert!(factor.unsigned_abs() <= 1 << 62);
        let fill = other.sign_limb();
        let length = self.0.len().max(other.0.len()) + 1;
        self.0.resize(length, self.sign_limb());
        let mut carry = 0;
        for (i, limb) in self.0.iter_mut().enumerate() {
            let digit = other.0.get(i).copied().unwrap_or(fill);
            let sum = *limb as i128 + digit as i128 * factor as i128 + carry;
            *limb = sum as u64;
            carry = sum >> 64;
        }
        self.trim();
    }

    fn trim(&mut self) {
        while let [.., below, last] = self.0[..] {
            if last != ((below as i64) >> 63) as u64 {
                break;
            }
            self.0.pop();
        }
    }

    pub fn times(&self, factor: i64) -> Big {
        let mut product = Big::new(0);
        product.add_product(self, factor);
        product
    }

    pub fn minus(&self, other: &Big) -> Big {
        let mut difference = self.clone();
        difference.add_product(other, -1);
        difference
    }

    pub fn at_most(&self, other: &Big) -> bool {
        !other.minus(self).is_negative()
    }

    pub fn magnitude(&self) -> Big {
        self.times(if self.is_negative() { -1 } else { 1 })
    }

    pub fn clamp(self, lower: Big, upper: Big) -> Big {
        if self.at_most(&lower) {
            lower
        } else if upper.at_most(&self) {
            upper
        } else {
            self
        }
    }
}
